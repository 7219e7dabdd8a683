/*
 * The places of a case log: the calls of the library libplacelist, for C99 and C++.
 *
 * "Document 01" is the written scope of this library (docs/SCOPE.md of its repository has it); its
 * own word for a thing stands in brackets. Every call is proved, for all arguments that keep the
 * rules below, to answer and to leave in the buffers what document 01 says, and to return.
 *
 * Activities, sets and places
 *   An activity is a code from 0 to 15. Code 0 is the start of a case, code 1 its end. A set of
 *   activities is a 16-bit number: code a is the bit 1 << a. A place has a set of inputs, which each
 *   put a token in, and a set of outputs, which each take one out.
 *
 * The log
 *   Text, a frame for each line: eight digits of how many cases went this way (00000001 to
 *   FFFFFFFF), two digits for each activity, a line feed. Digits are 0-9 and A-F. A frame has 2 to
 *   254 activities, starts with 00, ends with 01 and has neither in between. A log has 1 to 4,096
 *   frames, and so at most 17,592,186,040,320 cases, a number of 64 bits. Lines count from 0. The
 *   trace of a frame has an event for each activity, in order, and they too count from 0.
 *
 * Answers
 *   Every call but placelist_version returns the number of its refusal, an enum placelist_refusal:
 *   0 where it is not refused. *value is written by each of them: what the list of refusals says,
 *   and 0 where the call is not refused. All other results and buffers are written only where the
 *   call is not refused; after a refusal they are as they were.
 *
 * What a caller has to keep. The library cannot see where one of these is broken, and the behaviour
 * is then undefined:
 *   - Every pointer is valid for its length, which counts elements and not bytes, and is aligned for
 *     its type. No buffer is larger than PTRDIFF_MAX bytes. Buffers that a call reads hold
 *     initialised elements; those that it writes may hold anything.
 *   - No pointer to a result is null: neither value, nor counts, least, last, missing, verdict,
 *     line, event, run or count.
 *   - No two of the things that a call is given overlap: buffers, results and value.
 *   - While a call runs, no other thread writes to what it was given, and none reads what it writes
 *     to.
 *
 * Buffers of length 0
 *   Nothing is read or written through the pointer of a buffer of length 0, so it may be any, also
 *   null: data() of an empty std::vector, and what C# passes for an empty array, can be given as they
 *   are. An empty text is then refused as every empty log is. (The proofs are about buffers, not
 *   pointers; that a null pointer does no harm is tested for every buffer of every call.)
 *
 * Ownership
 *   The caller owns every buffer, before, during and after the call. The library allocates nothing,
 *   frees nothing and keeps no pointer. It has no state of its own: calls on different buffers may
 *   run in several threads at once, and a text or list that is only read may be given to all of them.
 *
 * The stack
 *   A call takes at most PLACELIST_MOST_STACK bytes of the stack of the thread that makes it. That
 *   is measured, not proved: check, replay and write take less than 300, reduce 26,300, judge and
 *   search 33,200, report 74,300, summarize 99,500, of which 98,304 are its two work arrays, the
 *   index of the log and a word for each frame. library/tests/stack.c measures it again, and the
 *   tests hold it to the constant. Its inputs drive each call to its deepest, but for summarize,
 *   which sorts: its depth depends on the order of the words, and is measured on 16 orders. The
 *   constant leaves about 15,000 bytes above what was measured.
 *
 * The library is for x86-64 Linux, and needs nothing but the C library.
 */
#ifndef PLACELIST_H
#define PLACELIST_H

#include <inttypes.h>
#include <stddef.h>
#include <stdint.h>
#include <stdio.h>

#ifdef __cplusplus
extern "C" {
#endif

/* ---- Version ---- */

/*
 * The version of this header. The major part is raised where a format or the arguments of a call
 * change, and is the number in the name of the shared object; the minor where something is added.
 */
#define PLACELIST_VERSION_MAJOR 3
#define PLACELIST_VERSION_MINOR 0
#define PLACELIST_VERSION_PATCH 0
#define PLACELIST_VERSION \
    (PLACELIST_VERSION_MAJOR * 65536 + PLACELIST_VERSION_MINOR * 256 + PLACELIST_VERSION_PATCH)

/* ---- Limits ---- */

#define PLACELIST_LEAST_ACTIVITIES 2 /* the least activity bound */
#define PLACELIST_MOST_ACTIVITIES 16 /* the largest activity bound */
#define PLACELIST_MOST_THRESHOLD 1000 /* the largest threshold, in thousandths */

#define PLACELIST_MOST_FRAMES 4096 /* frames of a log */
#define PLACELIST_MOST_FRAME_ACTIVITIES 254 /* activities of a frame */
#define PLACELIST_MOST_FRAME_BYTES 517 /* bytes of the longest frame: 8 + 2 * 254 + 1 */
#define PLACELIST_MOST_LOG_BYTES 2117632 /* bytes of the longest log: 4,096 * 517 */

#define PLACELIST_LINE_BYTES 9 /* bytes of a place in a written list */

/* The program placelist, and so placelist_report. */
#define PLACELIST_MOST_INPUT 65536 /* the most bytes of input that it takes */
#define PLACELIST_MOST_OUTPUT 36883 /* the room for its output: 4,096 lines of 9 bytes, one of 19 */
#define PLACELIST_PROGRAM_REJECTED 1024 /* words of its cache of rejected places */
#define PLACELIST_PROGRAM_FOUND 4096 /* words of its list of found places */
#define PLACELIST_PROGRAM_BUDGET 1000000 /* its replay budget */

#define PLACELIST_MOST_STACK 114688 /* bytes of the stack that suffice for every call */
#define PLACELIST_EXPLAIN_BYTES 128 /* room that suffices for placelist_explain */

/* ---- Numbers ---- */

/*
 * What a call returns, when, and what value holds beside it.
 *
 *   0                  the call is not refused. Value: 0
 *   1 [setting]        activities, most_inputs, most_outputs or threshold is out of its range: 2 to
 *                      16; 1 to activities; 1 to activities; 0 to 1000. Value: 0
 *   2 [broken frame]   a line has no line feed, an odd number of digits or fewer than 12, a byte
 *                      that is no digit, or a case count of 00000000. Value: the line
 *   3 [stranger]       an activity code is the bound or more. Value: the line
 *   4 [loose ends]     the first activity is not 00, the last is not 01, or 00 or 01 stands in
 *                      between. Value: the line
 *   5 [oversize]       a frame has more than 254 activities, or a line has index 4,096. Value: the
 *                      line
 *   6 [empty log]      a text has no bytes. Value: 0
 *   7 [no place]       a set is empty or has a code of the bound or more. Value: the index in the
 *                      list, 0 for one place
 *   8 [cramped]        the buffer to be written is too short. Value: 0
 *
 * Where several hold, the first of this order is answered: 1; 7; 8; 6; then what the first line with
 * a fault has, 5 for its index before 2, then 5 for its length, 3, 4. For placelist_summarize 8 comes
 * last, as only a log without a fault says how much room it needs. A call skips the checks of what it
 * is not given. placelist_reduce and placelist_write are given no activity bound; it is 16 there.
 */
enum placelist_refusal {
    PLACELIST_NOT_REFUSED = 0,
    PLACELIST_INVALID_SETTING = 1,
    PLACELIST_MALFORMED_FRAME = 2,
    PLACELIST_UNKNOWN_ACTIVITY = 3,
    PLACELIST_MISPLACED_ENDPOINT = 4,
    PLACELIST_TOO_LARGE = 5,
    PLACELIST_EMPTY_LOG = 6,
    PLACELIST_INVALID_PLACE = 7,
    PLACELIST_BUFFER_TOO_SMALL = 8
};

/* The verdict on a place, and the mark of a rejected word, which is never 0. */
enum placelist_verdict {
    PLACELIST_FITTING = 0,
    PLACELIST_UNDERFED = 1,
    PLACELIST_OVERFED = 2,
    PLACELIST_BOTH = 3
};

/* How a search ended. */
enum placelist_end {
    PLACELIST_COMPLETE = 0, /* after the last candidate: every fitting place was found */
    PLACELIST_BUDGET_SPENT = 1, /* a candidate needed a replay, and the budget was used up */
    PLACELIST_LIST_FULL = 2 /* a candidate fitted, and found had no room for it */
};

/* What placelist_check writes into counts. */
enum placelist_size_index {
    PLACELIST_SIZE_FRAMES = 0,
    PLACELIST_SIZE_CASES = 1,
    PLACELIST_SIZE_LENGTH = 2
};

/* What placelist_judge writes into counts: numbers of cases, which add up to all cases of the log. */
enum placelist_case_index {
    PLACELIST_CASES_FITTING = 0,
    PLACELIST_CASES_UNDERFED = 1, /* underfed only */
    PLACELIST_CASES_OVERFED = 2, /* overfed only */
    PLACELIST_CASES_BOTH = 3,
    PLACELIST_CASES_LENGTH = 4
};

/* What placelist_summarize writes for each variant: the words of an entry. */
enum placelist_variant_index {
    PLACELIST_VARIANT_FIRST_LINE = 0,
    PLACELIST_VARIANT_FRAMES = 1,
    PLACELIST_VARIANT_CASES = 2,
    PLACELIST_VARIANT_LENGTH = 3
};

/* What placelist_search writes into run. */
enum placelist_run_index {
    PLACELIST_RUN_END = 0, /* an enum placelist_end */
    PLACELIST_RUN_FOUND = 1, /* [listed] words written to found */
    PLACELIST_RUN_REJECTED = 2, /* [shelved] words written to rejected */
    PLACELIST_RUN_REPLAYS = 3, /* candidates that were replayed, at most the budget */
    PLACELIST_RUN_VISITS = 4, /* candidates that were visited */
    PLACELIST_RUN_LENGTH = 5
};

/* What a result that is the index of an event or a line holds where there is none. */
#define PLACELIST_NONE (-1)

/* ---- Words ---- */

/*
 * A place word is inputs + 65536 * outputs, in 32 bits. A rejected word has 64: it is the place word
 * + 2^32 * mark. The functions that take a place apart take both kinds.
 */

/* The word of a place. */
static inline uint32_t placelist_word(uint16_t inputs, uint16_t outputs)
{
    return (uint32_t)inputs | (uint32_t)outputs << 16;
}

/* The inputs of a place word or of a rejected word. */
static inline uint16_t placelist_inputs(uint64_t word)
{
    return (uint16_t)(word & 0xFFFF);
}

/* The outputs of a place word or of a rejected word. */
static inline uint16_t placelist_outputs(uint64_t word)
{
    return (uint16_t)(word >> 16 & 0xFFFF);
}

/*
 * The mark of a rejected word, all above its lower 32 bits: why the place was rejected, an enum
 * placelist_verdict in every word that a search writes.
 */
static inline uint32_t placelist_mark(uint64_t rejected)
{
    return (uint32_t)(rejected >> 32);
}

/* ---- Refusals in words ---- */

/*
 * Writes a refusal in words: the text, with a 0 at its end, as far as text_len bytes hold it. Answers
 * the length of the whole text, without that 0, as snprintf does. Number and value are those of a
 * call.
 */
static inline int placelist_explain(uint8_t number, uint64_t value, char *text, size_t text_len)
{
    const char *words = "";
    switch (number) {
    case PLACELIST_NOT_REFUSED:
        return snprintf(text, text_len, "not refused");
    case PLACELIST_INVALID_SETTING:
        return snprintf(text, text_len, "a setting is out of its range");
    case PLACELIST_MALFORMED_FRAME:
        words = "is no frame";
        break;
    case PLACELIST_UNKNOWN_ACTIVITY:
        words = "has an unknown activity";
        break;
    case PLACELIST_MISPLACED_ENDPOINT:
        words = "does not run from 00 to 01 with neither in between";
        break;
    case PLACELIST_TOO_LARGE:
        words = "is too long or one too many";
        break;
    case PLACELIST_EMPTY_LOG:
        return snprintf(text, text_len, "the log is empty");
    case PLACELIST_INVALID_PLACE:
        return snprintf(text, text_len, "word %" PRIu64 " stands for no place", value);
    case PLACELIST_BUFFER_TOO_SMALL:
        return snprintf(text, text_len, "the buffer to be written is too short");
    default:
        return snprintf(text, text_len, "refusal %u", (unsigned)number);
    }
    return snprintf(text, text_len, "line %" PRIu64 " of the log %s", value, words);
}

/* ---- Calls ---- */

/*
 * The version of the library that a program runs with, as PLACELIST_VERSION: the two differ where the
 * program was compiled with another header.
 */
uint32_t placelist_version(void);

/*
 * Checks a log.
 *
 *   activities       the activity bound [A]: codes run from 0 to activities - 1
 *   text, text_len   the log, and its bytes
 *   value            see the list of refusals
 *   counts           counts[0]: the frames of the log, at most 4,096; counts[1]: its cases [N], the
 *                    sum of all case counts, at most 17,592,186,040,320
 *
 * Refusals, in order: 1 (activities), 6, then of the first faulty line 5, 2, 3 or 4.
 */
uint8_t placelist_check(uint8_t activities, const uint8_t *text, size_t text_len, uint64_t *value,
                        uint64_t counts[PLACELIST_SIZE_LENGTH]);

/*
 * Checks the whole log and replays its first line on a place.
 *
 *   activities       the activity bound
 *   text, text_len   the log, and its bytes
 *   inputs, outputs  the place, a set each
 *   value            see the list of refusals
 *   least            [low] the least token balance over the events of the trace, each taken after the
 *                    outputs of the event and before its inputs: -254 to 0. Below 0 the trace
 *                    underfeeds the place
 *   last             [end] the balance after the trace: -254 to 254. Above 0 the trace overfeeds the
 *                    place
 *   missing          the first event at which a token is missing, that is, at which the balance,
 *                    taken as for least, is below 0: its index, 0 to 253. PLACELIST_NONE where
 *                    there is none, and so exactly where least is 0
 *
 * Refusals, in order: 1 (activities), 7 (value 0), 6, then of the first faulty line 5, 2, 3 or 4.
 */
uint8_t placelist_replay(uint8_t activities, const uint8_t *text, size_t text_len, uint16_t inputs,
                         uint16_t outputs, uint64_t *value, int16_t *least, int16_t *last,
                         int32_t *missing);

/*
 * Judges a place over a log.
 *
 *   activities       the activity bound
 *   threshold        [T] thousandths of the cases: the place is underfed where more than this share of
 *                    all cases underfeeds it, and overfed where more than this share overfeeds it
 *   text, text_len   the log, and its bytes
 *   inputs, outputs  the place, a set each
 *   value            see the list of refusals
 *   counts           the cases that fit, that are underfed only, overfed only, and both: each is at
 *                    most 17,592,186,040,320, as their sum is
 *   verdict          an enum placelist_verdict
 *   line             the first line whose trace underfeeds the place: 0 to 4,095. PLACELIST_NONE
 *                    where no trace does, and so exactly where counts has 0 for underfed only and
 *                    for both
 *   event            the first event of that line at which a token is missing, as in
 *                    placelist_replay: 0 to 253. PLACELIST_NONE where there is no such line. Line
 *                    and event do not depend on the threshold
 *
 * Refusals, in order: 1 (activities, threshold), 7 (value 0), 6, then of the first faulty line 5, 2, 3
 * or 4.
 */
uint8_t placelist_judge(uint8_t activities, uint16_t threshold, const uint8_t *text, size_t text_len,
                        uint16_t inputs, uint16_t outputs, uint64_t *value,
                        uint64_t counts[PLACELIST_CASES_LENGTH], uint8_t *verdict, int32_t *line,
                        int32_t *event);

/*
 * Summarizes a log by its variants [kinds]: how many there are, and of each where it begins, how
 * many frames and how many cases it has. Two frames are of one variant when each activity occurs
 * equally often in both; the order of the activities is ignored.
 *
 *   activities       the activity bound
 *   text, text_len   the log, and its bytes
 *   entries,         receives an entry of PLACELIST_VARIANT_LENGTH words for each variant, from the
 *   entries_len      front: the first line that is of the variant; its frames, the number of lines that
 *                    are of it; its cases, the sum of their case counts. Variants with more cases come
 *                    first; of two with as many cases, the one with the earlier first line. The frames
 *                    of all entries add up to the frames of the log, and the cases to its cases [N].
 *                    There is room for entries_len / PLACELIST_VARIANT_LENGTH entries, rounded
 *                    down; PLACELIST_VARIANT_LENGTH * PLACELIST_MOST_FRAMES words suffice for every
 *                    log. Beyond the entries written it is unchanged, also in one or two words that
 *                    are no whole entry
 *   value            see the list of refusals
 *   count            how many variants the log has, and so how many entries were written
 *
 * Refusals, in order: 1 (activities), 6, then of the first faulty line 5, 2, 3 or 4, then 8 (room for
 * fewer entries than the log has variants; value 0).
 */
uint8_t placelist_summarize(uint8_t activities, const uint8_t *text, size_t text_len,
                            uint64_t *entries, size_t entries_len, uint64_t *value,
                            uint64_t *count);

/*
 * Searches [walks] all places of at most so many inputs and outputs, and lists those that fit the log.
 * If it completes, it has found all of them, each once.
 *
 *   activities       the activity bound
 *   most_inputs      [mi] the most inputs of a place
 *   most_outputs     [mo] the most outputs of a place
 *   threshold        the threshold in thousandths, as for placelist_judge
 *   text, text_len   the log, and its bytes
 *   budget           [allowance] the most replays
 *   rejected,        [shelf] the cache of rejected places, as rejected words written from the front, of
 *   rejected_len     any length, also 0. A search that completes with a short one completes with a
 *                    longer one too: with the same found words, and as many replays and visits or
 *                    fewer. The rejected words and their number can change
 *   found, found_len [list] the places that fit, as place words in the order of candidates, written
 *                    from the front, of any length, also 0
 *   value            see the list of refusals
 *   run              how the search ended and what it counted
 *
 * What both buffers held before is not read; beyond the words written it is unchanged.
 *
 * Refusals, in order: 1 (activities, most_inputs, most_outputs, threshold), 6, then of the first faulty
 * line 5, 2, 3 or 4.
 */
uint8_t placelist_search(uint8_t activities, uint8_t most_inputs, uint8_t most_outputs,
                         uint16_t threshold, const uint8_t *text, size_t text_len, uint32_t budget,
                         uint64_t *rejected, size_t rejected_len, uint32_t *found, size_t found_len,
                         uint64_t *value, uint64_t run[PLACELIST_RUN_LENGTH]);

/*
 * Reduces [thins] a list of places: leaves out each one that is made up by two or more places of the
 * list of which no two have an input or an output in common, and keeps the rest in order.
 *
 *   words, words_len the list, as place words
 *   kept, kept_len   receives the words that are kept, from the front; at least words_len long. Beyond
 *                    them it is unchanged
 *   value            see the list of refusals
 *   count            how many words were kept
 *
 * Refusals, in order: 7 (value: the index of the first word with an empty set), 8 (kept_len below
 * words_len).
 */
uint8_t placelist_reduce(const uint32_t *words, size_t words_len, uint32_t *kept, size_t kept_len,
                         uint64_t *value, uint64_t *count);

/*
 * Writes a list of places as text: for each place four digits of inputs, four of outputs, a line feed.
 *
 *   words, words_len the list, as place words
 *   text, text_len   receives the lines, from the front; at least PLACELIST_LINE_BYTES * words_len
 *                    long. Beyond them it is unchanged, and no 0 is put at the end
 *   value            see the list of refusals
 *   count            how many bytes were written
 *
 * Refusals, in order: 7 (value: the index of the first word with an empty set), 8 (text too short).
 */
uint8_t placelist_write(const uint32_t *words, size_t words_len, uint8_t *text, size_t text_len,
                        uint64_t *value, uint64_t *count);

/*
 * The program placelist from its input to its output: reads a settings frame and a log, searches, and
 * writes the list, reduced if the search completed, and a last line of how it ended.
 *
 *   input, input_len   a settings frame (two digits each of activities, most_inputs and most_outputs,
 *                      four of threshold, a line feed), then the log
 *   output, output_len receives the output from the front; at least PLACELIST_MOST_OUTPUT long. Beyond
 *                      it it is unchanged
 *   value              see the list of refusals
 *   count              how many bytes were written
 *
 * Refusals: 8 (output_len below PLACELIST_MOST_OUTPUT). No other: an input that the program refuses is
 * answered in the output, as it does, by one line of FF, two digits of the number and eight of the
 * value; an input of more than PLACELIST_MOST_INPUT bytes is number 5.
 */
uint8_t placelist_report(const uint8_t *input, size_t input_len, uint8_t *output, size_t output_len,
                         uint64_t *value, uint64_t *count);

#ifdef __cplusplus
}
#endif

#endif

/*
 * Every call of the header once, on worked cases, most of them of document 01: that the header
 * declares what the library has. Then where the first token is missing, large case counts, frames
 * about as short and as long as they can be, the case counts of version 1, null pointers for
 * buffers of length 0, the version and the words of the refusals. C99 and C++. Says which line
 * failed; the exit status is 0 only if none did.
 */
#include <stdio.h>
#include <string.h>

#include <placelist.h>

static int failures;

static void expect(int line, int holds)
{
    if (!holds) {
        printf("calls.c, line %d: not as expected\n", line);
        failures++;
    }
}

#define EXPECT(holds) expect(__LINE__, holds)

static const uint8_t short_log[] = "00000001000201\n"; /* M6 and M11 */
#define SHORT_LENGTH (sizeof short_log - 1)

static void check_and_replay(void)
{
    uint64_t value = 99, counts[PLACELIST_SIZE_LENGTH] = { 99, 99 };
    EXPECT(placelist_check(2, short_log, SHORT_LENGTH, &value, counts) == PLACELIST_UNKNOWN_ACTIVITY);
    EXPECT(value == 0 && counts[0] == 99 && counts[1] == 99);
    EXPECT(placelist_check(3, short_log, SHORT_LENGTH, &value, counts) == PLACELIST_NOT_REFUSED);
    EXPECT(value == 0 && counts[PLACELIST_SIZE_FRAMES] == 1 && counts[PLACELIST_SIZE_CASES] == 1);

    int16_t least = 99, last = 99;
    int32_t missing = 99;
    EXPECT(placelist_replay(3, short_log, SHORT_LENGTH, 0, 4, &value, &least, &last, &missing)
           == PLACELIST_INVALID_PLACE);
    EXPECT(value == 0 && least == 99 && last == 99 && missing == 99);
    EXPECT(placelist_replay(3, short_log, SHORT_LENGTH, 4, 4, &value, &least, &last, &missing)
           == PLACELIST_NOT_REFUSED);
    EXPECT(value == 0 && least == -1 && last == 0 && missing == 1);
}

static const uint8_t four_lines[] = "0000001F0002030401\n0000001B0003020401\n"
                                    "000000170002030501\n000000130003020501\n"; /* M7 */
#define FOUR_LINES_LENGTH (sizeof four_lines - 1)

static void judge(void)
{
    uint64_t value = 99, counts[PLACELIST_CASES_LENGTH] = { 99, 99, 99, 99 };
    uint8_t verdict = 99;
    int32_t line = 99, event = 99;
    EXPECT(placelist_judge(5, 420, four_lines, FOUR_LINES_LENGTH, 0x0001, 0x0010, &value, counts,
                           &verdict, &line, &event)
           == PLACELIST_UNKNOWN_ACTIVITY);
    EXPECT(value == 2 && verdict == 99 && line == 99 && event == 99);
    EXPECT(placelist_judge(6, 419, four_lines, FOUR_LINES_LENGTH, 0x0001, 0x0010, &value, counts,
                           &verdict, &line, &event)
           == PLACELIST_NOT_REFUSED);
    EXPECT(value == 0 && verdict == PLACELIST_OVERFED);
    EXPECT(counts[PLACELIST_CASES_FITTING] == 58 && counts[PLACELIST_CASES_UNDERFED] == 0);
    EXPECT(counts[PLACELIST_CASES_OVERFED] == 42 && counts[PLACELIST_CASES_BOTH] == 0);
    EXPECT(line == PLACELIST_NONE && event == PLACELIST_NONE);
    EXPECT(placelist_judge(6, 420, four_lines, FOUR_LINES_LENGTH, 0x0001, 0x0010, &value, counts,
                           &verdict, &line, &event)
           == PLACELIST_NOT_REFUSED);
    EXPECT(verdict == PLACELIST_FITTING);
}

/* That an entry has these words. */
static void expect_entry(int line, const uint64_t *entry, uint64_t first_line, uint64_t frames,
                         uint64_t cases)
{
    expect(line, entry[PLACELIST_VARIANT_FIRST_LINE] == first_line);
    expect(line, entry[PLACELIST_VARIANT_FRAMES] == frames);
    expect(line, entry[PLACELIST_VARIANT_CASES] == cases);
}

/* three variants: two frames of one in two orders, then two with as many cases as one another */
static void summarize(void)
{
    static const uint8_t log[] = "00000002000301\n00000001000202030301\n00000002000201\n"
                                 "00000003000302030201\n";
    uint64_t value = 99, count = 99, entries[11];
    memset(entries, 99, sizeof entries);
    const uint64_t old = entries[0];
    EXPECT(placelist_summarize(3, log, sizeof log - 1, entries, 8, &value, &count)
           == PLACELIST_UNKNOWN_ACTIVITY);
    EXPECT(value == 0 && count == 99);
    EXPECT(placelist_summarize(4, log, sizeof log - 1, entries, 8, &value, &count)
           == PLACELIST_BUFFER_TOO_SMALL);
    EXPECT(value == 0 && count == 99 && entries[0] == old && entries[7] == old);
    EXPECT(placelist_summarize(4, log, sizeof log - 1, entries, 11, &value, &count)
           == PLACELIST_NOT_REFUSED);
    EXPECT(value == 0 && count == 3 && entries[9] == old && entries[10] == old);
    expect_entry(__LINE__, entries, 1, 2, 4);
    expect_entry(__LINE__, entries + PLACELIST_VARIANT_LENGTH, 0, 1, 2);
    expect_entry(__LINE__, entries + 2 * PLACELIST_VARIANT_LENGTH, 2, 1, 2);
}

/* M11 and M12 */
static void search_reduce_and_write(void)
{
    uint64_t value = 99, count = 99, run[PLACELIST_RUN_LENGTH], rejected[16];
    uint32_t found[5] = { 0, 0, 0, 0, 99 }, kept[4] = { 0, 0, 0, 99 };
    uint8_t text[28];
    text[27] = 99;
    EXPECT(placelist_search(3, 2, 2, 0, short_log, SHORT_LENGTH, 36, rejected, 16, found, 5, &value,
                            run)
           == PLACELIST_NOT_REFUSED);
    EXPECT(value == 0 && run[PLACELIST_RUN_END] == PLACELIST_COMPLETE);
    EXPECT(run[PLACELIST_RUN_FOUND] == 4 && run[PLACELIST_RUN_REJECTED] == 15);
    EXPECT(run[PLACELIST_RUN_REPLAYS] == 19 && run[PLACELIST_RUN_VISITS] == 36);
    EXPECT(found[2] == placelist_word(5, 6) && found[4] == 99);
    EXPECT(placelist_inputs(found[2]) == 5 && placelist_outputs(found[2]) == 6);
    /* the first candidate, 0001/0001, takes its token before it puts one in */
    EXPECT(placelist_inputs(rejected[0]) == 1 && placelist_outputs(rejected[0]) == 1);
    EXPECT(placelist_mark(rejected[0]) == PLACELIST_UNDERFED);

    EXPECT(placelist_reduce(found, 4, kept, 3, &value, &count) == PLACELIST_BUFFER_TOO_SMALL);
    EXPECT(value == 0 && count == 99);
    EXPECT(placelist_reduce(found, 4, kept, 4, &value, &count) == PLACELIST_NOT_REFUSED);
    EXPECT(value == 0 && count == 3 && kept[3] == 99);

    EXPECT(placelist_write(kept, 3, text, sizeof text, &value, &count) == PLACELIST_NOT_REFUSED);
    EXPECT(value == 0 && count == 27 && text[27] == 99);
    EXPECT(memcmp(text, "00010002\n00040002\n00010004\n", 27) == 0);
    found[1] = 0;
    EXPECT(placelist_write(found, 4, text, sizeof text, &value, &count) == PLACELIST_INVALID_PLACE);
    EXPECT(value == 1 && count == 27);
}

/* the case of the program placelist */
static void report(void)
{
    static const uint8_t input[] = "0303010000\n000000010001\n";
    static const char expected[] = "00010002\n00050002\n00040004\n000000000C0000000F\n";
    static uint8_t output[PLACELIST_MOST_OUTPUT];
    uint64_t value = 99, count = 99;
    EXPECT(placelist_report(input, sizeof input - 1, output, sizeof output - 1, &value, &count)
           == PLACELIST_BUFFER_TOO_SMALL);
    EXPECT(value == 0 && count == 99 && output[0] == 0);
    EXPECT(placelist_report(input, sizeof input - 1, output, sizeof output, &value, &count)
           == PLACELIST_NOT_REFUSED);
    EXPECT(value == 0 && count == sizeof expected - 1);
    EXPECT(memcmp(output, expected, sizeof expected - 1) == 0);
}

/* What replaying a log's first trace on a place answers. */
static void expect_replay(int line, const char *log, uint16_t inputs, uint16_t outputs, int least,
                          int last, int missing)
{
    uint64_t value = 99;
    int16_t balances[] = { 99, 99 };
    int32_t event = 99;
    expect(line, placelist_replay(6, (const uint8_t *)log, strlen(log), inputs, outputs, &value,
                                  &balances[0], &balances[1], &event)
                     == PLACELIST_NOT_REFUSED);
    expect(line, value == 0 && balances[0] == least && balances[1] == last && event == missing);
}

/* M1 to M5, an event that is the first of its trace, and more tokens missing after the first */
static void missing_in_a_trace(void)
{
    static const char straight[] = "00000001000203040501\n", repeated[] = "0000000100040202030301\n";
    expect_replay(__LINE__, straight, 0x0001, 0x0004, 0, 0, PLACELIST_NONE);
    expect_replay(__LINE__, straight, 0x0004, 0x0030, -1, -1, 4);
    expect_replay(__LINE__, straight, 0x0030, 0x0002, 0, 1, PLACELIST_NONE);
    expect_replay(__LINE__, repeated, 0x0004, 0x0030, -1, 1, 1);
    expect_replay(__LINE__, repeated, 0x0001, 0x0004, -1, -1, 3);
    expect_replay(__LINE__, straight, 0x0002, 0x0001, -1, 0, 0);
    expect_replay(__LINE__, straight, 0x0002, 0x001C, -3, -2, 1);
}

/* That this is where M7's log first has a token of the place missing, at any threshold. */
static void expect_missing(int line, uint16_t inputs, uint16_t outputs, int first_line, int event)
{
    static const uint16_t thresholds[] = { 0, 419, 420, PLACELIST_MOST_THRESHOLD };
    for (size_t i = 0; i < sizeof thresholds / sizeof thresholds[0]; i++) {
        uint64_t value = 99, counts[PLACELIST_CASES_LENGTH];
        uint8_t verdict;
        int32_t at_line = 99, at_event = 99;
        expect(line, placelist_judge(6, thresholds[i], four_lines, FOUR_LINES_LENGTH, inputs, outputs,
                                     &value, counts, &verdict, &at_line, &at_event)
                         == PLACELIST_NOT_REFUSED);
        expect(line, value == 0 && at_line == first_line && at_event == event);
        int underfed = counts[PLACELIST_CASES_UNDERFED] + counts[PLACELIST_CASES_BOTH] != 0;
        expect(line, underfed == (at_line != PLACELIST_NONE));
    }
}

/* in no line, in the first, in a later one, underfed only and both */
static void missing_in_a_log(void)
{
    expect_missing(__LINE__, 0x0001, 0x0002, PLACELIST_NONE, PLACELIST_NONE);
    expect_missing(__LINE__, 0x0001, 0x0010, PLACELIST_NONE, PLACELIST_NONE);
    expect_missing(__LINE__, 0x0002, 0x0001, 0, 0);
    expect_missing(__LINE__, 0x0008, 0x0004, 0, 1);
    expect_missing(__LINE__, 0x0004, 0x0008, 1, 1);
    expect_missing(__LINE__, 0x0010, 0x0002, 2, 4);
    expect_missing(__LINE__, 0x0006, 0x0028, 1, 1);
}

/* That replaying and judging are refused so, and leave their results. */
static void expect_left(int line, uint8_t activities, const char *log, uint16_t inputs,
                        uint8_t number)
{
    const uint8_t *text = (const uint8_t *)log;
    uint64_t value = 99, counts[PLACELIST_CASES_LENGTH] = { 99, 99, 99, 99 };
    int16_t least = 99, last = 99;
    int32_t missing = 99, first_line = 99, event = 99;
    uint8_t verdict = 99;
    expect(line, placelist_replay(activities, text, strlen(log), inputs, 4, &value, &least, &last,
                                  &missing)
                     == number);
    expect(line, placelist_judge(activities, 0, text, strlen(log), inputs, 4, &value, counts,
                                 &verdict, &first_line, &event)
                     == number);
    expect(line, least == 99 && last == 99 && missing == 99);
    expect(line, counts[0] == 99 && counts[1] == 99 && counts[2] == 99 && counts[3] == 99);
    expect(line, verdict == 99 && first_line == 99 && event == 99);
}

/* wrong arguments, no bytes, and faults behind a line that underfeeds the place */
static void missing_but_refused(void)
{
    expect_left(__LINE__, 17, "00000001000201\n", 4, PLACELIST_INVALID_SETTING);
    expect_left(__LINE__, 3, "00000001000201\n", 8, PLACELIST_INVALID_PLACE);
    expect_left(__LINE__, 3, "", 4, PLACELIST_EMPTY_LOG);
    expect_left(__LINE__, 3, "00000001000201\n0000000100201\n", 4, PLACELIST_MALFORMED_FRAME);
    expect_left(__LINE__, 3, "00000001000201\n00000001000301\n", 4, PLACELIST_UNKNOWN_ACTIVITY);
    expect_left(__LINE__, 3, "00000001000201\n000000010002\n", 4, PLACELIST_MISPLACED_ENDPOINT);
}

/* That the two variants of a log have so many cases. */
static void expect_variants(int line, const char *log, uint64_t more, uint64_t fewer)
{
    uint64_t value = 99, count = 99, entries[2 * PLACELIST_VARIANT_LENGTH];
    expect(line, placelist_summarize(3, (const uint8_t *)log, strlen(log), entries,
                                     2 * PLACELIST_VARIANT_LENGTH, &value, &count)
                     == PLACELIST_NOT_REFUSED);
    expect(line, value == 0 && count == 2 && entries[PLACELIST_VARIANT_CASES] == more);
    expect(line, entries[PLACELIST_VARIANT_LENGTH + PLACELIST_VARIANT_CASES] == fewer);
}

/*
 * That a log of cases 0, 2, 1 and of cases 0, 1 has so many of each. The first fit the place
 * 0001/0004, the second overfeed it. The threshold is the least at which it is not overfed.
 */
static void expect_cases(int line, const char *log, uint64_t first, uint64_t second,
                         uint16_t threshold)
{
    const uint8_t *text = (const uint8_t *)log;
    size_t length = strlen(log);
    uint64_t value = 99, size[PLACELIST_SIZE_LENGTH], counts[PLACELIST_CASES_LENGTH];
    uint8_t below, at;
    int32_t missing_line, event;
    uint16_t lower = (uint16_t)(threshold - 1);
    expect(line, placelist_check(3, text, length, &value, size) == PLACELIST_NOT_REFUSED);
    expect(line, value == 0 && size[PLACELIST_SIZE_CASES] == first + second);
    expect(line, placelist_judge(3, lower, text, length, 1, 4, &value, counts, &below, &missing_line,
                                 &event)
                     == PLACELIST_NOT_REFUSED);
    expect(line, placelist_judge(3, threshold, text, length, 1, 4, &value, counts, &at, &missing_line,
                                 &event)
                     == PLACELIST_NOT_REFUSED);
    expect(line, below == PLACELIST_OVERFED && at == PLACELIST_FITTING);
    expect(line, counts[PLACELIST_CASES_FITTING] == first && counts[PLACELIST_CASES_UNDERFED] == 0);
    expect(line, counts[PLACELIST_CASES_OVERFED] == second && counts[PLACELIST_CASES_BOTH] == 0);
    expect_variants(line, log, first < second ? second : first, first < second ? first : second);
}

/* case counts of more than 16 bits, and numbers of cases of more than 32 */
static void large_case_counts(void)
{
    static const char most[] = "FFFFFFFF000201\nFFFFFFFF000201\nFFFFFFFF0001\nFFFFFFFF0001\n";
    expect_cases(__LINE__, "0000FFFF000201\n000100000001\n", 65535, 65536, 501);
    expect_cases(__LINE__, "FFFFFFFF000201\nFFFFFFFF0001\n", UINT32_MAX, UINT32_MAX, 500);
    expect_cases(__LINE__, most, 2 * (uint64_t)UINT32_MAX, 2 * (uint64_t)UINT32_MAX, 500);
    /* of 2^32 - 1 cases one decides */
    expect_cases(__LINE__, "80000000000201\n7FFFFFFF0001\n", 0x80000000, 0x7FFFFFFF, 500);
    expect_cases(__LINE__, "7FFFFFFF000201\n800000000001\n", 0x7FFFFFFF, 0x80000000, 501);
}

/* That line 0 of a log is refused so. */
static void expect_refused(int line, uint8_t activities, const char *log, uint8_t number)
{
    uint64_t value = 99, counts[PLACELIST_SIZE_LENGTH] = { 99, 99 };
    expect(line, placelist_check(activities, (const uint8_t *)log, strlen(log), &value, counts)
                     == number);
    expect(line, value == 0 && counts[0] == 99 && counts[1] == 99);
}

/* around the shortest frame, which has 12 digits */
static void short_frames(void)
{
    static const uint8_t shortest[] = "000000010001\n";
    uint64_t value = 99, counts[PLACELIST_SIZE_LENGTH];
    EXPECT(placelist_check(3, shortest, sizeof shortest - 1, &value, counts)
           == PLACELIST_NOT_REFUSED);
    EXPECT(value == 0 && counts[PLACELIST_SIZE_FRAMES] == 1 && counts[PLACELIST_SIZE_CASES] == 1);
    expect_refused(__LINE__, 3, "0000000100\n", PLACELIST_MALFORMED_FRAME);
    expect_refused(__LINE__, 3, "00000001000\n", PLACELIST_MALFORMED_FRAME);
    expect_refused(__LINE__, 3, "0000000100010\n", PLACELIST_MALFORMED_FRAME);
    expect_refused(__LINE__, 3, "000000000001\n", PLACELIST_MALFORMED_FRAME);
}

/* A frame of so many activities, 2 or more, with the largest case count; answers its bytes. */
static size_t fill_frame(uint8_t *text, int activities)
{
    uint8_t *at = text;
    memcpy(at, "FFFFFFFF00", 10);
    at += 10;
    for (int k = 0; k < activities - 2; k++) {
        memcpy(at, "02", 2);
        at += 2;
    }
    memcpy(at, "01\n", 3);
    return (size_t)(at + 3 - text);
}

/* around the longest frame */
static void long_frames(void)
{
    static uint8_t text[PLACELIST_MOST_FRAME_BYTES + 2];
    uint64_t value = 99, counts[PLACELIST_SIZE_LENGTH] = { 99, 99 };
    EXPECT(fill_frame(text, PLACELIST_MOST_FRAME_ACTIVITIES + 1) == sizeof text);
    EXPECT(placelist_check(3, text, sizeof text, &value, counts) == PLACELIST_TOO_LARGE);
    EXPECT(value == 0 && counts[0] == 99 && counts[1] == 99);
    size_t length = fill_frame(text, PLACELIST_MOST_FRAME_ACTIVITIES);
    EXPECT(length == PLACELIST_MOST_FRAME_BYTES);
    EXPECT(placelist_check(3, text, length, &value, counts) == PLACELIST_NOT_REFUSED);
    EXPECT(counts[PLACELIST_SIZE_FRAMES] == 1 && counts[PLACELIST_SIZE_CASES] == UINT32_MAX);
}

/* a token that is missing at the last event of the last line, where both have the largest index */
static void largest_indices(void)
{
    static const char fed[] = "00000001000301\n";
    static uint8_t text[(PLACELIST_MOST_FRAMES - 1) * (sizeof fed - 1) + PLACELIST_MOST_FRAME_BYTES];
    uint64_t value = 99, counts[PLACELIST_CASES_LENGTH];
    int16_t least, last;
    int32_t missing, line, event;
    uint8_t verdict, *at = text;
    for (int frame = 0; frame < PLACELIST_MOST_FRAMES - 1; frame++) {
        memcpy(at, fed, sizeof fed - 1);
        at += sizeof fed - 1;
    }
    size_t longest = fill_frame(at, PLACELIST_MOST_FRAME_ACTIVITIES);
    EXPECT(placelist_replay(4, at, longest, 8, 2, &value, &least, &last, &missing)
           == PLACELIST_NOT_REFUSED);
    EXPECT(value == 0 && least == -1 && last == -1 && missing == 253);
    EXPECT(placelist_judge(4, 0, text, sizeof text, 8, 2, &value, counts, &verdict, &line, &event)
           == PLACELIST_NOT_REFUSED);
    EXPECT(value == 0 && counts[PLACELIST_CASES_UNDERFED] == UINT32_MAX);
    EXPECT(line == 4095 && event == 253);
}

/*
 * Case counts of four digits, as version 1 read them: a frame of two or three activities is too
 * short, and a longer one does not begin with 00.
 */
static void four_digit_case_counts(void)
{
    expect_refused(__LINE__, 3, "00010001\n", PLACELIST_MALFORMED_FRAME);
    expect_refused(__LINE__, 3, "0001000201\n0001000201\n", PLACELIST_MALFORMED_FRAME);
    expect_refused(__LINE__, 4, "000100020301\n", PLACELIST_MISPLACED_ENDPOINT);
    expect_refused(__LINE__, 6, "0001000203040501\n", PLACELIST_MISPLACED_ENDPOINT);
}

/* a null pointer for every buffer of length 0 */
static void null_logs(void)
{
    uint64_t value = 99, count, counts[PLACELIST_CASES_LENGTH], run[PLACELIST_RUN_LENGTH];
    int16_t least, last;
    int32_t missing, line, event;
    uint8_t verdict;
    EXPECT(placelist_check(3, NULL, 0, &value, counts) == PLACELIST_EMPTY_LOG);
    EXPECT(placelist_replay(3, NULL, 0, 1, 2, &value, &least, &last, &missing)
           == PLACELIST_EMPTY_LOG);
    EXPECT(placelist_judge(3, 0, NULL, 0, 1, 2, &value, counts, &verdict, &line, &event)
           == PLACELIST_EMPTY_LOG);
    EXPECT(placelist_summarize(3, NULL, 0, NULL, 0, &value, &count) == PLACELIST_EMPTY_LOG);
    EXPECT(placelist_search(3, 2, 2, 0, NULL, 0, 9, NULL, 0, NULL, 0, &value, run)
           == PLACELIST_EMPTY_LOG);
    EXPECT(value == 0);
}

static void null_lists(void)
{
    static uint8_t output[PLACELIST_MOST_OUTPUT];
    uint64_t value = 99, count = 99, run[PLACELIST_RUN_LENGTH];
    uint32_t found[4];
    EXPECT(placelist_search(3, 2, 2, 0, short_log, SHORT_LENGTH, 36, NULL, 0, found, 4, &value, run)
           == PLACELIST_NOT_REFUSED);
    EXPECT(run[PLACELIST_RUN_END] == PLACELIST_COMPLETE && run[PLACELIST_RUN_REPLAYS] == 36);
    EXPECT(placelist_search(3, 2, 2, 0, short_log, SHORT_LENGTH, 36, NULL, 0, NULL, 0, &value, run)
           == PLACELIST_NOT_REFUSED);
    EXPECT(run[PLACELIST_RUN_END] == PLACELIST_LIST_FULL);
    EXPECT(placelist_summarize(3, short_log, SHORT_LENGTH, NULL, 0, &value, &count)
           == PLACELIST_BUFFER_TOO_SMALL);
    EXPECT(placelist_reduce(NULL, 0, NULL, 0, &value, &count) == PLACELIST_NOT_REFUSED && count == 0);
    EXPECT(placelist_reduce(found, 1, NULL, 0, &value, &count) == PLACELIST_BUFFER_TOO_SMALL);
    count = 99;
    EXPECT(placelist_write(NULL, 0, NULL, 0, &value, &count) == PLACELIST_NOT_REFUSED && count == 0);
    EXPECT(placelist_write(found, 1, NULL, 0, &value, &count) == PLACELIST_BUFFER_TOO_SMALL);
    EXPECT(placelist_report(NULL, 0, output, sizeof output, &value, &count) == PLACELIST_NOT_REFUSED);
    EXPECT(count == 13 && memcmp(output, "FF0100000000\n", 13) == 0);
    EXPECT(placelist_report(NULL, 0, NULL, 0, &value, &count) == PLACELIST_BUFFER_TOO_SMALL);
}

static void version_and_words(void)
{
    static const char too_large[] = "line 4096 of the log is too long or one too many";
    char words[PLACELIST_EXPLAIN_BYTES];
    EXPECT(placelist_version() == PLACELIST_VERSION);
    EXPECT(placelist_explain(PLACELIST_TOO_LARGE, 4096, words, 7) == (int)sizeof too_large - 1);
    EXPECT(strcmp(words, "line 4") == 0);
    EXPECT(placelist_explain(PLACELIST_TOO_LARGE, 4096, NULL, 0) == (int)sizeof too_large - 1);
    for (int number = 0; number < 256; number++) {
        int length = placelist_explain((uint8_t)number, UINT64_MAX, words, sizeof words);
        EXPECT(length > 0 && (size_t)length < sizeof words && words[length] == '\0');
    }
}

int main(void)
{
    check_and_replay();
    judge();
    summarize();
    search_reduce_and_write();
    report();
    missing_in_a_trace();
    missing_in_a_log();
    missing_but_refused();
    large_case_counts();
    short_frames();
    long_frames();
    largest_indices();
    four_digit_case_counts();
    null_logs();
    null_lists();
    version_and_words();
    return failures == 0 ? 0 : 1;
}

/*
 * Lists the places of a log, and says of each how many cases fit it, and where the first token is
 * missing, if one is.
 *
 *     places FILE
 *
 * FILE has a settings line and a log, as the program placelist reads them. The status is that of
 * placelist: 0 complete, 1 a file failed, 2 usage, 3 refused, which is told in words on standard
 * error, 4 the list is only a beginning.
 */
#include <inttypes.h>
#include <stdio.h>
#include <stdlib.h>
#include <string.h>

#include <placelist.h>

enum status { COMPLETE = 0, FILE_FAILED = 1, USAGE = 2, REFUSED = 3, STOPPED = 4 };

/* The settings line: two digits each of activities, inputs and outputs, four of threshold. */
#define SETTINGS_DIGITS 10

struct settings {
    uint8_t activities;
    uint8_t inputs;
    uint8_t outputs;
    uint16_t threshold;
};

struct log {
    uint8_t *bytes;
    size_t length;
};

/* What the library writes to: as much as the program placelist has. */
struct buffers {
    uint64_t rejected[PLACELIST_PROGRAM_REJECTED];
    uint32_t found[PLACELIST_PROGRAM_FOUND];
    uint32_t kept[PLACELIST_PROGRAM_FOUND];
    uint8_t text[PLACELIST_PROGRAM_FOUND * PLACELIST_LINE_BYTES];
};

/* A list of places in one of the buffers. */
struct list {
    const uint32_t *words;
    size_t length;
};

/* Whether a call was refused; if so, says why. */
static int refused(const char *call, uint8_t number, uint64_t value)
{
    if (number == PLACELIST_NOT_REFUSED) {
        return 0;
    }
    char words[PLACELIST_EXPLAIN_BYTES];
    placelist_explain(number, value, words, sizeof words);
    fflush(stdout);
    fprintf(stderr, "places: %s was refused: %s (number %u)\n", call, words, (unsigned)number);
    return 1;
}

/*
 * Checks the log and says how large it is; *cases is the number of its cases. Answers whether it went
 * well, as the next three do.
 */
static int check(const struct settings *s, const struct log *log, uint64_t *cases)
{
    uint64_t value, counts[PLACELIST_SIZE_LENGTH];
    uint8_t number = placelist_check(s->activities, log->bytes, log->length, &value, counts);
    if (refused("the check", number, value)) {
        return 0;
    }
    *cases = counts[PLACELIST_SIZE_CASES];
    printf("log: %" PRIu64 " frames, %" PRIu64 " cases\n", counts[PLACELIST_SIZE_FRAMES], *cases);
    return 1;
}

/* Says why places were rejected, of those that the cache had room for. */
static void tell_rejected(const uint64_t *rejected, uint64_t length)
{
    uint64_t marks[PLACELIST_BOTH + 1] = { 0 };
    for (uint64_t i = 0; i < length; i++) {
        marks[placelist_mark(rejected[i])]++;
    }
    printf("rejected: %" PRIu64 " underfed, %" PRIu64 " overfed, %" PRIu64 " both\n",
           marks[PLACELIST_UNDERFED], marks[PLACELIST_OVERFED], marks[PLACELIST_BOTH]);
}

/* Searches the places that fit; *complete says whether these are all. */
static int search(const struct settings *s, const struct log *log, struct buffers *b,
                  struct list *list, int *complete)
{
    static const char *const ends[] = { "complete", "stopped, the budget was spent",
                                        "stopped, the list was full" };
    uint64_t value, run[PLACELIST_RUN_LENGTH];
    uint8_t number = placelist_search(s->activities, s->inputs, s->outputs, s->threshold, log->bytes,
                                      log->length, PLACELIST_PROGRAM_BUDGET, b->rejected,
                                      PLACELIST_PROGRAM_REJECTED, b->found, PLACELIST_PROGRAM_FOUND,
                                      &value, run);
    if (refused("the search", number, value)) {
        return 0;
    }
    printf("search: %s; %" PRIu64 " places found, %" PRIu64 " replays, %" PRIu64 " visits\n",
           ends[run[PLACELIST_RUN_END]], run[PLACELIST_RUN_FOUND], run[PLACELIST_RUN_REPLAYS],
           run[PLACELIST_RUN_VISITS]);
    tell_rejected(b->rejected, run[PLACELIST_RUN_REJECTED]);
    list->words = b->found;
    list->length = (size_t)run[PLACELIST_RUN_FOUND];
    *complete = run[PLACELIST_RUN_END] == PLACELIST_COMPLETE;
    return 1;
}

/* Leaves out the places that are unions of others. */
static int reduce(struct buffers *b, struct list *list)
{
    uint64_t value, count;
    uint8_t number = placelist_reduce(list->words, list->length, b->kept, PLACELIST_PROGRAM_FOUND,
                                      &value, &count);
    if (refused("the reduction", number, value)) {
        return 0;
    }
    printf("reduced: %" PRIu64 " places\n", count);
    list->words = b->kept;
    list->length = (size_t)count;
    return 1;
}

/* Judges one place of the list, and writes its line. */
static int write_place(const struct settings *s, const struct log *log, uint64_t cases, uint32_t word,
                       const uint8_t *digits)
{
    uint64_t value, counts[PLACELIST_CASES_LENGTH];
    int32_t line, event;
    uint8_t verdict;
    uint8_t number = placelist_judge(s->activities, s->threshold, log->bytes, log->length,
                                     placelist_inputs(word), placelist_outputs(word), &value, counts,
                                     &verdict, &line, &event);
    if (refused("the judgement", number, value)) {
        return 0;
    }
    printf("%.*s: %" PRIu64 " of %" PRIu64 " cases fit", PLACELIST_LINE_BYTES - 1,
           (const char *)digits, counts[PLACELIST_CASES_FITTING], cases);
    if (line != PLACELIST_NONE) {
        printf("; first missing token: line %" PRId32 ", event %" PRId32, line, event);
    }
    printf("\n");
    return 1;
}

/* Writes the list, a line for each place. */
static int write_list(const struct settings *s, const struct log *log, uint64_t cases,
                      struct buffers *b, const struct list *list)
{
    uint64_t value, bytes;
    uint8_t number = placelist_write(list->words, list->length, b->text, sizeof b->text, &value,
                                     &bytes);
    if (refused("the writing", number, value)) {
        return 0;
    }
    for (size_t i = 0; i < list->length; i++) {
        const uint8_t *digits = b->text + i * PLACELIST_LINE_BYTES;
        if (!write_place(s, log, cases, list->words[i], digits)) {
            return 0;
        }
    }
    return 1;
}

/* The whole job on a log that was read. */
static enum status list_places(const struct settings *s, const struct log *log, struct buffers *b)
{
    uint64_t cases;
    struct list list;
    int complete;
    if (!check(s, log, &cases) || !search(s, log, b, &list, &complete)) {
        return REFUSED;
    }
    /* a list that is not complete is left as found */
    if (complete && !reduce(b, &list)) {
        return REFUSED;
    }
    if (!write_list(s, log, cases, b, &list)) {
        return REFUSED;
    }
    return complete ? COMPLETE : STOPPED;
}

/* Reads a whole file. The caller frees log->bytes, which is never null after success. */
static int read_file(const char *path, struct log *log)
{
    size_t room = PLACELIST_MOST_FRAME_BYTES;
    FILE *file = fopen(path, "rb");
    log->bytes = malloc(room);
    log->length = 0;
    while (file && log->bytes) {
        log->length += fread(log->bytes + log->length, 1, room - log->length, file);
        if (log->length < room) {
            break;
        }
        room *= 2;
        uint8_t *larger = realloc(log->bytes, room);
        if (!larger) {
            free(log->bytes);
        }
        log->bytes = larger;
    }
    int read = file && log->bytes && !ferror(file);
    if (file) {
        fclose(file);
    }
    if (!read) {
        free(log->bytes);
    }
    return read;
}

/* The settings of the first line. Whether they are in range is for the library to say. */
static int read_settings(const struct log *file, struct settings *s)
{
    char line[SETTINGS_DIGITS + 1] = "";
    unsigned activities, inputs, outputs, threshold;
    if (file->length <= SETTINGS_DIGITS || file->bytes[SETTINGS_DIGITS] != '\n') {
        return 0;
    }
    memcpy(line, file->bytes, SETTINGS_DIGITS);
    if (strspn(line, "0123456789ABCDEF") != SETTINGS_DIGITS) {
        return 0;
    }
    sscanf(line, "%2X%2X%2X%4X", &activities, &inputs, &outputs, &threshold);
    s->activities = (uint8_t)activities;
    s->inputs = (uint8_t)inputs;
    s->outputs = (uint8_t)outputs;
    s->threshold = (uint16_t)threshold;
    return 1;
}

/* The job on a file that was read. */
static enum status list_file(const struct log *file)
{
    struct settings settings;
    if (!read_settings(file, &settings)) {
        fprintf(stderr, "places: the first line is no settings line\n");
        return REFUSED;
    }
    struct log log = { file->bytes + SETTINGS_DIGITS + 1, file->length - SETTINGS_DIGITS - 1 };
    struct buffers *buffers = malloc(sizeof *buffers);
    if (!buffers) {
        fprintf(stderr, "places: no memory\n");
        return FILE_FAILED;
    }
    enum status status = list_places(&settings, &log, buffers);
    free(buffers);
    return status;
}

int main(int count, char **arguments)
{
    struct log file;
    if (count != 2) {
        fprintf(stderr, "usage: places FILE\n");
        return USAGE;
    }
    if (!read_file(arguments[1], &file)) {
        fprintf(stderr, "places: cannot read %s\n", arguments[1]);
        return FILE_FAILED;
    }
    enum status status = list_file(&file);
    free(file.bytes);
    return fflush(stdout) == 0 && !ferror(stdout) ? status : FILE_FAILED;
}

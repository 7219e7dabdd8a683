/*
 * Measures how deep each call goes into the stack, on inputs that drive it to its deepest: a log of
 * the largest size, and a list for which the reduction calls itself as often as it can, 16 times.
 * The summary sorts, and its depth depends on the order of the words: that one is measured on 16
 * orders, and the constant leaves about 15,000 bytes above what was measured. A call runs on a
 * thread whose stack was painted before; what it took is what it painted over, less what a thread
 * takes that calls nothing. Writes a line for each call; the exit status is 0 only if none takes
 * more than PLACELIST_MOST_STACK.
 */
#define _XOPEN_SOURCE 700
#include <pthread.h>
#include <stdio.h>
#include <stdlib.h>
#include <string.h>

#include <placelist.h>

#define STACK_BYTES ((size_t)1 << 20)
#define PAINT 0xA5

static uint8_t text[PLACELIST_MOST_LOG_BYTES];
static uint8_t input[PLACELIST_MOST_INPUT];
static size_t input_length;
static uint8_t output[PLACELIST_MOST_OUTPUT];
static uint64_t value, count, counts[PLACELIST_CASES_LENGTH], run[PLACELIST_RUN_LENGTH];
static uint64_t rejected[PLACELIST_PROGRAM_REJECTED];
static uint64_t entries[PLACELIST_VARIANT_LENGTH * PLACELIST_MOST_FRAMES];
static uint64_t variants; /* of the log */
static uint32_t words[PLACELIST_MOST_ACTIVITIES + 1], found[PLACELIST_PROGRAM_FOUND];
static int16_t least, last;
static int32_t missing, line, event;
static uint8_t verdict, number;

static void call_nothing(void) {}

static void call_version(void)
{
    number = placelist_version() == PLACELIST_VERSION ? PLACELIST_NOT_REFUSED : 255;
}

static void call_check(void)
{
    number = placelist_check(16, text, sizeof text, &value, counts);
}

static uint8_t replay(uint16_t inputs, uint16_t outputs, int32_t expected)
{
    uint8_t answer = placelist_replay(16, text, sizeof text, inputs, outputs, &value, &least, &last,
                                      &missing);
    return missing == expected ? answer : 255;
}

static uint8_t judge(uint16_t inputs, uint16_t outputs, int32_t expected)
{
    uint8_t answer = placelist_judge(16, 500, text, sizeof text, inputs, outputs, &value, counts,
                                     &verdict, &line, &event);
    return line == expected ? answer : 255;
}

/* on a place that every trace underfeeds, and on one that none does */
static void call_replay(void)
{
    number = replay(2, 1, 0) | replay(1, 2, PLACELIST_NONE);
}

static void call_judge(void)
{
    number = judge(2, 1, 0) | judge(1, 2, PLACELIST_NONE);
}

static void call_summarize(void)
{
    number = placelist_summarize(16, text, sizeof text, entries,
                                 PLACELIST_VARIANT_LENGTH * PLACELIST_MOST_FRAMES, &value, &count);
    number = count == variants ? number : 255;
}

static void call_search(void)
{
    number = placelist_search(16, 2, 2, 500, text, sizeof text, 1000, rejected,
                              PLACELIST_PROGRAM_REJECTED, found, PLACELIST_PROGRAM_FOUND, &value,
                              run);
}

static void call_reduce(void)
{
    number = placelist_reduce(words, PLACELIST_MOST_ACTIVITIES + 1, found, PLACELIST_PROGRAM_FOUND,
                              &value, &count);
}

static void call_write(void)
{
    number = placelist_write(words, PLACELIST_MOST_ACTIVITIES + 1, output, sizeof output, &value,
                             &count);
}

static void call_report(void)
{
    number = placelist_report(input, input_length, output, sizeof output, &value, &count);
}

static const struct {
    const char *name;
    void (*call)(void);
} calls[] = {
    { "version", call_version }, { "check", call_check }, { "replay", call_replay },
    { "judge", call_judge }, { "search", call_search }, { "reduce", call_reduce },
    { "write", call_write }, { "report", call_report },
};

/*
 * The digit of activity k of a frame between its ends. Twelve of the first fourteen say which of 4,096
 * variants the frame is of, all others occur equally often in every frame.
 */
static uint8_t digit(uint32_t frame, uint32_t variant, uint32_t k)
{
    static const char digits[] = "23456789ABCDEF";
    uint32_t code = k >= 14 ? (frame + 5 * k) % 14 : variant >> k & 1 ? k : 13;
    return (uint8_t)digits[code];
}

/*
 * Every frame as long as it can be. Variants and case counts have numbers from 0 to 4,095, each a
 * step above the one before, modulo 4,096: by 0 all are the same, by an odd step all differ.
 */
static void fill_log(uint32_t variant_step, uint32_t cases_step)
{
    uint8_t *at = text;
    for (uint32_t frame = 0; frame < PLACELIST_MOST_FRAMES; frame++) {
        uint32_t variant = frame * variant_step % PLACELIST_MOST_FRAMES;
        uint32_t cases = UINT32_MAX - frame * cases_step % PLACELIST_MOST_FRAMES;
        at += sprintf((char *)at, "%08" PRIX32 "00", cases);
        for (uint32_t k = 0; k < PLACELIST_MOST_FRAME_ACTIVITIES - 2; k++) {
            *at++ = '0';
            *at++ = digit(frame, variant, k);
        }
        memcpy(at, "01\n", 3);
        at += 3;
    }
    variants = variant_step == 0 ? 1 : PLACELIST_MOST_FRAMES;
}

/* A place of all activities, and sixteen that it is the union of. */
static void fill_words(void)
{
    for (int code = 0; code < PLACELIST_MOST_ACTIVITIES; code++) {
        words[code] = placelist_word((uint16_t)(1u << code), (uint16_t)(1u << code));
    }
    words[PLACELIST_MOST_ACTIVITIES] = placelist_word(0xFFFF, 0xFFFF);
}

/* A settings line and as much of the log as the program takes. */
static void fill_input(void)
{
    static const char settings[] = "1002020000\n";
    size_t length = sizeof settings - 1;
    memcpy(input, settings, length);
    while (length + PLACELIST_MOST_FRAME_BYTES <= sizeof input) {
        memcpy(input + length, text, PLACELIST_MOST_FRAME_BYTES);
        length += PLACELIST_MOST_FRAME_BYTES;
    }
    input_length = length;
}

static void *run_call(void *call)
{
    (*(void (**)(void))call)();
    return NULL;
}

/*
 * How many bytes of a painted stack are written over by a thread that makes a call, which has to
 * answer.
 */
static size_t depth(uint8_t *stack, void (*call)(void))
{
    pthread_attr_t attributes;
    pthread_t thread;
    size_t untouched = 0;
    memset(stack, PAINT, STACK_BYTES);
    if (pthread_attr_init(&attributes) != 0
        || pthread_attr_setstack(&attributes, stack, STACK_BYTES) != 0
        || pthread_create(&thread, &attributes, run_call, (void *)&call) != 0
        || pthread_join(thread, NULL) != 0) {
        fprintf(stderr, "stack: no thread\n");
        exit(2);
    }
    if (number != PLACELIST_NOT_REFUSED) {
        fprintf(stderr, "stack: a call was refused\n");
        exit(2);
    }
    while (untouched < STACK_BYTES && stack[untouched] == PAINT) {
        untouched++;
    }
    return STACK_BYTES - untouched;
}

/*
 * The most that a summary takes on 16 orders of the words that it sorts; another may take more.
 * Variants and case counts each are the same in all frames, rise, fall, and are mixed.
 */
static size_t depth_of_summary(uint8_t *stack)
{
    static const uint32_t steps[] = { 0, 1, PLACELIST_MOST_FRAMES - 1, 1657 };
    const size_t length = sizeof steps / sizeof steps[0];
    size_t most = 0;
    for (size_t i = 0; i < length * length; i++) {
        fill_log(steps[i / length], steps[i % length]);
        size_t bytes = depth(stack, call_summarize);
        most = bytes > most ? bytes : most;
    }
    return most;
}

/* Writes what a call takes; whether the constant allows it. */
static int allowed(const char *name, size_t bytes)
{
    printf("%-10s%7zu\n", name, bytes);
    return bytes <= PLACELIST_MOST_STACK;
}

int main(void)
{
    uint8_t *stack = (uint8_t *)aligned_alloc(4096, STACK_BYTES);
    int within = 1;
    if (stack == NULL) {
        return 2;
    }
    fill_log(1, 0);
    fill_words();
    fill_input();
    size_t nothing = depth(stack, call_nothing);
    for (size_t i = 0; i < sizeof calls / sizeof calls[0]; i++) {
        within = allowed(calls[i].name, depth(stack, calls[i].call) - nothing) && within;
    }
    within = allowed("summarize", depth_of_summary(stack) - nothing) && within;
    free(stack);
    return within ? 0 : 1;
}

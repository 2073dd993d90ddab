/* The library's calls on one processor. The same source is built for x86-64 and for Cortex-M, and must print the same.
 *   driver lines JOBS         does every job of a file: a line for each call, with all that the call left
 *   driver stack JOBS         the same without lines, and the deepest stack of each call (Cortex-M alone)
 *   driver count JOBS ROUNDS  the first job so many times, without lines: for counting instructions
 * compare/src/cortex.rs writes the jobs. */
#include "tag.h"
#include <stdio.h>
#include <stdlib.h>
#include <string.h>

/* Behind what a call may write stands what it must leave. */
#define BEHIND 8

struct job {
    uint64_t stream_count, memory_count, output_count; /* as they are lent */
    uint32_t length;                                   /* bytes of the stream behind the job */
    uint32_t choices;                                  /* of the opening */
    uint32_t saved;                                    /* whether a state and its memory follow the stream */
    uint32_t calls;                                    /* of tag_decode, at most */
};

enum call { NOTHING, OPEN, FORMAT, DECODE, SAMPLES16, CALLS };
static const char *const names[CALLS] = {"nothing", "tag_open", "tag_format", "tag_decode", "tag_samples16"};

static struct job job;
static uint8_t stream[1 << 17];
static float memory[TAG_MEMORY + BEHIND], output[TAG_OUTPUT + BEHIND];
static int16_t samples[TAG_OUTPUT + BEHIND];
static struct tag_state state;
static struct tag_frame frame;
static struct tag_told told;

/* ---- a call, by itself or with its stack measured */

__attribute__((noinline)) static uint32_t made(enum call call) {
    switch (call) {
    case OPEN:
        return tag_state_open(&state, stream, job.stream_count, memory, job.memory_count, job.choices);
    case FORMAT:
        return tag_state_format(&state, stream, job.stream_count, &told);
    case DECODE:
        return tag_state_decode(&state, stream, job.stream_count, memory, job.memory_count, output, job.output_count,
                                &frame);
    case SAMPLES16:
        return tag_samples16(output, job.output_count, samples, TAG_OUTPUT);
    default:
        return 0;
    }
}

static size_t deepest[CALLS];

#ifdef __arm__
#define DEPTH 8192 /* words below the stack pointer that are painted before a call */
#define PAINT 0xA5A5A5A5u
__attribute__((noinline)) static uint32_t measured(enum call call) {
    volatile uint32_t *top, *at;
    __asm volatile("mov %0, sp" : "=r"(top));
    for (at = top - DEPTH; at < top; at++)
        *at = PAINT;
    uint32_t number = made(call);
    for (at = top - DEPTH; at < top && *at == PAINT;)
        at++;
    size_t depth = (size_t)(top - at) * sizeof *at;
    if (deepest[call] < depth)
        deepest[call] = depth;
    return number;
}
#else
#define measured made
#endif

/* ---- a line: everything that can have changed */

#define FIRST 0xCBF29CE484222325
static uint64_t summed(uint64_t sum, uint32_t word) {
    return (sum ^ word) * 0x100000001B3;
}

/* A NaN has no one pattern: which one a processor leaves is not promised. */
static uint64_t sum_of_values(const float *values, size_t count) {
    uint64_t sum = FIRST;
    for (size_t i = 0; i < count; i++) {
        uint32_t word;
        memcpy(&word, values + i, sizeof word);
        sum = summed(sum, (word & 0x7FFFFFFF) > 0x7F800000 ? 0x7FC00000 : word);
    }
    return sum;
}

static uint64_t sum_of_samples(void) {
    uint64_t sum = FIRST;
    for (size_t i = 0; i < TAG_OUTPUT + BEHIND; i++)
        sum = summed(sum, (uint16_t)samples[i]);
    return sum;
}

static void print_wide(uint64_t number) {
    printf(" %08lx%08lx", (unsigned long)(number >> 32), (unsigned long)(number & 0xFFFFFFFF));
}

static void print_double(double value) {
    uint64_t bits;
    memcpy(&bits, &value, sizeof bits);
    print_wide(bits);
}

static void print_state(void) {
    for (int i = 0; i < TAG_PLACES; i++)
        print_wide(state.places[i]);
    for (int i = 0; i < TAG_COUNTS / 2; i++)
        print_wide((uint64_t)state.counts[2 * i] << 32 | state.counts[2 * i + 1]);
    print_double(state.time[0]);
}

static void print_line(enum call call, uint32_t number) {
    printf("%s %lu", names[call], (unsigned long)number);
    print_state();
    print_wide(told.rate[0]);
    print_wide((uint64_t)told.kbps[0] << 32 | told.mode[0]);
    print_double(frame.start[0]);
    print_wide(frame.bits[0]);
    print_wide(sum_of_values(memory, TAG_MEMORY + BEHIND));
    print_wide(sum_of_values(output, TAG_OUTPUT + BEHIND));
    print_wide(sum_of_samples());
    putchar('\n');
}

/* ---- jobs */

static uint32_t (*make)(enum call) = made;
static int lines;

static uint32_t step(enum call call) {
    uint32_t number = make(call);
    if (lines)
        print_line(call, number);
    return number;
}

/* An end is told twice: it must repeat. */
static void do_job(void) {
    int ends = 0;
    if (!job.saved)
        step(OPEN);
    for (uint32_t calls = 0; calls < job.calls && ends < 2; calls++) {
        if (calls % 4 == 0)
            step(FORMAT);
        uint32_t number = step(DECODE);
        if (number == TAG_SUCCEEDED || tag_callers_mistake(number))
            step(SAMPLES16);
        ends += tag_ends(number);
    }
}

static int taken(FILE *file, void *to, size_t size) {
    return fread(to, 1, size, file) == size;
}

/* The next job, with marks in all that its calls may write. */
static int next_job(FILE *file) {
    if (!taken(file, &job, sizeof job) || job.length > sizeof stream || !taken(file, stream, job.length))
        return 0;
    memset(memory, 0x33, sizeof memory);
    memset(output, 0x44, sizeof output);
    memset(samples, 0x55, sizeof samples);
    memset(&state, 0x66, sizeof state);
    memset(&frame, 0x77, sizeof frame);
    memset(&told, 0x77, sizeof told);
    return !job.saved || (taken(file, &state, sizeof state) && taken(file, memory, TAG_MEMORY * sizeof memory[0]));
}

static void do_all(FILE *file) {
    while (next_job(file))
        do_job();
}

static void print_stack(void) {
    for (int call = OPEN; call < CALLS; call++)
        printf("%s %lu\n", names[call], (unsigned long)(deepest[call] - deepest[NOTHING]));
}

static void count_rounds(FILE *file, int rounds) {
    if (next_job(file))
        for (; rounds > 0; rounds--)
            do_job();
}

int main(int count, char **words) {
    FILE *file = count >= 3 ? fopen(words[2], "rb") : NULL;
    if (file == NULL)
        return 2;
    if (strcmp(words[1], "lines") == 0) {
        lines = 1;
        do_all(file);
    } else if (strcmp(words[1], "stack") == 0) {
        make = measured;
        make(NOTHING);
        do_all(file);
        print_stack();
    } else if (count == 4) {
        count_rounds(file, atoi(words[3]));
    }
    fclose(file);
    return fflush(stdout) == 0 ? 0 : 2;
}

/* The stack that each public call uses: stack FILE .. runs the calls on every file to its end, each call on a stack that
 * was painted before, and looks how deep the paint is gone. A call that does nothing is taken off. */
#include "tag.h"
#include <stdio.h>
#include <string.h>
#include <ucontext.h>

enum { OPEN, FORMAT, DECODE, SAMPLES16, NOTHING, CALLS };
static const char *const NAMES[CALLS] = {"tag_open", "tag_format", "tag_decode", "tag_samples16", "no call"};
#define PAINT 0xA5
static _Alignas(64) unsigned char stack[1 << 18];
static uint8_t stream[TAG_STREAM];
static size_t deepest[CALLS];
static uint64_t length;
static float memory[TAG_MEMORY], output[TAG_OUTPUT];
static int16_t samples[TAG_OUTPUT];
static struct tag_state s;
static uint32_t number;
static struct tag_told told;
static struct tag_frame frame;
static int which;

static void call(void) {
    switch (which) {
    case OPEN:
        number = tag_state_open(&s, stream, length, memory, TAG_MEMORY, 0);
        break;
    case FORMAT:
        number = tag_state_format(&s, stream, length, &told);
        break;
    case DECODE:
        number = tag_state_decode(&s, stream, length, memory, TAG_MEMORY, output, TAG_OUTPUT, &frame);
        break;
    case SAMPLES16:
        number = tag_samples16(output, TAG_OUTPUT, samples, TAG_OUTPUT);
        break;
    }
}

static uint32_t measure(int call_number) {
    static ucontext_t back, there;
    unsigned char painted[8];
    size_t at = 0;
    which = call_number;
    memset(stack, PAINT, sizeof stack);
    memset(painted, PAINT, sizeof painted);
    getcontext(&there);
    there.uc_stack.ss_sp = stack;
    there.uc_stack.ss_size = sizeof stack;
    there.uc_link = &back;
    makecontext(&there, call, 0);
    swapcontext(&back, &there);
    while (at < sizeof stack && memcmp(stack + at, painted, sizeof painted) == 0)
        at += sizeof painted;
    if (deepest[which] < sizeof stack - at)
        deepest[which] = sizeof stack - at;
    return number;
}

static int on_file(const char *name) {
    FILE *file = fopen(name, "rb");
    if (file == NULL)
        return 2;
    length = fread(stream, 1, sizeof stream, file);
    fclose(file);
    measure(NOTHING);
    measure(OPEN);
    do {
        measure(FORMAT);
        measure(SAMPLES16);
        measure(DECODE);
    } while (!tag_ends(number) && !tag_callers_mistake(number));
    return 0;
}

int main(int count, char **names) {
    for (int i = 1; i < count; i++)
        if (on_file(names[i]) != 0)
            return 2;
    for (int i = OPEN; i <= SAMPLES16; i++)
        printf("%6zu bytes of stack  %s\n", deepest[i] - deepest[NOTHING], NAMES[i]);
    return 0;
}

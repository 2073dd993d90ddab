/* The loop of firmware/README.md, as it stands there, run to each of its endings: endings CITRUS INCIDENT. steps/firmware
 * takes loop.c from the page, and has the linker put `counted` in front of tag_decode and tag_format. A loop that makes more
 * calls than 01 allows is ended here. */
#include "tag.h"
#include <stdio.h>
#include <stdlib.h>
#include <string.h>

static void converter_at(uint32_t rate);
static void to_the_converter(const int16_t *samples);
#include "loop.c"

#define BEHIND 8 /* values behind what a call may write */
#define MARK 12345.0f

static uint8_t citrus[1 << 16], incident[1 << 16], too_long[TAG_STREAM + 1];
static uint8_t junk[1 << 16]; /* two headers of layer III, then the citrus clip */
static uint8_t text[1 << 16]; /* seven bytes of text, then the citrus clip */
static uint8_t barred[1 << 16]; /* a silent frame of 320 kbps in mono, 1044 bytes, then the citrus clip */
static uint64_t citrus_count, incident_count, junk_count, text_count, barred_count;
static float memory[TAG_MEMORY], output[TAG_OUTPUT];
static uint64_t calls, questions, budget, frames, heard, others, in_front;
static uint32_t rate_set; /* the converter's; 0 before it was told one */
static uint32_t to_come; /* calls that answer 13 and 14 in turn, of which 14 is to come, before the library is asked */
static unsigned compared, differ;

/* The last line: how many comparisons, and how many differ. */
static int closed(void) {
    printf("%u %u\n", compared, differ);
    return differ != 0;
}

static void same(const char *what, uint64_t ours, uint64_t expected) {
    compared++;
    differ += ours != expected;
    if (ours != expected)
        printf("DIFFERS %s: %llu, expected %llu\n", what, (unsigned long long)ours, (unsigned long long)expected);
}

static void converter_at(uint32_t rate) {
    same("the rate is set once, and before the first sample", rate_set + frames, 0);
    rate_set = rate;
}

/* A sum over all samples in their order: two that play the same have the same. */
static void to_the_converter(const int16_t *samples) {
    frames++;
    for (int i = 0; i < TAG_OUTPUT; i++)
        heard = heard * 31 + (uint16_t)samples[i];
}

/* Ends a loop that has made as many calls as it may. */
static void counted(uint64_t *made, const char *what) {
    if ((*made)++ < budget)
        return;
    same(what, *made, budget);
    exit(closed());
}

uint32_t __real_tag_format(const uint8_t *, uint64_t, uint64_t *, uint32_t *, double *, uint32_t *, uint32_t *, uint32_t *);
uint32_t __wrap_tag_format(const uint8_t *stream, uint64_t stream_count, uint64_t *places, uint32_t *counts, double *time,
                           uint32_t *rate, uint32_t *kbps, uint32_t *mode) {
    counted(&questions, "the page asks on after this many questions");
    return __real_tag_format(stream, stream_count, places, counts, time, rate, kbps, mode);
}

uint32_t __real_tag_decode(const uint8_t *, uint64_t, float *, uint64_t, float *, uint64_t, uint64_t *, uint32_t *,
                           double *, double *, uint64_t *);
uint32_t __wrap_tag_decode(const uint8_t *stream, uint64_t stream_count, float *values, uint64_t values_count,
                           float *frame, uint64_t frame_count, uint64_t *places, uint32_t *counts, double *time,
                           double *start, uint64_t *bits) {
    counted(&calls, "the loop goes on after this many calls");
    if (to_come > 0)
        return 13 + --to_come % 2;
    return __real_tag_decode(stream, stream_count, values, values_count, frame, frame_count, places, counts, time,
                             start, bits);
}

/* n / 2 + 1 calls, and the one that answers 1 or 7. */
static void begin(uint64_t stream_count) {
    calls = questions = frames = heard = others = rate_set = 0;
    budget = stream_count / 2 + 2;
}

/* What is lent wrong is told at once: at the opening, and by the first call of a decoder that was opened well. */
static void lent_wrong(const char *what, const uint8_t *stream, uint64_t stream_count, uint64_t memory_count,
                       uint64_t output_count, uint32_t number, uint64_t calls_after_opening) {
    struct tag_state state;
    begin(100);
    memory[0] = MARK;
    same(what, play_clip(stream, stream_count, memory, memory_count, output, output_count, &others, &in_front), number);
    same("calls after the opening", calls, calls_after_opening);
    same("nothing was cleared", memory[0] == MARK, calls_after_opening == 0);
    begin(100);
    same("a good opening", tag_state_open(&state, citrus, citrus_count, memory, TAG_MEMORY, 0), TAG_SUCCEEDED);
    same(what, play(&state, stream, stream_count, memory, memory_count, output, output_count, &others), number);
    same("one call", calls, 1);
}

static void state_out_of_range(void) {
    struct tag_state state;
    begin(100);
    tag_state_open(&state, citrus, citrus_count, memory, TAG_MEMORY, 0);
    state.places[TAG_PLACE_RING] = 1;
    same("10", play(&state, citrus, citrus_count, memory, TAG_MEMORY, output, TAG_OUTPUT, &others), TAG_REFUSED_BAD_STATE);
    same("one call", calls, 1);
}

/* Plays a clip to its end, with so many bytes of junk in front. */
static void played(const char *what, const uint8_t *stream, uint64_t stream_count, uint64_t junk_in_front) {
    begin(stream_count);
    same(what, play_clip(stream, stream_count, memory, TAG_MEMORY, output, TAG_OUTPUT, &others, &in_front),
         TAG_REFUSED_NO_HEADER_CAN_FOLLOW);
    same("bytes of junk in front", in_front, junk_in_front);
}

static void whole_clips(void) {
    played("the incident's end", incident, incident_count, 0);
    same("frames of the first clip", frames, 149);
    same("the converter's rate", rate_set, 44100);
    same("frames of the other format", others, 154);
    to_come = 4;
    played("numbers to come", citrus, citrus_count, 0);
    same("frames behind them", frames, 149);
    played("two headers of another layer in front", junk, junk_count, 8);
    same("the opening refuses the first, a question the second, and the next one tells", questions, 2);
    same("the rate behind them", rate_set, 44100);
    same("frames behind them", frames, 149);
    played("text in front", text, text_count, 7);
    same("the opening goes by it, and the first question tells", questions, 1);
    same("frames behind it", frames, 149);
    played("no byte", citrus, 0, 0);
    same("no rate", rate_set, 0);
    same("no call after it", calls, 0);
}

/* The frame in front is played in the tolerant reading, and no frame of the clip is. The strict one refuses it with 13, which is
 * no end: the header is four bytes, and the data is passed over as junk. */
static void strict_reading(void) {
    struct tag_state state;
    played("320 kbps in mono in front", barred, barred_count, 0);
    same("it alone is played", frames, 1);
    begin(barred_count);
    same("13", tag_state_open(&state, barred, barred_count, memory, TAG_MEMORY, TAG_CHOICE_STRICT), TAG_REFUSED_BARRED_RATE);
    in_front = tag_state_skipped(&state);
    same("the format behind it", ask(&state, barred, barred_count, &in_front), TAG_SUCCEEDED);
    same("told at once", questions, 1);
    same("its data", in_front, 1040);
    same("the end behind it", play(&state, barred, barred_count, memory, TAG_MEMORY, output, TAG_OUTPUT, &others),
         TAG_REFUSED_NO_HEADER_CAN_FOLLOW);
    same("frames behind it", frames, 149);
    same("none of another format", others, 0);
}

/* A clip that is cut, so that it ends with this number, and grows; and the same clip in one piece. When it is cut its
 * state is saved, and the one that was saved goes on. */
static void grown_and_saved(uint64_t cut, uint32_t number) {
    struct tag_state state, saved;
    static float kept[TAG_MEMORY];
    begin(citrus_count);
    play_clip(citrus, citrus_count, memory, TAG_MEMORY, output, TAG_OUTPUT, &others, &in_front);
    uint64_t at_once = heard;
    begin(2 * citrus_count);
    tag_state_open(&state, citrus, cut, memory, TAG_MEMORY, 0);
    same("the end of what is cut", play(&state, citrus, cut, memory, TAG_MEMORY, output, TAG_OUTPUT, &others), number);
    memcpy(&saved, &state, sizeof saved);
    memcpy(kept, memory, sizeof kept);
    memset(&state, 0xFF, sizeof state);
    memset(memory, 0xFF, sizeof memory);
    same("the end of what has grown", play(&saved, citrus, citrus_count, kept, TAG_MEMORY, output, TAG_OUTPUT, &others),
         TAG_REFUSED_NO_HEADER_CAN_FOLLOW);
    same("the same sound", heard, at_once);
}

static void short_samples(void) {
    static int16_t samples[TAG_OUTPUT + BEHIND], marks[TAG_OUTPUT + BEHIND];
    memset(samples, 0x55, sizeof samples);
    memset(marks, 0x55, sizeof marks);
    same("output short", tag_samples16(output, TAG_OUTPUT - 1, samples, TAG_OUTPUT), TAG_REFUSED_LITTLE_ROOM);
    same("samples short", tag_samples16(output, TAG_OUTPUT, samples, TAG_OUTPUT - 1), TAG_REFUSED_LITTLE_ROOM);
    same("nothing written", (uint64_t)memcmp(samples, marks, sizeof samples), 0);
    output[0] = 1.5f, output[1] = -1.5f, output[2] = 0.5f / 32768, output[3] = -0.5f / 32768;
    same("samples", tag_samples16(output, TAG_OUTPUT, samples, TAG_OUTPUT + BEHIND), TAG_SUCCEEDED);
    same("held above", samples[0] == 32767, 1);
    same("held below", samples[1] == -32768, 1);
    same("halves away from zero", samples[2] == 1 && samples[3] == -1, 1);
    same("behind", (uint64_t)memcmp(samples + TAG_OUTPUT, marks, sizeof samples[0] * BEHIND), 0);
}

static uint64_t read_clip(const char *name, uint8_t *to, size_t room) {
    FILE *file = fopen(name, "rb");
    size_t count = file != NULL ? fread(to, 1, room, file) : 0;
    if (file != NULL)
        fclose(file);
    return count;
}

int main(int count, char **words) {
    if (count != 3)
        return 2;
    citrus_count = read_clip(words[1], citrus, sizeof citrus);
    incident_count = read_clip(words[2], incident, sizeof incident);
    static const uint8_t layer_iii[] = {0xFF, 0xFB, 0, 0, 0, 0, 0xFF, 0xFB, 0, 0, 0, 0};
    memcpy(junk, layer_iii, sizeof layer_iii);
    junk_count = sizeof layer_iii + read_clip(words[1], junk + sizeof layer_iii, sizeof junk - sizeof layer_iii);
    memcpy(text, "scents:", 7);
    text_count = 7 + read_clip(words[1], text + 7, sizeof text - 7);
    static const uint8_t mono_at_320[] = {0xFF, 0xFD, 0xD0, 0xC0};
    memcpy(barred, mono_at_320, sizeof mono_at_320);
    barred_count = 1044 + read_clip(words[1], barred + 1044, sizeof barred - 1044);
    lent_wrong("8", too_long, TAG_STREAM + 1, TAG_MEMORY, TAG_OUTPUT, TAG_REFUSED_LONG_STREAM, 0);
    lent_wrong("9, memory", citrus, citrus_count, TAG_MEMORY - 1, TAG_OUTPUT, TAG_REFUSED_LITTLE_ROOM, 0);
    lent_wrong("9, output", citrus, citrus_count, TAG_MEMORY, TAG_OUTPUT - 1, TAG_REFUSED_LITTLE_ROOM, 1);
    state_out_of_range();
    whole_clips();
    strict_reading();
    /* The second header stands at byte 208: 3 bytes of it are fewer than 48 bits, and then a frame is cut. */
    grown_and_saved(211, TAG_REFUSED_NO_HEADER_CAN_FOLLOW);
    grown_and_saved(citrus_count / 2, TAG_REFUSED_CUT_OFF);
    short_samples();
    return closed();
}

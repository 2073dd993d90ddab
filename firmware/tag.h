/* The decoder's four calls, for C99, C11 and C++. Link libtag.a; README.md beside this file says where it comes from and has
 * the loop of a player.
 *
 * RAM: 8,192 bytes of memory, 9,216 of output, 104 of state, and 4,608 of 16-bit samples where they are wanted. Stack: at
 * most 5,988 bytes on the processors that were measured. Flash: 21 KB, 28 on a Cortex-M0+. README.md has each processor.
 *
 * What is lent is an address and a count. No address is NULL, also where the count is 0. Each is aligned as its type
 * asks, which is 8 bytes for places, time, start and bits. What a call may write does not overlap with anything else
 * lent to it. C cannot check this, so it is the caller's part. All else is the callee's: whatever stands in the stream,
 * in the memory and in the state, each call ends and answers one of the numbers below.
 *
 * Counts and places are 64 bits wide on every processor. A header with size_t builds for 32 bits, and crashes there.
 *
 * The library allocates nothing and keeps nothing. So any number of decoders may run at once, in tasks or interrupts, if
 * none is lent what another one's call is writing.
 *
 * The processor has to round to nearest and must not flush small numbers to zero. On a Cortex-M with an FPU the start-up
 * code sees to that, in FPSCR and FPDSCR; README.md says how.
 *
 * A call that seeks a header may read the whole stream before it answers. On n bytes at most n / 2 + 1 calls of tag_decode
 * come before the one that answers 1 or 7. */
#ifndef TAG_H
#define TAG_H

#include <limits.h>
#include <stddef.h>
#include <stdint.h>

#ifdef __cplusplus
extern "C" {
#endif

/* The numbers of documents 01 and 02, with the names of crates/audio/specs/Numbers. tag_goes_on, tag_ends and
 * tag_callers_mistake below say what to do on each. 13 ends nothing, nor does 14, which is to come, so a loop goes by these
 * functions and never by a number's size. */
enum tag_number {
    TAG_SUCCEEDED = 0,                    /* frame decoded, or header accepted */
    TAG_REFUSED_NO_HEADER_CAN_FOLLOW = 1, /* no header pending, fewer than 48 bits remain */
    TAG_REFUSED_NO_SYNC = 2,              /* header sought, no sync found */
    TAG_REFUSED_OTHER_LAYER = 3,          /* another version or layer */
    TAG_REFUSED_NO_BIT_RATE = 4,          /* a bit-rate field that is no bit rate */
    TAG_REFUSED_NO_SAMPLE_RATE = 5,       /* a sample-rate field that is no sample rate */
    TAG_REFUSED_OTHER_FORMAT = 6,         /* bit rate, sample rate or mode is not that of the first header */
    TAG_REFUSED_CUT_OFF = 7,              /* the frame's data does not all remain */
    TAG_REFUSED_LONG_STREAM = 8,          /* stream above TAG_STREAM bytes */
    TAG_REFUSED_LITTLE_ROOM = 9,          /* memory under TAG_MEMORY, or output or samples under TAG_OUTPUT values */
    TAG_REFUSED_BAD_STATE = 10,           /* a state out of the ranges of document 01 */
    TAG_REFUSED_BARRED_RATE = 13          /* a bit rate that the standard does not have in this mode: TAG_CHOICE_STRICT */
};

#define TAG_STREAM 16777216 /* bytes that a stream has at most */
#define TAG_MEMORY 2048     /* values of synthesis memory, kept from call to call */
#define TAG_OUTPUT 2304     /* values of a frame: 1,152 pairs, left and right in turn */
#define TAG_PLACES 8        /* numbers of a state, see enum tag_place */
#define TAG_COUNTS 8        /* numbers of a state, see enum tag_count */
#define TAG_LAYOUT 1        /* the layout of a saved state: save it beside the state, and go on with no other */

/* Whether no later call on the same stream decodes anything. If the stream grows, the next call goes on in it. */
static inline int tag_ends(uint32_t number) {
    return number == TAG_REFUSED_NO_HEADER_CAN_FOLLOW || number == TAG_REFUSED_CUT_OFF;
}

/* Whether the caller lent or saved something wrong: the same call gives the same number until that is mended. */
static inline int tag_callers_mistake(uint32_t number) {
    return number == TAG_REFUSED_LONG_STREAM || number == TAG_REFUSED_LITTLE_ROOM || number == TAG_REFUSED_BAD_STATE;
}

/* Whether a player's loop goes on. After every number but 1, 7, 8, 9 and 10 the next call may give a frame. */
static inline int tag_goes_on(uint32_t number) {
    return !tag_ends(number) && !tag_callers_mistake(number);
}

/* A decoder is these plain numbers and its memory. Copy both between two calls, never during one, and the copy goes on
 * from there, on any processor. The time is compared bit for bit: save its 8 bytes, and no decimal digits. What is kept
 * for later is written 0 and not read today, and the last place is an answer that no call reads. So a state saved as six
 * places and two counts, widened with zeros, goes on. */
struct tag_state {
    uint64_t places[TAG_PLACES];
    uint32_t counts[TAG_COUNTS];
    double time[1]; /* when the next frame starts, in seconds */
};

enum tag_place {
    TAG_PLACE_POSITION,    /* in bits from the stream's first */
    TAG_PLACE_SAMPLE_RATE, /* 0 is 44,100, 1 is 48,000, 2 is 32,000; 3: no header yet */
    TAG_PLACE_BIT_RATE,    /* 0 is 32 kbps .. 13 is 384 kbps */
    TAG_PLACE_BOUND,       /* the subband from which both channels share their samples */
    TAG_PLACE_PENDING,     /* bytes of the frame whose header has been read; 0: no header pending */
    TAG_PLACE_RING,        /* the place of the last slot in the memory */
    TAG_PLACE_FRAME_END,   /* kept for the end of the frame whose header has been read; 0 today */
    TAG_PLACE_SKIPPED      /* bytes that the last call passed over to the FF of a header, see tag_state_skipped */
};

enum tag_count {
    TAG_COUNT_MODE,   /* see enum tag_mode */
    TAG_COUNT_FRAMES, /* frames decoded */
    TAG_COUNT_CHOICES /* the choices of the opening; the five numbers behind them are kept for later, 0 today */
};

/* What tag_open can be asked for. TAG_CHOICE_STRICT: 32, 48, 56 and 80 kbps in mono alone, 224, 256, 320 and 384 kbps never in
 * mono, as the standard has it, and a header with another pair is refused with 13. Without it every pair is played. */
enum tag_choice { TAG_CHOICE_STRICT = 1 };

enum tag_mode { TAG_MODE_STEREO = 0, TAG_MODE_JOINT_STEREO = 1, TAG_MODE_TWO_CHANNELS = 2, TAG_MODE_MONO = 3 };

/* What the library takes for granted. Where one does not hold, the array has a negative size and nothing is built. */
#define TAG_ASSERT(name, condition) typedef char tag_assert_##name[(condition) ? 1 : -1]
TAG_ASSERT(byte, CHAR_BIT == 8);
TAG_ASSERT(number, sizeof(uint32_t) == 4 && sizeof(uint64_t) == 8);
TAG_ASSERT(float, sizeof(float) == 4);
TAG_ASSERT(double, sizeof(double) == 8);
TAG_ASSERT(counts, offsetof(struct tag_state, counts) == 64);
TAG_ASSERT(time, offsetof(struct tag_state, time) == 96);
TAG_ASSERT(state, sizeof(struct tag_state) == 104);

/* Opens a decoder: clears the first TAG_MEMORY values of the memory, makes a state, tries the first header.
 * Answers 0 to 5, 13, 8 or 9. The decoder can go on after 0 to 5 and 13; after 8 or 9 nothing was cleared: open again.
 * TAG_PLACE_SKIPPED is how many bytes stand in front of that header's FF, also where it is refused with 3 to 5 or 13; with 2
 * all bytes of the stream; with 1, 8 and 9 it is 0.
 * The bits of `choices` stand for other ways to read, see enum tag_choice. Give 0, or TAG_CHOICE_STRICT: the other bits have
 * no effect yet. The choice holds until the next opening. */
uint32_t tag_open(const uint8_t *stream, uint64_t stream_count, float *memory, uint64_t memory_count,
                  uint64_t places[TAG_PLACES], uint32_t counts[TAG_COUNTS], double time[1], uint32_t choices);

/* The clip's format: samples a second, kilobits a second, and the mode, see enum tag_mode. If a header is known, its format
 * is told, whatever follows in the stream. If none is, the next one is tried. Answers 0 to 5, 13, 8 or 10. With 0 the format
 * stays until the next opening. If its header was found just now, tag_decode does not seek it again: its frame comes next.
 * With another number the three are 0. With 2 to 5 and 13 the position has moved on, and asking again, or tag_decode, goes on
 * from there. TAG_PLACE_SKIPPED is how many bytes the attempt passed over, up to the header's FF, or with 2 up to the stream's
 * end. It is 0 where a header is known, and with 1, 8 and 10. */
uint32_t tag_format(const uint8_t *stream, uint64_t stream_count,
                    uint64_t places[TAG_PLACES], uint32_t counts[TAG_COUNTS], double time[1],
                    uint32_t rate[1], uint32_t kbps[1], uint32_t mode[1]);

/* The next frame. Answers 0 to 10, or 13. With 0 the output's first TAG_OUTPUT values are the frame, `start` is its start in
 * seconds and `bits` how many bits it used. With another number memory and output stay, and start and bits are 0.
 * 1.0 is full scale. A loud clip goes beyond it on both sides, so values have to be held before a converter gets them.
 * TAG_PLACE_SKIPPED is how many bytes were passed over, from the next whole byte behind the last call to this header's FF,
 * also with 3 to 6 and 13, and with 7 if the header was found just now; with 2 to the stream's end. What the last frame left
 * unused is among them. It is 0 where the header was found by an earlier call, and with 1, 8, 9 and 10. */
uint32_t tag_decode(const uint8_t *stream, uint64_t stream_count, float *memory, uint64_t memory_count,
                    float *output, uint64_t output_count,
                    uint64_t places[TAG_PLACES], uint32_t counts[TAG_COUNTS], double time[1],
                    double start[1], uint64_t bits[1]);

/* A frame's values as a converter wants them: times 32,768, rounded to nearest, halves away from zero, and held within
 * -32,768 and 32,767; a NaN is 0. Answers 0, or 9 if either count is below TAG_OUTPUT. With 0 the first TAG_OUTPUT samples
 * are the frame's and those behind them stay; with 9 all stay. */
uint32_t tag_samples16(const float *output, uint64_t output_count, int16_t *samples, uint64_t samples_count);

/* The same calls over a state in one piece. */
struct tag_told {
    uint32_t rate[1]; /* samples a second */
    uint32_t kbps[1]; /* kilobits a second */
    uint32_t mode[1]; /* see enum tag_mode */
};

struct tag_frame {
    double start[1];  /* in seconds */
    uint64_t bits[1]; /* that the frame used */
};

static inline uint32_t tag_state_open(struct tag_state *state, const uint8_t *stream, uint64_t stream_count,
                                      float *memory, uint64_t memory_count, uint32_t choices) {
    return tag_open(stream, stream_count, memory, memory_count, state->places, state->counts, state->time, choices);
}

static inline uint32_t tag_state_format(struct tag_state *state, const uint8_t *stream, uint64_t stream_count,
                                        struct tag_told *told) {
    return tag_format(stream, stream_count, state->places, state->counts, state->time, told->rate, told->kbps, told->mode);
}

static inline uint32_t tag_state_decode(struct tag_state *state, const uint8_t *stream, uint64_t stream_count,
                                        float *memory, uint64_t memory_count, float *output, uint64_t output_count,
                                        struct tag_frame *frame) {
    return tag_decode(stream, stream_count, memory, memory_count, output, output_count,
                      state->places, state->counts, state->time, frame->start, frame->bits);
}

/* The bytes that the last call passed over. Added up over the opening and the questions until the format is told, they are
 * the junk in front of a clip. Bytes that were taken for a header and refused are not among them. */
static inline uint64_t tag_state_skipped(const struct tag_state *state) {
    return state->places[TAG_PLACE_SKIPPED];
}

#ifdef __cplusplus
}
#endif

#endif

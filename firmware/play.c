/* Plays a clip to a file, as a tag plays it to its converter; `usage` says how. speak.rs is the same in Rust. */
#include "tag.h"
#include <stdio.h>
#include <string.h>

#define LONGEST 65536 /* bytes of a clip; more would be cut, so it is refused */

static uint8_t stream[LONGEST + 1];
static float memory[TAG_MEMORY], output[TAG_OUTPUT];
static int16_t samples[TAG_OUTPUT];

enum status { PLAYED = 0, TELL_THE_KEEPER = 1, NO_FILE = 2, OUR_MISTAKE = 3 };

static const char usage[] =
    "play CLIP SOUND [strict]\n"
    "Plays CLIP, at most 65536 bytes, to the file SOUND: samples of 16 bits, low byte first, left and right in turn.\n"
    "Standard output has the clip's format, the junk in front of it, a line for each call, and then what the keeper of the\n"
    "clip has to know. With the word strict a header is refused whose bit rate the standard does not have in its mode.\n"
    "Status: 0 the clip was played to its end, or to where it is cut off; 1 nothing was played, or a call was refused\n"
    "on the way; 2 wrong words, a clip that is too long, or a file that cannot be read or written; 3 a mistake of this\n"
    "player.\n";

static const char *words_of(uint32_t number) {
    static const char *const words[] = {
        "a frame",
        "no header can follow",
        "no sync found",
        "another version or layer",
        "a bit rate that is none",
        "a sample rate that is none",
        "another bit rate, sample rate or mode than the first",
        "the last frame is cut off",
        "the stream is too long",
        "memory or output is too short",
        "the state is out of range",
    };
    if (number == TAG_REFUSED_BARRED_RATE)
        return "a bit rate that the standard does not have in this mode";
    return number < sizeof words / sizeof words[0] ? words[number] : "a number that this player does not know";
}

static const char *mode_of(uint32_t mode) {
    static const char *const words[] = {
        [TAG_MODE_STEREO] = "stereo",
        [TAG_MODE_JOINT_STEREO] = "joint stereo",
        [TAG_MODE_TWO_CHANNELS] = "two channels",
        [TAG_MODE_MONO] = "mono",
    };
    return mode < sizeof words / sizeof words[0] ? words[mode] : "a mode that this player does not know";
}

/* FNV-1a over the frame's values, so that two decoders can be compared line by line. */
static uint64_t checksum(void) {
    const uint8_t *bytes = (const uint8_t *)output;
    uint64_t sum = 0xCBF29CE484222325;
    for (size_t i = 0; i < sizeof output; i++)
        sum = (sum ^ bytes[i]) * 0x100000001B3;
    return sum;
}

/* A tag would hand the samples to its converter here. */
static int heard(FILE *sound) {
    static uint8_t bytes[2 * TAG_OUTPUT];
    for (size_t i = 0; i < TAG_OUTPUT; i++) {
        bytes[2 * i] = (uint8_t)samples[i];
        bytes[2 * i + 1] = (uint8_t)((uint16_t)samples[i] >> 8);
    }
    return fwrite(bytes, 1, sizeof bytes, sound) == sizeof bytes;
}

/* The library of many a microcontroller prints no number of 64 bits. */
static void tell_frame(const struct tag_state *state, const struct tag_frame *frame) {
    unsigned long at = (unsigned long)((state->places[TAG_PLACE_POSITION] - frame->bits[0]) / 8);
    uint64_t sum = checksum();
    printf("frame %lu at %lu bits %lu sum %08lx%08lx\n", (unsigned long)state->counts[TAG_COUNT_FRAMES] - 1, at,
           (unsigned long)frame->bits[0], (unsigned long)(sum >> 32), (unsigned long)(sum & 0xFFFFFFFF));
}

/* What came of a clip. */
struct told {
    uint32_t number;       /* the last one */
    unsigned long frames;  /* that were played */
    unsigned long refused; /* calls that were refused on the way, with 2 to 6 or 13 */
    unsigned long others;  /* of these, frames of another format: with 6 */
    unsigned long barred;  /* and frames of a bit rate that the standard does not have in this mode: with 13 */
    unsigned long junk;    /* bytes in front of the first frame */
    int written;           /* whether the sound could be written */
};

static void tell_refusal(const struct tag_state *state, struct told *told) {
    unsigned long at = (unsigned long)(state->places[TAG_PLACE_POSITION] / 8);
    uint32_t number = told->number;
    printf("%s %lu at %lu: %s\n", tag_ends(number) ? "end" : "refused", (unsigned long)number, at, words_of(number));
    told->refused += tag_goes_on(number) != 0;
    told->others += number == TAG_REFUSED_OTHER_FORMAT;
    told->barred += number == TAG_REFUSED_BARRED_RATE;
}

static void tell_format(const struct tag_told *format) {
    unsigned long rate = format->rate[0], kbps = format->kbps[0];
    printf("format: %lu samples a second, %lu kbps, %s\n", rate, kbps, mode_of(format->mode[0]));
}

static void tell_junk(unsigned long bytes) {
    if (bytes != 0)
        printf("%lu %s of junk in front\n", bytes, bytes == 1 ? "byte" : "bytes");
}

/* Asks for the format until it is told. A tag would set its converter to the rate here. Where none will be told, the first
 * call of tag_decode says why. */
static void ask(struct tag_state *state, uint64_t length, struct told *told) {
    struct tag_told format;
    while (tag_goes_on(told->number = tag_state_format(state, stream, length, &format))) {
        told->junk += (unsigned long)tag_state_skipped(state);
        if (told->number == TAG_SUCCEEDED) {
            tell_format(&format);
            return;
        }
        tell_refusal(state, told);
    }
}

/* One call and what it asks for. On 6 the player goes on in the same stream and starts no other clip: the player that took
 * it for the end read out the wrong jar. */
static void step(struct tag_state *state, uint64_t length, FILE *sound, struct told *told) {
    struct tag_frame frame;
    told->number = tag_state_decode(state, stream, length, memory, TAG_MEMORY, output, TAG_OUTPUT, &frame);
    if (told->number == TAG_SUCCEEDED) {
        told->frames++;
        tell_frame(state, &frame);
        told->written = tag_samples16(output, TAG_OUTPUT, samples, TAG_OUTPUT) == TAG_SUCCEEDED && heard(sound);
        return;
    }
    tell_refusal(state, told);
}

static struct told play(uint64_t length, FILE *sound, uint32_t choices) {
    struct tag_state state;
    struct told told = {0, 0, 0, 0, 0, 0, 1};
    told.number = tag_state_open(&state, stream, length, memory, TAG_MEMORY, choices);
    told.junk = (unsigned long)tag_state_skipped(&state);
    if (told.number != TAG_SUCCEEDED && !tag_ends(told.number))
        tell_refusal(&state, &told);
    /* After 8 or 9 nothing was cleared: such a decoder must not go on. */
    if (tag_callers_mistake(told.number))
        return told;
    ask(&state, length, &told);
    tell_junk(told.junk);
    do {
        step(&state, length, sound, &told);
    } while (tag_goes_on(told.number) && told.written);
    return told;
}

/* Says how it ended, and gives the status. */
static enum status tell_the_keeper(const struct told *told) {
    if (tag_callers_mistake(told->number)) {
        printf("this player made a mistake: %s\n", words_of(told->number));
        return OUR_MISTAKE;
    }
    printf("frames played to the end of the clip: %lu\n", told->frames);
    if (told->number == TAG_REFUSED_CUT_OFF)
        puts("the last frame is cut off: ask the maker of this clip whether it is whole");
    if (told->others != 0)
        printf("frames of another format, not played: %lu. Tell the maker of this clip\n", told->others);
    if (told->barred != 0)
        printf("frames of a bit rate that the standard does not have in this mode, not played: %lu. "
               "Tell the maker of this clip\n", told->barred);
    unsigned long rest = told->refused - told->others - told->barred;
    if (rest != 0)
        printf("calls that found no frame: %lu. Tell the maker of this clip\n", rest);
    return told->frames == 0 || told->refused != 0 ? TELL_THE_KEEPER : PLAYED;
}

static enum status failed(const char *name, const char *what) {
    fprintf(stderr, "%s: %s\n", name, what);
    return NO_FILE;
}

int main(int count, char **words) {
    int strict = count == 4 && strcmp(words[3], "strict") == 0;
    if (count != 3 && !strict)
        return fputs(usage, stderr), NO_FILE;
    FILE *clip = fopen(words[1], "rb");
    if (clip == NULL)
        return failed(words[1], "cannot be read");
    size_t length = fread(stream, 1, sizeof stream, clip);
    int unread = ferror(clip);
    fclose(clip);
    if (unread)
        return failed(words[1], "cannot be read");
    if (length > LONGEST)
        return failed(words[1], "has more than 65536 bytes: nothing was played");
    FILE *sound = fopen(words[2], "wb");
    if (sound == NULL)
        return failed(words[2], "cannot be written");
    struct told told = play(length, sound, strict ? TAG_CHOICE_STRICT : 0);
    if (fclose(sound) != 0 || !told.written)
        return failed(words[2], "cannot be written");
    return tell_the_keeper(&told);
}

/* How far the port's sound, which is the Rust's, stands from mpg123's, which follows the standard: accuracy FILE ..
 * A line for each clip: frames that both play, the root mean square of the differences, the largest one, and both
 * beside the limits of ISO/IEC 11172-4 for a decoder of full accuracy (2^-15 / sqrt 12 and 2^-14, of full scale) and
 * of limited accuracy (2^-11 / sqrt 12). */
#include "tag.h"
#include <math.h>
#include <mpg123.h>
#include <stdio.h>

static uint8_t stream[1 << 20];
static float memory[TAG_MEMORY], output[TAG_OUTPUT];

struct distance {
    unsigned frames;
    double squares, power, largest;
};

static void add(struct distance *d, const float *theirs) {
    for (int i = 0; i < TAG_OUTPUT; i++) {
        double far = fabs((double)output[i] - theirs[i]);
        d->squares += far * far;
        d->power += (double)theirs[i] * theirs[i];
        if (far > d->largest)
            d->largest = far;
    }
    d->frames++;
}

/* Frame by frame, as long as both play. */
static struct distance compared(size_t length) {
    struct distance d = {0};
    struct tag_state s;
    double start[1];
    uint64_t bits[1];
    size_t bytes;
    off_t number;
    unsigned char *theirs;
    mpg123_handle *m = mpg123_new("generic", NULL);
    mpg123_param(m, MPG123_ADD_FLAGS, MPG123_FORCE_FLOAT | MPG123_FORCE_STEREO | MPG123_QUIET, 0);
    mpg123_open_feed(m);
    mpg123_feed(m, stream, length);
    tag_open(stream, length, memory, TAG_MEMORY, s.places, s.counts, s.time, 0);
    for (;;) {
        int answer = mpg123_decode_frame(m, &number, &theirs, &bytes);
        if (answer == MPG123_NEW_FORMAT)
            continue;
        if (answer != MPG123_OK || bytes != sizeof output ||
            tag_decode(stream, length, memory, TAG_MEMORY, output, TAG_OUTPUT, s.places, s.counts, s.time, start, bits))
            break;
        add(&d, (const float *)theirs);
    }
    mpg123_delete(m);
    return d;
}

int main(int count, char **words) {
    const double full = pow(2, -15) / sqrt(12), limited = pow(2, -11) / sqrt(12), most = pow(2, -14);
    mpg123_init();
    for (int i = 1; i < count; i++) {
        FILE *file = fopen(words[i], "rb");
        if (file == NULL) {
            perror(words[i]);
            return 2;
        }
        struct distance d = compared(fread(stream, 1, sizeof stream, file));
        fclose(file);
        if (d.squares == 0) {
            printf("%s: %s\n", words[i], d.frames ? "nothing differs" : "no frame that both play");
            continue;
        }
        double mean = sqrt(d.squares / d.frames / TAG_OUTPUT);
        printf("%s: %u frames; root mean square %.3g, %.0f times the limit of full accuracy and %.1f of limited;"
               " largest %.3g, %.0f times its limit; %.1f dB\n",
               words[i], d.frames, mean, mean / full, mean / limited, d.largest, d.largest / most,
               10 * log10(d.power / d.squares));
    }
    return 0;
}

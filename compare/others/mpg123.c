/* libmpg123 on a whole stream lent at once: how many frames it played, -1 if it failed. Output: f32, interleaved. */
#include <mpg123.h>

/* Which of its decoders: NULL is its own choice, "generic" its plain C. */
#ifndef DECODER
#define DECODER NULL
#endif

long play(const unsigned char *stream, size_t length) {
    static int ready = 0;
    long frames = 0;
    off_t number;
    unsigned char *sound;
    size_t bytes;
    if (!ready && mpg123_init() != MPG123_OK)
        return -1;
    ready = 1;
    mpg123_handle *m = mpg123_new(DECODER, NULL);
    if (m == NULL)
        return -1;
    mpg123_param(m, MPG123_ADD_FLAGS, MPG123_FORCE_FLOAT | MPG123_QUIET, 0);
    if (mpg123_open_feed(m) != MPG123_OK || mpg123_feed(m, stream, length) != MPG123_OK)
        return -1;
    for (;;) {
        int answer = mpg123_decode_frame(m, &number, &sound, &bytes);
        if (answer == MPG123_NEW_FORMAT)
            continue;
        if (answer != MPG123_OK)
            break;
        frames += bytes > 0;
    }
    mpg123_delete(m);
    return frames;
}

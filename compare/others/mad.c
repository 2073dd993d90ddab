/* libmad on a whole stream lent at once: how many frames it played. Output: fixed point, a channel after the other. */
#include <mad.h>
#include <stdlib.h>
#include <string.h>

long play(const unsigned char *stream, size_t length) {
    struct mad_stream s;
    struct mad_frame f;
    struct mad_synth y;
    long frames = 0;
    /* libmad takes the last frame only if bytes follow it. */
    unsigned char *bytes = calloc(length + MAD_BUFFER_GUARD, 1);
    if (bytes == NULL)
        return -1;
    memcpy(bytes, stream, length);
    mad_stream_init(&s);
    mad_frame_init(&f);
    mad_synth_init(&y);
    mad_stream_buffer(&s, bytes, length + MAD_BUFFER_GUARD);
    for (;;) {
        if (mad_frame_decode(&f, &s) == 0) {
            mad_synth_frame(&y, &f);
            frames++;
        } else if (!MAD_RECOVERABLE(s.error)) {
            break;
        }
    }
    mad_synth_finish(&y);
    mad_frame_finish(&f);
    mad_stream_finish(&s);
    free(bytes);
    return frames;
}

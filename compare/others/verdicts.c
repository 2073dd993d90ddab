/* libmad's verdicts: verdicts CLIP ... For each clip a line: how many frames it plays; where none, its first complaint. */
#include <mad.h>
#include <stdio.h>
#include <string.h>

#define LONGEST 65536

/* libmad takes the last frame only if bytes follow it. */
static unsigned char bytes[LONGEST + MAD_BUFFER_GUARD];

static void judge(size_t length) {
    struct mad_stream stream;
    struct mad_frame frame;
    const char *complaint = "";
    unsigned frames = 0;
    memset(bytes + length, 0, MAD_BUFFER_GUARD);
    mad_stream_init(&stream);
    mad_frame_init(&frame);
    mad_stream_buffer(&stream, bytes, length + MAD_BUFFER_GUARD);
    for (;;) {
        if (mad_frame_decode(&frame, &stream) == 0) {
            frames++;
            continue;
        }
        if (!MAD_RECOVERABLE(stream.error))
            break;
        if (*complaint == '\0')
            complaint = mad_stream_errorstr(&stream);
    }
    /* Behind the last frame it misses a sync among the zeros. */
    printf("%u frames%s%s\n", frames, frames == 0 ? ", " : "", frames == 0 ? complaint : "");
    mad_frame_finish(&frame);
    mad_stream_finish(&stream);
}

int main(int count, char **clips) {
    for (int i = 1; i < count; i++) {
        FILE *clip = fopen(clips[i], "rb");
        if (clip == NULL)
            return 2;
        judge(fread(bytes, 1, LONGEST, clip));
        fclose(clip);
    }
    return 0;
}

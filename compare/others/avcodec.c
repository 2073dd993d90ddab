/* libavcodec's decoder NAME (mp2: s16, mp2float: f32; a channel after the other), on a whole stream lent at once: how many
 * frames it played. The stream is cut into frames here, which a demuxer would do. */
#include <libavcodec/avcodec.h>
#include <string.h>

static size_t frame_size(const unsigned char *head) {
    static const int kbps[16] = {0, 32, 48, 56, 64, 80, 96, 112, 128, 160, 192, 224, 256, 320, 384, 0};
    static const int hertz[4] = {44100, 48000, 32000, 1};
    return 144000 * kbps[head[2] >> 4] / hertz[head[2] >> 2 & 3] + (head[2] >> 1 & 1);
}

static long play_all(AVCodecContext *c, AVPacket *packet, AVFrame *frame, unsigned char *bytes, size_t length) {
    long frames = 0;
    size_t size;
    for (size_t at = 0; at + 4 <= length && (size = frame_size(bytes + at)) != 0 && at + size <= length; at += size) {
        packet->data = bytes + at;
        packet->size = (int)size;
        if (avcodec_send_packet(c, packet) != 0)
            continue;
        while (avcodec_receive_frame(c, frame) == 0)
            frames++;
    }
    packet->data = NULL;
    packet->size = 0;
    return frames;
}

long play(const unsigned char *stream, size_t length) {
    const AVCodec *codec = avcodec_find_decoder_by_name(NAME);
    AVCodecContext *c = codec == NULL ? NULL : avcodec_alloc_context3(codec);
    unsigned char *bytes = av_mallocz(length + AV_INPUT_BUFFER_PADDING_SIZE);
    AVPacket *packet = av_packet_alloc();
    AVFrame *frame = av_frame_alloc();
    long frames = -1;
    if (c != NULL && bytes != NULL && packet != NULL && frame != NULL) {
        memcpy(bytes, stream, length);
        c->thread_count = 1;
        if (avcodec_open2(c, codec, NULL) == 0)
            frames = play_all(c, packet, frame, bytes, length);
    }
    av_frame_free(&frame);
    av_packet_free(&packet);
    av_free(bytes);
    avcodec_free_context(&c);
    return frames;
}

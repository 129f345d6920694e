/* The loops that bench/framing/run compares with: the same packets cut from the same bytes, which come
   in the same pieces, by a plain C programmer, over the codec of bench/codec: so with the checks that
   the standard asks of all fifteen kinds of packets. */
#define main codec_main
#include "../codec/codec.c"
#undef main

static const uint8_t PACKET[13] = "\x30\x0b\x00\x03"
                                  "a/b\x00"
                                  "12345";

enum { CHUNK = 4096 };

/* What has come and is not cut yet. */
static uint8_t window[GREATEST + CHUNK];

static void take_in(struct tally *t, const struct packet *p) {
    add(t, p->kind == PUBLISH && p->payload.len > 0 ? p->payload.at[0] : 0);
}

/* Each packet of a window that grows by pieces, read by `read`, which may own what `done` gives back. */
static struct tally framed(const uint8_t *s, size_t len, int (*read)(bytes_t, size_t, struct packet *),
                           void (*done)(struct packet *)) {
    struct tally t = {0, 0};
    size_t held = 0;
    for (size_t i = 0, n; i < len; i += n) {
        size_t at = 0;
        n = len - i < CHUNK ? len - i : CHUNK;
        memcpy(window + held, s + i, n);
        held += n;
        for (;;) {
            struct packet p;
            long size = size_of(window + at, held - at);
            if (size < 0)
                exit(1);
            if (size == 0 || (size_t)size > held - at)
                break;
            if (read(window + at, (size_t)size, &p))
                exit(1);
            take_in(&t, &p);
            if (done)
                done(&p);
            at += (size_t)size;
        }
        memmove(window, window + at, held -= at);
    }
    return t;
}

int main(int argc, char **argv) {
    size_t size = argc > 1 ? strtoull(argv[1], NULL, 10) : 130000;
    size_t count = size / sizeof PACKET, len = count * sizeof PACKET;
    uint8_t *stream = malloc(len ? len : 1);
    double start, middle, end;
    struct tally t;
    if (!stream)
        return 1;
    for (size_t i = 0; i < count; i++)
        memcpy(stream + i * sizeof PACKET, PACKET, sizeof PACKET);
    start = seconds();
    t = framed(stream, len, decode, drop);
    middle = seconds();
    report("owned", t, middle - start);
    start = seconds();
    t = framed(stream, len, look, NULL);
    end = seconds();
    report("looked", t, end - start);
    free(stream);
    return 0;
}

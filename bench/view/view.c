/* The viewer that bench/view/run compares with: it prints the lines of `mqtt5 view`, by a plain C
   programmer, over the codec of bench/codec, and so with the checks that the standard asks.
   Usage: view make BYTES, which writes a stream of mixed packets; view show FILE. */
#define main codec_main
#include "../codec/codec.c"
#undef main
#include <fcntl.h>
#include <unistd.h>

enum { CHUNK = 4096 };

/* As many whole packets of bench/codec's mix, in turn, as fit. */
static int make(size_t bytes) {
    for (size_t i = 0, made = 0; made + FRAMES[i].len <= bytes; i = (i + 1) % 10) {
        fwrite(FRAMES[i].at, 1, FRAMES[i].len, stdout);
        made += FRAMES[i].len;
    }
    return fflush(stdout) != 0;
}

/* What is to be written; a line has at most some 200 KB (a topic that is all escaped). */
static uint8_t out[1 << 20];
static size_t held;

static void flush(void) {
    for (size_t done = 0; done < held;) {
        ssize_t n = write(1, out + done, held - done);
        if (n <= 0)
            exit(3);
        done += (size_t)n;
    }
    held = 0;
}

static void say(const char *text) {
    size_t len = strlen(text);
    memcpy(out + held, text, len);
    held += len;
}

static void say_number(uint64_t n) {
    char digits[20];
    size_t len = 0;
    do
        digits[len++] = (char)('0' + n % 10);
    while ((n /= 10) > 0);
    while (len > 0)
        out[held++] = (uint8_t)digits[--len];
}

static void say_hex(unsigned byte) {
    out[held++] = (uint8_t)"0123456789abcdef"[byte >> 4];
    out[held++] = (uint8_t)"0123456789abcdef"[byte & 15];
}

static void say_text(struct span text) {
    for (size_t i = 0; i < text.len; i++) {
        uint8_t b = text.at[i];
        if (b >= '!' && b <= '~' && b != '%') {
            out[held++] = b;
        } else {
            out[held++] = '%';
            say_hex(b);
        }
    }
}

static void say_field(const char *name, uint64_t n) {
    say(name);
    say_number(n);
}

static void say_code(unsigned code) {
    say(" code=");
    say_hex(code);
}

/* How many properties a block has that was looked at. */
static uint64_t count_props(struct span props) {
    struct reader r = {props.at, props.len, 1};
    uint64_t count = 0;
    while (r.len > 0) {
        switch (TABLE[u8(&r)].type) {
        case BYTE: u8(&r); break;
        case TWO: u16(&r); break;
        case FOUR: u32(&r); break;
        case VARINT: varint(&r); break;
        case PAIR: blob(&r); blob(&r); break;
        default: blob(&r); break;
        }
        count++;
    }
    return count;
}

static void say_filters(struct packet *p) {
    struct reader r = {p->payload.at, p->payload.len, 1};
    while (r.len > 0) {
        say(" filter=");
        say_text(blob(&r));
        if (p->kind == SUBSCRIBE) {
            say(":");
            say_hex(u8(&r));
        }
    }
}

static void say_publish(struct packet *p) {
    int qos = p->flags >> 1 & 3;
    say_field(" qos=", (uint64_t)qos);
    if (qos > 0)
        say_field(" id=", p->id);
    if (p->flags & 8)
        say(" dup");
    if (p->flags & 1)
        say(" retain");
    say(" topic=");
    say_text(p->topic);
    say_field(" payload=", p->payload.len);
}

static void say_packet(uint64_t place, size_t size, struct packet *p) {
    static const char *NAMES[] = {"", " CONNECT ", " CONNACK ", " PUBLISH ", " PUBACK ", " PUBREC ", " PUBREL ",
                                  " PUBCOMP ", " SUBSCRIBE ", " SUBACK ", " UNSUBSCRIBE ", " UNSUBACK ", " PINGREQ ",
                                  " PINGRESP ", " DISCONNECT ", " AUTH "};
    uint64_t props = count_props(p->props);
    say_number(place);
    say_field(NAMES[p->kind], size);
    switch (p->kind) {
    case CONNECT:
        say(" client=");
        say_text(p->topic);
        say_field(" clean=", p->connect_flags >> 1 & 1);
        say_field(" keep=", p->keep_alive);
        say_field(" will=", p->connect_flags >> 2 & 1);
        break;
    case CONNACK:
        say_field(" present=", (uint64_t)p->connect_flags);
        say_code((unsigned)p->reason);
        break;
    case PUBLISH:
        say_publish(p);
        break;
    case PUBACK: case PUBREC: case PUBREL: case PUBCOMP:
        say_field(" id=", p->id);
        say_code((unsigned)p->reason);
        break;
    case SUBSCRIBE: case UNSUBSCRIBE:
        say_field(" id=", p->id);
        say_filters(p);
        break;
    case SUBACK: case UNSUBACK:
        say_field(" id=", p->id);
        for (size_t i = 0; i < p->payload.len; i++) {
            say(i ? "," : " codes=");
            say_hex(p->payload.at[i]);
        }
        break;
    case DISCONNECT: case AUTH:
        say_code((unsigned)p->reason);
        break;
    }
    if (props > 0)
        say_field(" props=", props);
    say("\n");
}

static int fault_at(uint64_t place, int fault) {
    static const char *FAULTS[] = {"", " fault Malformed\n", " fault Protocol\n", " fault TooLarge\n", " fault Version\n"};
    say_number(place);
    say(FAULTS[fault]);
    flush();
    return 1;
}

/* Shows each whole packet of a window that grows by what is read. */
static int show(int file) {
    static uint8_t window[GREATEST + CHUNK];
    size_t len = 0;
    uint64_t place = 0;
    for (;;) {
        ssize_t n = read(file, window + len, CHUNK);
        size_t at = 0;
        if (n < 0)
            return 3;
        if (n == 0)
            break;
        len += (size_t)n;
        for (;;) {
            struct packet p;
            long size = size_of(window + at, len - at);
            if (size < 0)
                return fault_at(place, (int)-size);
            if (size == 0 || (size_t)size > len - at)
                break;
            int fault = look(window + at, (size_t)size, &p);
            if (fault)
                return fault_at(place, fault);
            if (held > sizeof out - 4 * GREATEST)
                flush();
            say_packet(place, (size_t)size, &p);
            at += (size_t)size;
            place += (uint64_t)size;
        }
        flush();
        memmove(window, window + at, len -= at);
    }
    if (len > 0) {
        say_number(place);
        say(" short\n");
        flush();
        return 1;
    }
    return 0;
}

int main(int argc, char **argv) {
    if (argc == 3 && strcmp(argv[1], "make") == 0)
        return make(strtoul(argv[2], NULL, 10));
    if (argc == 3 && strcmp(argv[1], "show") == 0) {
        int file = open(argv[2], O_RDONLY);
        return file < 0 ? 3 : show(file);
    }
    return 2;
}

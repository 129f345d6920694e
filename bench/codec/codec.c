/* The codec that bench/codec/run compares with: packets of MQTT 5.0 read out of whole frames and
   written, by a plain C programmer, with the checks of layouts and laws that the standard asks. */
#include <stdint.h>
#include <stdio.h>
#include <stdlib.h>
#include <string.h>
#include <time.h>

typedef const uint8_t *bytes_t;

struct span {
    bytes_t at;
    size_t len;
};

enum { CONNECT = 1, CONNACK, PUBLISH, PUBACK, PUBREC, PUBREL, PUBCOMP, SUBSCRIBE, SUBACK, UNSUBSCRIBE,
       UNSUBACK, PINGREQ, PINGRESP, DISCONNECT, AUTH, WILL };

struct packet {
    int kind, flags, reason, connect_flags;
    unsigned id, keep_alive;
    struct span props, topic, payload, will_props, will_topic, will_payload, user, password;
};

struct tally {
    uint64_t packets, sum;
};

/* Whether the bytes are UTF-8 without U+0000 (1.5.4). */
static int is_text(bytes_t s, size_t len) {
    size_t i = 0;
    while (i < len) {
        uint8_t b = s[i];
        size_t more;
        uint32_t c, least;
        if (b != 0 && b < 0x80) {
            i++;
            continue;
        }
        if (b >= 0xc2 && b <= 0xdf) {
            more = 1, c = b & 0x1f, least = 0x80;
        } else if ((b & 0xf0) == 0xe0) {
            more = 2, c = b & 0x0f, least = 0x800;
        } else if (b >= 0xf0 && b <= 0xf4) {
            more = 3, c = b & 0x07, least = 0x10000;
        } else {
            return 0;
        }
        if (len - i <= more)
            return 0;
        for (size_t k = 1; k <= more; k++) {
            if ((s[i + k] & 0xc0) != 0x80)
                return 0;
            c = c << 6 | (s[i + k] & 0x3f);
        }
        if (c < least || c > 0x10ffff || (c >= 0xd800 && c <= 0xdfff))
            return 0;
        i += 1 + more;
    }
    return 1;
}

/* A reader: what is left, and whether all went well. */
struct reader {
    bytes_t s;
    size_t len;
    int ok;
};

static unsigned u8(struct reader *r) {
    if (r->len < 1) {
        r->ok = 0;
        return 0;
    }
    r->len--;
    return *r->s++;
}

static unsigned u16(struct reader *r) {
    unsigned high = u8(r);
    return high << 8 | u8(r);
}

static uint32_t u32(struct reader *r) {
    uint32_t high = u16(r);
    return high << 16 | u16(r);
}

static uint32_t varint(struct reader *r) {
    uint32_t n = 0;
    for (int i = 0; i < 4; i++) {
        unsigned b = u8(r);
        n |= (uint32_t)(b & 0x7f) << 7 * i;
        if (b < 0x80) {
            if (i > 0 && b == 0)
                r->ok = 0;
            return n;
        }
    }
    r->ok = 0;
    return 0;
}

static struct span take(struct reader *r, size_t len) {
    struct span span = {r->s, len};
    if (!r->ok || r->len < len) {
        r->ok = 0;
        span.len = 0;
        return span;
    }
    r->s += len;
    r->len -= len;
    return span;
}

static struct span blob(struct reader *r) {
    size_t len = u16(r);
    return take(r, len);
}

static struct span text(struct reader *r) {
    struct span span = blob(r);
    if (r->ok && !is_text(span.at, span.len))
        r->ok = 0;
    return span;
}

/* A property's kind of value, and a bit for each place (Table 2-4). */
enum { BYTE = 1, TWO, FOUR, VARINT, TEXT, BINARY, PAIR };
#define IN(kind) (1u << (kind))
static const struct {
    uint8_t type;
    uint32_t places;
} TABLE[0x2b] = {
    [0x01] = {BYTE, IN(PUBLISH) | IN(WILL)},
    [0x02] = {FOUR, IN(PUBLISH) | IN(WILL)},
    [0x03] = {TEXT, IN(PUBLISH) | IN(WILL)},
    [0x08] = {TEXT, IN(PUBLISH) | IN(WILL)},
    [0x09] = {BINARY, IN(PUBLISH) | IN(WILL)},
    [0x0b] = {VARINT, IN(PUBLISH) | IN(SUBSCRIBE)},
    [0x11] = {FOUR, IN(CONNECT) | IN(CONNACK) | IN(DISCONNECT)},
    [0x12] = {TEXT, IN(CONNACK)},
    [0x13] = {TWO, IN(CONNACK)},
    [0x15] = {TEXT, IN(CONNECT) | IN(CONNACK) | IN(AUTH)},
    [0x16] = {BINARY, IN(CONNECT) | IN(CONNACK) | IN(AUTH)},
    [0x17] = {BYTE, IN(CONNECT)},
    [0x18] = {FOUR, IN(WILL)},
    [0x19] = {BYTE, IN(CONNECT)},
    [0x1a] = {TEXT, IN(CONNACK)},
    [0x1c] = {TEXT, IN(CONNACK) | IN(DISCONNECT)},
    [0x1f] = {TEXT, IN(CONNACK) | IN(PUBACK) | IN(PUBREC) | IN(PUBREL) | IN(PUBCOMP) | IN(SUBACK) | IN(UNSUBACK) |
                        IN(DISCONNECT) | IN(AUTH)},
    [0x21] = {TWO, IN(CONNECT) | IN(CONNACK)},
    [0x22] = {TWO, IN(CONNECT) | IN(CONNACK)},
    [0x23] = {TWO, IN(PUBLISH)},
    [0x24] = {BYTE, IN(CONNACK)},
    [0x25] = {BYTE, IN(CONNACK)},
    [0x26] = {PAIR, ~0u},
    [0x27] = {FOUR, IN(CONNECT) | IN(CONNACK)},
    [0x28] = {BYTE, IN(CONNACK)},
    [0x29] = {BYTE, IN(CONNACK)},
    [0x2a] = {BYTE, IN(CONNACK)},
};

/* Reads the pairs; sets `seen` to the identifiers that stand there, and `broken` for a law. */
static void pairs(struct span block, int place, uint64_t *seen, int *broken, int *ok) {
    struct reader r = {block.at, block.len, 1};
    *seen = 0;
    while (r.ok && r.len > 0) {
        unsigned id = u8(&r);
        uint32_t n = 1;
        if (id >= 0x2b || !(TABLE[id].places & IN(place))) {
            r.ok = 0;
            break;
        }
        if ((*seen >> id & 1) && id != 0x26 && !(id == 0x0b && place == PUBLISH))
            *broken = 1;
        *seen |= (uint64_t)1 << id;
        switch (TABLE[id].type) {
        case BYTE:
            n = u8(&r);
            if (n > 1)
                *broken = 1;
            break;
        case TWO:
            n = u16(&r);
            break;
        case FOUR:
            n = u32(&r);
            break;
        case VARINT:
            n = varint(&r);
            break;
        case TEXT: {
            struct span t = text(&r);
            if (id == 0x08 && (memchr(t.at, '+', t.len) || memchr(t.at, '#', t.len)))
                *broken = 1;
            break;
        }
        case BINARY:
            blob(&r);
            break;
        case PAIR:
            text(&r);
            text(&r);
            break;
        }
        if (n == 0 && (id == 0x21 || id == 0x27 || id == 0x0b))
            *broken = 1;
    }
    if ((*seen >> 0x16 & 1) && !(*seen >> 0x15 & 1))
        *broken = 1;
    if (!r.ok)
        *ok = 0;
}

static struct span block(struct reader *r, int place, uint64_t *seen, int *broken) {
    size_t len = varint(r);
    struct span span = take(r, len);
    if (r->ok)
        pairs(span, place, seen, broken, &r->ok);
    return span;
}

static int is_code(int kind, unsigned c) {
    switch (kind) {
    case CONNACK:
        return c == 0 || (c >= 0x80 && c <= 0x8a) || c == 0x8c || c == 0x90 || c == 0x95 || c == 0x97 ||
               (c >= 0x99 && c <= 0x9d) || c == 0x9f;
    case PUBACK:
    case PUBREC:
        return c == 0 || c == 0x10 || c == 0x80 || c == 0x83 || c == 0x87 || c == 0x90 || c == 0x91 ||
               c == 0x97 || c == 0x99;
    case PUBREL:
    case PUBCOMP:
        return c == 0 || c == 0x92;
    case SUBACK:
        return c <= 2 || c == 0x80 || c == 0x83 || c == 0x87 || c == 0x8f || c == 0x91 || c == 0x97 ||
               c == 0x9e || c == 0xa1 || c == 0xa2;
    case UNSUBACK:
        return c == 0 || c == 0x11 || c == 0x80 || c == 0x83 || c == 0x87 || c == 0x8f || c == 0x91;
    case DISCONNECT:
        return c == 0 || c == 4 || (c >= 0x80 && c <= 0x83) || c == 0x87 || c == 0x89 || c == 0x8b ||
               (c >= 0x8d && c <= 0x90) || (c >= 0x93 && c <= 0xa2);
    default:
        return c == 0 || c == 0x18 || c == 0x19;
    }
}

/* Filters, with options where they belong to a SUBSCRIBE; at least one. */
static void filters(struct span list, int kind, int *broken, int *ok) {
    struct reader r = {list.at, list.len, 1};
    if (list.len == 0)
        *broken = 1;
    while (r.ok && r.len > 0) {
        struct span filter = text(&r);
        if (kind == SUBSCRIBE) {
            unsigned options = u8(&r);
            if (options >= 64)
                r.ok = 0;
            if (options % 4 == 3 || options / 16 == 3 ||
                (options & 4 && filter.len >= 7 && memcmp(filter.at, "$share/", 7) == 0))
                *broken = 1;
        }
    }
    if (!r.ok)
        *ok = 0;
}

/* 0: it is a packet; else the fault's number. */
static int look(bytes_t s, size_t len, struct packet *p) {
    struct reader r = {s, len, 1};
    uint64_t seen = 0, will_seen;
    int broken = 0;
    unsigned first = u8(&r);
    size_t left = varint(&r);
    memset(p, 0, sizeof *p);
    p->kind = (int)(first >> 4);
    p->flags = (int)(first & 15);
    if (!r.ok || r.len != left || p->kind == 0)
        return 1;
    if (p->kind == PUBLISH) {
        if ((first & 6) == 6 || (first & 14) == 8)
            return 1;
    } else if (p->flags != (p->kind == PUBREL || p->kind == SUBSCRIBE || p->kind == UNSUBSCRIBE ? 2 : 0)) {
        return 1;
    }
    switch (p->kind) {
    case CONNECT: {
        struct span name = text(&r);
        unsigned version = u8(&r), f;
        if (r.ok && (name.len != 4 || memcmp(name.at, "MQTT", 4) != 0 || version != 5))
            return 4;
        f = u8(&r);
        p->connect_flags = (int)f;
        if (f & 1 || (f & 4 ? (f & 0x18) == 0x18 : f & 0x38))
            return 1;
        p->keep_alive = u16(&r);
        p->props = block(&r, CONNECT, &seen, &broken);
        p->topic = text(&r);
        if (f & 4) {
            p->will_props = block(&r, WILL, &will_seen, &broken);
            p->will_topic = text(&r);
            p->will_payload = blob(&r);
        }
        if (f & 0x80)
            p->user = text(&r);
        if (f & 0x40)
            p->password = blob(&r);
        break;
    }
    case CONNACK: {
        unsigned present = u8(&r);
        p->connect_flags = (int)present;
        p->reason = (int)u8(&r);
        p->props = block(&r, CONNACK, &seen, &broken);
        if (present > 1 || !is_code(CONNACK, (unsigned)p->reason))
            return 1;
        if (present && p->reason)
            broken = 1;
        break;
    }
    case PUBLISH:
        p->topic = text(&r);
        if (first & 6) {
            p->id = u16(&r);
            if (p->id == 0)
                broken = 1;
        }
        p->props = block(&r, PUBLISH, &seen, &broken);
        p->payload = take(&r, r.len);
        if (p->topic.len == 0 && !(seen >> 0x23 & 1))
            broken = 1;
        break;
    case PUBACK:
    case PUBREC:
    case PUBREL:
    case PUBCOMP:
        p->id = u16(&r);
        if (p->id == 0)
            broken = 1;
        /* fall through */
    case DISCONNECT:
        if (r.ok && r.len > 0)
            p->reason = (int)u8(&r);
        if (r.ok && r.len > 0)
            p->props = block(&r, p->kind, &seen, &broken);
        if (!is_code(p->kind, (unsigned)p->reason))
            return 1;
        break;
    case SUBSCRIBE:
    case UNSUBSCRIBE:
        p->id = u16(&r);
        p->props = block(&r, p->kind, &seen, &broken);
        p->payload = take(&r, r.len);
        if (r.ok)
            filters(p->payload, p->kind, &broken, &r.ok);
        if (p->id == 0)
            broken = 1;
        break;
    case SUBACK:
    case UNSUBACK:
        p->id = u16(&r);
        p->props = block(&r, p->kind, &seen, &broken);
        p->payload = take(&r, r.len);
        for (size_t i = 0; i < p->payload.len; i++)
            if (!is_code(p->kind, p->payload.at[i]))
                return 1;
        if (p->id == 0 || p->payload.len == 0)
            broken = 1;
        break;
    case AUTH:
        if (r.len > 0) {
            p->reason = (int)u8(&r);
            p->props = block(&r, AUTH, &seen, &broken);
            if (!is_code(AUTH, (unsigned)p->reason))
                return 1;
        }
        if ((p->reason || p->props.len) && !(seen >> 0x15 & 1))
            broken = 1;
        break;
    default:
        break;
    }
    if (!r.ok || r.len != 0)
        return 1;
    return broken ? 2 : 0;
}

static int own_span(struct span *span) {
    uint8_t *copy;
    if (span->len == 0)
        return 1;
    copy = malloc(span->len);
    if (!copy)
        return 0;
    memcpy(copy, span->at, span->len);
    span->at = copy;
    return 1;
}

static struct span *parts(struct packet *p, int i) {
    struct span *all[] = {&p->props,        &p->topic, &p->payload, &p->will_props, &p->will_topic,
                          &p->will_payload, &p->user,  &p->password};
    return all[i];
}

__attribute__((noinline)) static int decode(bytes_t s, size_t len, struct packet *p) {
    int fault = look(s, len, p);
    if (fault)
        return fault;
    for (int i = 0; i < 8; i++)
        if (!own_span(parts(p, i)))
            return 5;
    return 0;
}

static void drop(struct packet *p) {
    for (int i = 0; i < 8; i++)
        if (parts(p, i)->len)
            free((void *)parts(p, i)->at);
}

/* Whether the laws hold, of a packet whose parts have a spelling. */
__attribute__((noinline)) static int lawful(const struct packet *p) {
    uint64_t seen = 0, will_seen;
    int broken = 0, ok = 1;
    if (p->kind != PINGREQ && p->kind != PINGRESP)
        pairs(p->props, p->kind, &seen, &broken, &ok);
    switch (p->kind) {
    case CONNECT:
        if (p->connect_flags & 4)
            pairs(p->will_props, WILL, &will_seen, &broken, &ok);
        break;
    case CONNACK:
        broken |= !is_code(CONNACK, (unsigned)p->reason) || (p->reason && p->connect_flags);
        break;
    case PUBLISH:
        broken |= (p->flags & 6 && p->id == 0) || (p->topic.len == 0 && !(seen >> 0x23 & 1));
        break;
    case PUBACK:
    case PUBREC:
    case PUBREL:
    case PUBCOMP:
        broken |= p->id == 0 || !is_code(p->kind, (unsigned)p->reason);
        break;
    case SUBSCRIBE:
    case UNSUBSCRIBE:
        filters(p->payload, p->kind, &broken, &ok);
        broken |= p->id == 0;
        break;
    case SUBACK:
    case UNSUBACK:
        for (size_t i = 0; i < p->payload.len; i++)
            broken |= !is_code(p->kind, p->payload.at[i]);
        broken |= p->id == 0 || p->payload.len == 0;
        break;
    case DISCONNECT:
        broken |= !is_code(DISCONNECT, (unsigned)p->reason);
        break;
    case AUTH:
        broken |= !is_code(AUTH, (unsigned)p->reason) ||
                  ((p->reason || p->props.len) && !(seen >> 0x15 & 1));
        break;
    }
    return ok && !broken;
}

static size_t varint_len(size_t n) {
    return n < 128 ? 1 : n < 16384 ? 2 : n < 2097152 ? 3 : 4;
}

static uint8_t *put_varint(uint8_t *out, size_t n) {
    for (; n >= 128; n >>= 7)
        *out++ = (uint8_t)(n | 128);
    *out++ = (uint8_t)n;
    return out;
}

static uint8_t *put(uint8_t *out, struct span span) {
    if (span.len)
        memcpy(out, span.at, span.len);
    return out + span.len;
}

static uint8_t *put_u16(uint8_t *out, unsigned n) {
    *out++ = (uint8_t)(n >> 8);
    *out++ = (uint8_t)n;
    return out;
}

static uint8_t *put_blob(uint8_t *out, struct span span) {
    return put(put_u16(out, (unsigned)span.len), span);
}

static uint8_t *put_block(uint8_t *out, struct span props) {
    return put(put_varint(out, props.len), props);
}

static size_t block_len(struct span props) {
    return varint_len(props.len) + props.len;
}

static size_t tail_len(const struct packet *p) {
    return p->props.len ? 1 + block_len(p->props) : p->reason ? 1 : 0;
}

static size_t body_len(const struct packet *p) {
    switch (p->kind) {
    case CONNECT:
        return 10 + block_len(p->props) + 2 + p->topic.len +
               (p->connect_flags & 4
                    ? block_len(p->will_props) + 4 + p->will_topic.len + p->will_payload.len
                    : 0) +
               (p->connect_flags & 0x80 ? 2 + p->user.len : 0) +
               (p->connect_flags & 0x40 ? 2 + p->password.len : 0);
    case CONNACK:
        return 2 + block_len(p->props);
    case PUBLISH:
        return 2 + p->topic.len + (p->flags & 6 ? 2 : 0) + block_len(p->props) + p->payload.len;
    case PUBACK:
    case PUBREC:
    case PUBREL:
    case PUBCOMP:
        return 2 + tail_len(p);
    case SUBSCRIBE:
    case UNSUBSCRIBE:
    case SUBACK:
    case UNSUBACK:
        return 2 + block_len(p->props) + p->payload.len;
    case DISCONNECT:
        return tail_len(p);
    case AUTH:
        return p->reason || p->props.len ? 1 + block_len(p->props) : 0;
    default:
        return 0;
    }
}

/* The shortest frame in memory of its own; NULL where memory is wanting. */
__attribute__((noinline)) static uint8_t *encode(const struct packet *p, size_t *len) {
    size_t body = body_len(p);
    uint8_t *frame = malloc(5 + body), *out = frame;
    if (!frame)
        return NULL;
    *out++ = (uint8_t)(p->kind << 4 | p->flags);
    out = put_varint(out, body);
    switch (p->kind) {
    case CONNECT:
        memcpy(out, "\x00\x04MQTT\x05", 7);
        out += 7;
        *out++ = (uint8_t)p->connect_flags;
        out = put_blob(put_block(put_u16(out, p->keep_alive), p->props), p->topic);
        if (p->connect_flags & 4)
            out = put_blob(put_blob(put_block(out, p->will_props), p->will_topic), p->will_payload);
        if (p->connect_flags & 0x80)
            out = put_blob(out, p->user);
        if (p->connect_flags & 0x40)
            out = put_blob(out, p->password);
        break;
    case CONNACK:
        *out++ = (uint8_t)p->connect_flags;
        *out++ = (uint8_t)p->reason;
        out = put_block(out, p->props);
        break;
    case PUBLISH:
        out = put_blob(out, p->topic);
        if (p->flags & 6)
            out = put_u16(out, p->id);
        out = put(put_block(out, p->props), p->payload);
        break;
    case PUBACK:
    case PUBREC:
    case PUBREL:
    case PUBCOMP:
        out = put_u16(out, p->id);
        /* fall through */
    case DISCONNECT:
        if (p->reason || p->props.len)
            *out++ = (uint8_t)p->reason;
        if (p->props.len)
            out = put_block(out, p->props);
        break;
    case SUBSCRIBE:
    case UNSUBSCRIBE:
    case SUBACK:
    case UNSUBACK:
        out = put(put_block(put_u16(out, p->id), p->props), p->payload);
        break;
    case AUTH:
        if (p->reason || p->props.len) {
            *out++ = (uint8_t)p->reason;
            out = put_block(out, p->props);
        }
        break;
    }
    *len = (size_t)(out - frame);
    return frame;
}

enum { GREATEST = 65536 };

/* The size of the packet that the bytes begin with; 0: not known yet; -1: there is none; -3: it is too
   large. Of use where frames come one behind the other, as in bench/framing and bench/view. */
static long size_of(const uint8_t *s, size_t len) {
    size_t left = 0;
    for (size_t i = 1; i < len && i < 5; i++) {
        left |= (size_t)(s[i] & 0x7f) << 7 * (i - 1);
        if (s[i] < 0x80)
            return 1 + i + left <= GREATEST ? (long)(1 + i + left) : -3;
    }
    return len < 5 ? 0 : -1;
}

#define FRAME(s) {(bytes_t)(s), sizeof(s) - 1}
static const struct span FRAMES[10] = {
    FRAME("\xc0\x00"),
    FRAME("\x30\x07\x00\x03" "a/b" "\x00!"),
    FRAME("\x40\x03\x00\x0a\x00"),
    FRAME("\x10\x0d\x00\x04MQTT\x05\x02\x00\x3c\x00\x00\x00"),
    FRAME("\x20\x17\x00\x00\x14\x12\x00\x06" "auto-1" "\x21\x00\x14\x22\x00\x0a\x27\x00\x01\x00\x00"),
    FRAME("\x82\x09\x00\x01\x00\x00\x03" "a/b" "\x02"),
    FRAME("\x90\x04\x00\x01\x00\x02"),
    FRAME("\xe0\x01\x93"),
    FRAME("\x50\x03\x00\x0a\x10"),
    FRAME("\x34\x0e\x00\x03" "a/b" "\x00\x01\x04\x0b\x01\x0b\x02hi"),
};

static void add(struct tally *t, uint64_t n) {
    t->packets++;
    t->sum += n;
}

static struct tally looked(uint64_t rounds) {
    struct tally t = {0, 0};
    struct packet p;
    for (uint64_t round = 0; round < rounds; round++)
        for (int i = 0; i < 10; i++) {
            if (look(FRAMES[i].at, FRAMES[i].len, &p))
                exit(1);
            add(&t, (uint64_t)p.kind);
        }
    return t;
}

static struct tally decoded(uint64_t rounds) {
    struct tally t = {0, 0};
    struct packet p;
    for (uint64_t round = 0; round < rounds; round++)
        for (int i = 0; i < 10; i++) {
            if (decode(FRAMES[i].at, FRAMES[i].len, &p))
                exit(1);
            add(&t, (uint64_t)p.kind);
            drop(&p);
        }
    return t;
}

static struct tally encoded(const struct packet *packets, uint64_t rounds) {
    struct tally t = {0, 0};
    for (uint64_t round = 0; round < rounds; round++)
        for (int i = 0; i < 10; i++) {
            size_t len;
            uint8_t *frame;
            if (!lawful(&packets[i]))
                exit(1);
            frame = encode(&packets[i], &len);
            if (!frame)
                exit(1);
            add(&t, len);
            free(frame);
        }
    return t;
}

static double seconds(void) {
    struct timespec t;
    clock_gettime(CLOCK_PROCESS_CPUTIME_ID, &t);
    return (double)t.tv_sec + (double)t.tv_nsec * 1e-9;
}

static void report(const char *name, struct tally t, double time) {
    printf("%s packets=%llu sum=%llu\n", name, (unsigned long long)t.packets, (unsigned long long)t.sum);
    fprintf(stderr, "%s %.9f\n", name, time);
}

int main(int argc, char **argv) {
    uint64_t rounds = argc > 1 ? strtoull(argv[1], NULL, 10) : 100;
    struct packet packets[10];
    struct tally t;
    double start;
    for (int i = 0; i < 10; i++)
        if (decode(FRAMES[i].at, FRAMES[i].len, &packets[i]))
            return 1;
    start = seconds();
    t = looked(rounds);
    report("looked", t, seconds() - start);
    start = seconds();
    t = decoded(rounds);
    report("decoded", t, seconds() - start);
    start = seconds();
    t = encoded(packets, rounds);
    report("encoded", t, seconds() - start);
    for (int i = 0; i < 10; i++)
        drop(&packets[i]);
    return 0;
}

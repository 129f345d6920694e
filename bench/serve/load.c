/* Publishers and subscribers over one broker: how many messages a second come through, and how long one is under way.
 *
 * usage: load PORT QOS PAIRS WINDOW SECONDS [BYTES [READERS [away]]]
 *
 * Each pair is a publisher and READERS subscribers (1) of a topic of its own, with sessions that outlive their connections.
 * A message has BYTES of payload (16). A publisher sends its next one while fewer than WINDOW are under way: not yet come to
 * each subscriber, or, at QoS 1 and 2, not yet answered to the end. Each message has to come once and in order. After SECONDS
 * no more are sent, and all that is under way is waited for. With `away` the subscribers go before the first message, so
 * that it is under way until it is answered; a publisher sends 900 at the most then, since a queue holds 1,000. Prints one
 * line: messages, messages a second, and the median and the 99th of a hundred of their times under way, in microseconds. */
#include <arpa/inet.h>
#include <errno.h>
#include <netinet/in.h>
#include <netinet/tcp.h>
#include <poll.h>
#include <stdint.h>
#include <stdio.h>
#include <stdlib.h>
#include <string.h>
#include <sys/socket.h>
#include <time.h>
#include <unistd.h>

enum { HELD = 1 << 21, STAMP = 16, PATIENCE = 60, AWAY_MOST = 900, UNDER_WAY_MOST = 1000 };

typedef struct {
    int fd, pair, publishes;
    uint8_t in[HELD], out[HELD];
    size_t in_len, out_len;
    uint64_t sent, answered, sent_at[UNDER_WAY_MOST]; /* of a publisher */
    uint64_t came;                                    /* of a subscriber */
} end_t;

static int qos, pairs, readers = 1, are_away;
static size_t payload = STAMP;
static uint64_t *times, times_len, times_room;

static void fail(const char *why, int pair) {
    fprintf(stderr, "load: pair %d: %s\n", pair, why);
    exit(1);
}

static uint64_t now(void) {
    struct timespec t;
    clock_gettime(CLOCK_MONOTONIC, &t);
    return (uint64_t)t.tv_sec * 1000000000u + (uint64_t)t.tv_nsec;
}

static void put(end_t *e, const void *bytes, size_t len) {
    if (e->out_len + len > HELD) fail("too much waits to go out", e->pair);
    memcpy(e->out + e->out_len, bytes, len);
    e->out_len += len;
}

static void put_u64(uint8_t *at, uint64_t n) {
    for (int i = 7; i >= 0; i--, n >>= 8) at[i] = (uint8_t)n;
}

static uint64_t u64_at(const uint8_t *at) {
    uint64_t n = 0;
    for (int i = 0; i < 8; i++) n = n << 8 | at[i];
    return n;
}

static void flush(end_t *e) {
    while (e->out_len) {
        ssize_t n = send(e->fd, e->out, e->out_len, MSG_DONTWAIT | MSG_NOSIGNAL);
        if (n < 0 && (errno == EAGAIN || errno == EINTR)) return;
        if (n <= 0) fail("the broker closed while we wrote", e->pair);
        memmove(e->out, e->out + n, e->out_len - (size_t)n);
        e->out_len -= (size_t)n;
    }
}

/* A packet's size, or 0 while it isn't whole; its body begins at *body. */
static size_t whole(const uint8_t *in, size_t len, size_t *body) {
    size_t size = 0;
    for (size_t i = 1, shift = 0; i < len && i < 5; i++, shift += 7) {
        size |= (size_t)(in[i] & 127) << shift;
        if (in[i] < 128) {
            *body = i + 1;
            return i + 1 + size <= len ? i + 1 + size : 0;
        }
    }
    return 0;
}

static void note(end_t *e, uint64_t took) {
    if (times_len == times_room) {
        times_room = times_room ? 2 * times_room : 1 << 16;
        times = realloc(times, times_room * sizeof *times);
        if (!times) fail("want of memory", e->pair);
    }
    times[times_len++] = took;
}

static void publish(end_t *e) {
    static const uint8_t rest[1 << 16];
    uint8_t front[5], p[64];
    size_t at = 0, topic = (size_t)snprintf((char *)p + 2, 20, "load/%d", e->pair);
    p[0] = 0, p[1] = (uint8_t)topic, at += 2 + topic;
    if (qos) {
        uint16_t id = (uint16_t)(e->sent % UNDER_WAY_MOST + 1);
        p[at++] = (uint8_t)(id >> 8), p[at++] = (uint8_t)id;
    }
    p[at++] = 0;
    put_u64(p + at, now()), put_u64(p + at + 8, e->sent);
    at += STAMP;
    size_t front_len = 0, size = at + payload - STAMP;
    front[front_len++] = (uint8_t)(0x30 | qos << 1);
    for (; size > 127; size >>= 7) front[front_len++] = (uint8_t)(size | 128);
    front[front_len++] = (uint8_t)size;
    put(e, front, front_len), put(e, p, at), put(e, rest, payload - STAMP);
    e->sent_at[e->sent++ % UNDER_WAY_MOST] = now();
    if (!qos) e->answered++;
}

/* A message of the publisher is answered to its end. */
static void answered(end_t *e) {
    if (are_away) note(e, now() - e->sent_at[e->answered % UNDER_WAY_MOST]);
    e->answered++;
}

static void answer(end_t *e, uint8_t first, const uint8_t *id) {
    uint8_t p[4] = {first, 2, id[0], id[1]};
    put(e, p, 4);
}

static void came(end_t *e, const uint8_t *body, size_t len) {
    size_t at = 2 + ((size_t)body[0] << 8 | body[1]);
    const uint8_t *id = body + at;
    if (qos) at += 2;
    at += 1 + (size_t)body[at]; /* properties, fewer than 128 bytes */
    if (at + payload != len) fail("a payload of another size", e->pair);
    if (u64_at(body + at + 8) != e->came) fail("a message is missing, comes twice or out of order", e->pair);
    e->came++;
    note(e, now() - u64_at(body + at));
    if (qos) answer(e, qos == 1 ? 0x40 : 0x50, id);
}

static void take(end_t *e, const uint8_t *packet, const uint8_t *body, size_t len) {
    int type = packet[0] >> 4;
    if (type >= 4 && type <= 7 && len > 2 && body[2] >= 0x80) fail("an answer that refuses", e->pair);
    if (type == 3) came(e, body, len);
    else if (type == 4 || type == 7) answered(e);
    else if (type == 5) answer(e, 0x62, body);
    else if (type == 6) answer(e, 0x70, body);
    else fail("a packet that nobody asked for", e->pair);
}

static void hear(end_t *e) {
    ssize_t n = recv(e->fd, e->in + e->in_len, HELD - e->in_len, MSG_DONTWAIT);
    if (n < 0 && (errno == EAGAIN || errno == EINTR)) return;
    if (n <= 0) fail("the broker closed", e->pair);
    e->in_len += (size_t)n;
    size_t at = 0, size, body;
    while ((size = whole(e->in + at, e->in_len - at, &body))) {
        take(e, e->in + at, e->in + at + body, size - body);
        at += size;
    }
    memmove(e->in, e->in + at, e->in_len - at);
    e->in_len -= at;
}

/* Sends a packet and waits for its answer, whose type it is and whose reason code is a success. */
static void ask(end_t *e, const uint8_t *packet, size_t len, int type) {
    size_t size, body;
    if (send(e->fd, packet, len, MSG_NOSIGNAL) != (ssize_t)len) fail("no packet went out", e->pair);
    while (!(size = whole(e->in, e->in_len, &body))) {
        ssize_t n = recv(e->fd, e->in + e->in_len, HELD - e->in_len, 0);
        if (n <= 0) fail("no answer", e->pair);
        e->in_len += (size_t)n;
    }
    int code = type == 2 ? e->in[body + 1] : e->in[size - 1];
    if (e->in[0] >> 4 != type || code >= 0x80 || size != e->in_len) fail("another answer", e->pair);
    e->in_len = 0;
}

static void open_end(end_t *e, int port, int pair, int reader) {
    int publishes = reader < 0;
    struct sockaddr_in to = {.sin_family = AF_INET, .sin_port = htons((uint16_t)port), .sin_addr.s_addr = htonl(INADDR_LOOPBACK)};
    int one = 1;
    e->pair = pair, e->publishes = publishes;
    e->fd = socket(AF_INET, SOCK_STREAM, 0);
    if (e->fd < 0 || connect(e->fd, (struct sockaddr *)&to, sizeof to)) fail("no connection", pair);
    setsockopt(e->fd, IPPROTO_TCP, TCP_NODELAY, &one, sizeof one);
    uint8_t p[64] = {0x10, 0, 0, 4, 'M', 'Q', 'T', 'T', 5, 2, 0, 60, 5, 0x11, 255, 255, 255, 255, 0};
    size_t name = (size_t)snprintf((char *)p + 20, 20, publishes ? "p%d" : "s%d-%d", pair, reader);
    p[19] = (uint8_t)name, p[1] = (uint8_t)(18 + name);
    ask(e, p, 20 + name, 2);
    if (publishes) return;
    uint8_t s[64] = {0x82, 0, 0, 1, 0, 0};
    size_t filter = (size_t)snprintf((char *)s + 7, 20, "load/%d", pair);
    s[6] = (uint8_t)filter, s[7 + filter] = (uint8_t)qos, s[1] = (uint8_t)(6 + filter);
    ask(e, s, 8 + filter, 9);
}

/* Goes, with a session that stays. */
static void leave(end_t *e) {
    const uint8_t p[2] = {0xe0, 0};
    if (send(e->fd, p, sizeof p, MSG_NOSIGNAL) != sizeof p) fail("no packet went out", e->pair);
    shutdown(e->fd, SHUT_WR);
    uint8_t last;
    while (recv(e->fd, &last, 1, 0) > 0) continue;
    close(e->fd);
}

/* Ends the session with the connection. */
static void close_end(end_t *e) {
    const uint8_t p[9] = {0xe0, 7, 0, 5, 0x11, 0, 0, 0, 0};
    if (send(e->fd, p, sizeof p, MSG_NOSIGNAL) != sizeof p) fail("no packet went out", e->pair);
    shutdown(e->fd, SHUT_WR);
    uint8_t last;
    while (recv(e->fd, &last, 1, 0) > 0) continue;
    close(e->fd);
}

static int by_size(const void *a, const void *b) {
    uint64_t x = *(const uint64_t *)a, y = *(const uint64_t *)b;
    return (x > y) - (x < y);
}

/* How many of a publisher's messages have come to each of its subscribers, or, if these are away, are answered. */
static uint64_t arrived(const end_t *from) {
    uint64_t least = from->answered;
    for (int i = 1; i <= readers && !are_away; i++)
        if (from[i].came < least) least = from[i].came;
    return least;
}

/* Sends what may be sent; returns whether messages are to be sent or are under way. */
static int go_on(end_t *from, uint64_t window, int has_time) {
    int more = has_time && !(are_away && from->sent >= AWAY_MOST);
    while (more && from->sent - arrived(from) < window) {
        publish(from);
        more = !(are_away && from->sent >= AWAY_MOST);
    }
    return more || from->sent != arrived(from);
}

/* Each publisher with its subscribers behind it, all connected but for subscribers that are away. */
static end_t *open_all(int port) {
    end_t *ends = calloc((size_t)(pairs * (readers + 1)), sizeof *ends);
    if (!ends) fail("want of memory", 0);
    for (int i = 0; i < pairs; i++)
        for (int k = readers - 1; k >= -1; k--) {
            end_t *e = &ends[i * (readers + 1) + k + 1];
            open_end(e, port, i, k);
            if (are_away && k >= 0) leave(e);
        }
    return ends;
}

int main(int argc, char **argv) {
    if (argc < 6 || argc > 9) return fprintf(stderr, "usage: load PORT QOS PAIRS WINDOW SECONDS [BYTES [READERS [away]]]\n"), 2;
    int port = atoi(argv[1]), count;
    uint64_t window = (uint64_t)atoi(argv[4]), length = (uint64_t)(atof(argv[5]) * 1e9), last = 0;
    qos = atoi(argv[2]), pairs = atoi(argv[3]), are_away = argc > 8;
    if (argc > 6) payload = (size_t)atoi(argv[6]);
    if (argc > 7) readers = atoi(argv[7]);
    if (payload < STAMP || payload > 60000 || window > UNDER_WAY_MOST || readers < 1 || (are_away && !qos)) fail("a number that can't be", 0);
    end_t *ends = open_all(port), **open;
    struct pollfd *polls = calloc((size_t)(count = pairs * (are_away ? 1 : readers + 1)), sizeof *polls);
    if (!(open = calloc((size_t)count, sizeof *open)) || !polls) fail("want of memory", 0);
    for (int i = 0; i < count; i++) open[i] = &ends[are_away ? i * (readers + 1) : i];
    uint64_t begun = now();
    for (int waits = 1; waits;) {
        uint64_t at = now();
        waits = 0;
        for (int i = 0; i < pairs; i++) waits |= go_on(&ends[i * (readers + 1)], window, at - begun < length);
        if (at - begun > length + (uint64_t)PATIENCE * 1000000000u) fail("what was sent doesn't come", 0);
        for (int i = 0; i < count; i++) {
            flush(open[i]);
            polls[i] = (struct pollfd){.fd = open[i]->fd, .events = (short)(POLLIN | (open[i]->out_len ? POLLOUT : 0))};
        }
        if (waits && poll(polls, (nfds_t)count, 100) > 0)
            for (int i = 0; i < count; i++)
                if (polls[i].revents & ~POLLOUT) hear(open[i]);
    }
    for (int i = 0; i < count; i++) flush(open[i]);
    last = now() - begun;
    uint64_t messages = times_len / (uint64_t)(are_away ? 1 : readers);
    for (int i = 0; i < count; i++) close_end(open[i]);
    if (!times_len) fail("nothing came", 0);
    qsort(times, times_len, sizeof *times, by_size);
    printf("%llu %.0f %.0f %.0f\n", (unsigned long long)messages, (double)messages / ((double)last / 1e9),
        (double)times[times_len / 2] / 1e3, (double)times[times_len - 1 - times_len / 100] / 1e3);
    return 0;
}

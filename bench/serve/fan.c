/* Publishers and readers over one broker that send as fast as the broker answers: what is refused, lost or out of order.
 *
 * usage: fan PORT QOS BYTES SECONDS|COUNTm SHAPE
 *
 * SHAPE is N-M (N publishers and M readers of one topic), pairs-N (N publishers, each with a reader of its own), idle-N (a pair with one
 * message under way, beside N clients that do nothing), other (two clients that publish to each other), self (one that publishes to itself),
 * or stops-N and away-N: N pairs, and one pair more whose reader reads no more, or goes with a session that stays, after 2 seconds. Nothing limits a publisher but the Receive Maximum of the broker's CONNACK. With
 * COUNTm each publisher sends so many messages. All that was accepted is waited for, until nothing comes for 10 seconds. Prints one line:
 * messages that were accepted, refused, lost (accepted, but not come to each reader that reads), out of order; messages a second; the median
 * and the 99th of a hundred of their times under way in microseconds; and, of the pairs, messages a second in the second second and from the
 * fourth to the sixth. */
#include <arpa/inet.h>
#include <errno.h>
#include <netinet/in.h>
#include <netinet/tcp.h>
#include <poll.h>
#include <stdint.h>
#include <stdio.h>
#include <stdlib.h>
#include <string.h>
#include <sys/socket.h>
#include <time.h>
#include <unistd.h>

enum { HELD = 1 << 21, STAMP = 24, PATIENCE = 10, ENDS = 1024, WINDOW = 20, IDS = 60000 };

typedef struct {
    int fd, number, to, from, stops, is_gone; /* topics that it publishes to and reads, or -1 */
    uint8_t in[HELD], out[HELD];
    size_t in_len, out_len;
    uint64_t window, under_way, sent, accepted, refused; /* of a publisher */
    uint64_t came, late, next[ENDS];                     /* of a reader; next by publisher */
} end_t;

static end_t *ends;
static int qos, count, quiet, away; /* the first `quiet` clients do nothing, so that this program doesn't grow slow by their number */
static size_t payload;
static uint64_t begun, last_came, *times, times_len, times_room, early, later;

static void fail(const char *why, int end) {
    fprintf(stderr, "fan: client %d: %s\n", end, why);
    exit(1);
}

static uint64_t now(void) {
    struct timespec t;
    clock_gettime(CLOCK_MONOTONIC, &t);
    return (uint64_t)t.tv_sec * 1000000000u + (uint64_t)t.tv_nsec;
}

static void put(end_t *e, const void *bytes, size_t len) {
    if (e->out_len + len > HELD) fail("too much waits to go out", e->number);
    memcpy(e->out + e->out_len, bytes, len);
    e->out_len += len;
}

static void put_u64(uint8_t *at, uint64_t n) {
    for (int i = 7; i >= 0; i--, n >>= 8) at[i] = (uint8_t)n;
}

static uint64_t u64_at(const uint8_t *at) {
    uint64_t n = 0;
    for (int i = 0; i < 8; i++) n = n << 8 | at[i];
    return n;
}

static void flush(end_t *e) {
    while (e->out_len) {
        ssize_t n = send(e->fd, e->out, e->out_len, MSG_DONTWAIT | MSG_NOSIGNAL);
        if (n < 0 && (errno == EAGAIN || errno == EINTR)) return;
        if (n <= 0) fail("the broker closed while we wrote", e->number);
        memmove(e->out, e->out + n, e->out_len - (size_t)n);
        e->out_len -= (size_t)n;
    }
}

/* A packet's size, or 0 while it isn't whole; its body begins at *body. */
static size_t whole(const uint8_t *in, size_t len, size_t *body) {
    size_t size = 0;
    for (size_t i = 1, shift = 0; i < len && i < 5; i++, shift += 7) {
        size |= (size_t)(in[i] & 127) << shift;
        if (in[i] < 128) {
            *body = i + 1;
            return i + 1 + size <= len ? i + 1 + size : 0;
        }
    }
    return 0;
}

static void note(uint64_t took) {
    if (times_len == times_room) {
        times_room = times_room ? 2 * times_room : 1 << 16;
        times = realloc(times, times_room * sizeof *times);
        if (!times) fail("want of memory", 0);
    }
    times[times_len++] = took;
}

static void publish(end_t *e) {
    static const uint8_t rest[1 << 16];
    uint8_t front[5], p[64];
    size_t at = 0, topic = (size_t)snprintf((char *)p + 2, 20, "fan/%d", e->to);
    uint16_t id = (uint16_t)(e->sent % IDS + 1);
    p[0] = 0, p[1] = (uint8_t)topic, at += 2 + topic;
    p[at++] = (uint8_t)(id >> 8), p[at++] = (uint8_t)id, p[at++] = 0;
    put_u64(p + at, now()), put_u64(p + at + 8, e->sent), put_u64(p + at + 16, (uint64_t)e->number);
    at += STAMP;
    size_t front_len = 0, size = at + payload - STAMP;
    front[front_len++] = (uint8_t)(0x30 | qos << 1);
    for (; size > 127; size >>= 7) front[front_len++] = (uint8_t)(size | 128);
    front[front_len++] = (uint8_t)size;
    put(e, front, front_len), put(e, p, at), put(e, rest, payload - STAMP);
    e->sent++, e->under_way++;
}

static void answer(end_t *e, uint8_t first, const uint8_t *id) {
    uint8_t p[4] = {first, 2, id[0], id[1]};
    put(e, p, 4);
}

/* A message came. The last pair of stops and away isn't counted in the rates. */
static void came(end_t *e, const uint8_t *body, size_t len) {
    size_t at = 2 + ((size_t)body[0] << 8 | body[1]);
    const uint8_t *id = body + at;
    at += 2;
    at += 1 + (size_t)body[at]; /* properties, fewer than 128 bytes */
    if (at + payload != len) fail("a payload of another size", e->number);
    uint64_t sent = u64_at(body + at), number = u64_at(body + at + 8), from = u64_at(body + at + 16), it = now();
    if (number < e->next[from]) e->late++;
    e->next[from] = number + 1, e->came++, last_came = it;
    if (!e->stops) {
        note(it - sent);
        uint64_t since = it - begun;
        early += since >= 1000000000u && since < 2000000000u;
        later += since >= 4000000000u && since < 6000000000u;
    }
    answer(e, qos == 1 ? 0x40 : 0x50, id);
}

static void answered(end_t *e, int is_refused) {
    e->under_way--;
    if (is_refused) e->refused++;
    else e->accepted++;
}

static void take(end_t *e, const uint8_t *packet, const uint8_t *body, size_t len) {
    int type = packet[0] >> 4, is_refused = len > 2 && body[2] >= 0x80;
    if (type == 3) came(e, body, len);
    else if (type == 4 || type == 7) answered(e, is_refused);
    else if (type == 5 && is_refused) answered(e, 1);
    else if (type == 5) answer(e, 0x62, body);
    else if (type == 6) answer(e, 0x70, body);
    else fail("a packet that nobody asked for", e->number);
}

static void hear(end_t *e) {
    ssize_t n = recv(e->fd, e->in + e->in_len, HELD - e->in_len, MSG_DONTWAIT);
    if (n < 0 && (errno == EAGAIN || errno == EINTR)) return;
    if (n <= 0) fail("the broker closed", e->number);
    e->in_len += (size_t)n;
    size_t at = 0, size, body;
    while ((size = whole(e->in + at, e->in_len - at, &body))) {
        take(e, e->in + at, e->in + at + body, size - body);
        at += size;
    }
    memmove(e->in, e->in + at, e->in_len - at);
    e->in_len -= at;
}

/* Sends a packet and waits for its answer, whose type it is and whose reason code is a success; its body begins at the result. */
static size_t ask(end_t *e, const uint8_t *packet, size_t len, int type) {
    size_t size, body;
    if (send(e->fd, packet, len, MSG_NOSIGNAL) != (ssize_t)len) fail("no packet went out", e->number);
    while (!(size = whole(e->in, e->in_len, &body))) {
        ssize_t n = recv(e->fd, e->in + e->in_len, HELD - e->in_len, 0);
        if (n <= 0) fail("no answer", e->number);
        e->in_len += (size_t)n;
    }
    int code = type == 2 ? e->in[body + 1] : e->in[size - 1];
    if (e->in[0] >> 4 != type || code >= 0x80 || size != e->in_len) fail("another answer", e->number);
    e->in_len = 0;
    return body;
}

/* The Receive Maximum that a CONNACK tells, or WINDOW. */
static uint64_t window_of(const uint8_t *connack) {
    size_t len = connack[2];
    for (size_t at = 3; at < 3 + len;) {
        int property = connack[at++];
        if (property == 0x21) return (uint64_t)connack[at] << 8 | connack[at + 1];
        if (property == 0x24 || property == 0x25 || property == 0x28 || property == 0x29 || property == 0x2a) at += 1;
        else if (property == 0x13 || property == 0x22) at += 2;
        else if (property == 0x11 || property == 0x27) at += 4;
        else at += 2 + ((size_t)connack[at] << 8 | connack[at + 1]);
    }
    return WINDOW;
}

/* A client that publishes to a topic and reads one, or does one of these. */
static end_t *open_end(int port, int to, int from) {
    struct sockaddr_in it = {.sin_family = AF_INET, .sin_port = htons((uint16_t)port), .sin_addr.s_addr = htonl(INADDR_LOOPBACK)};
    end_t *e = &ends[count];
    int one = 1;
    if (count == ENDS) fail("too many", count);
    e->number = count++, e->to = to, e->from = from;
    e->fd = socket(AF_INET, SOCK_STREAM, 0);
    if (e->fd < 0 || connect(e->fd, (struct sockaddr *)&it, sizeof it)) fail("no connection", e->number);
    setsockopt(e->fd, IPPROTO_TCP, TCP_NODELAY, &one, sizeof one);
    uint8_t p[64] = {0x10, 0, 0, 4, 'M', 'Q', 'T', 'T', 5, 2, 0, 60, 5, 0x11, 255, 255, 255, 255, 0};
    size_t name = (size_t)snprintf((char *)p + 20, 20, "fan%d", e->number);
    p[19] = (uint8_t)name, p[1] = (uint8_t)(18 + name);
    e->window = window_of(e->in + ask(e, p, 20 + name, 2));
    if (from < 0) return e;
    uint8_t s[64] = {0x82, 0, 0, 1, 0, 0};
    size_t filter = (size_t)snprintf((char *)s + 7, 20, "fan/%d", from);
    s[6] = (uint8_t)filter, s[7 + filter] = (uint8_t)qos, s[1] = (uint8_t)(6 + filter);
    ask(e, s, 8 + filter, 9);
    return e;
}

static void open_all(int port, const char *shape) {
    int n = 0, m = 0;
    if (!strcmp(shape, "self")) open_end(port, 0, 0);
    else if (!strcmp(shape, "other")) open_end(port, 0, 1), open_end(port, 1, 0);
    else if (sscanf(shape, "pairs-%d", &n) == 1 || sscanf(shape, "stops-%d", &n) == 1 || sscanf(shape, "away-%d", &n) == 1) {
        for (int i = 0; i < n; i++) open_end(port, -1, i), open_end(port, i, -1);
        if (shape[0] == 'p') return;
        end_t *reader = open_end(port, -1, n), *publisher = open_end(port, n, -1);
        reader->stops = publisher->stops = 1, away = shape[0] == 'a';
    } else if (sscanf(shape, "idle-%d", &n) == 1) {
        for (; quiet < n; quiet++) open_end(port, -1, -1);
        open_end(port, -1, 0), open_end(port, 0, -1)->window = 1;
    } else if (sscanf(shape, "%d-%d", &n, &m) == 2) {
        for (int i = 0; i < m; i++) open_end(port, -1, 0);
        for (int i = 0; i < n; i++) open_end(port, 0, -1);
    } else fail("no shape", 0);
}

/* Goes, with a session that stays, or ends it too. */
static void leave(end_t *e, int ends_it) {
    const uint8_t p[9] = {0xe0, 7, 0, 5, 0x11, 0, 0, 0, 0}, stays[2] = {0xe0, 0};
    ssize_t gone = ends_it ? send(e->fd, p, sizeof p, MSG_NOSIGNAL) : send(e->fd, stays, sizeof stays, MSG_NOSIGNAL);
    (void)gone;
    close(e->fd);
    e->is_gone = 1;
}

static int by_size(const void *a, const void *b) {
    uint64_t x = *(const uint64_t *)a, y = *(const uint64_t *)b;
    return (x > y) - (x < y);
}

/* How many messages of the topic that a reader reads were accepted. */
static uint64_t accepted_to(const end_t *reader) {
    uint64_t sum = 0;
    for (int i = quiet; i < count; i++)
        if (ends[i].to == reader->from) sum += ends[i].accepted;
    return sum;
}

/* How many messages that were accepted have not come to readers that read. */
static uint64_t missing(void) {
    uint64_t sum = 0;
    for (int i = quiet; i < count; i++)
        if (ends[i].from >= 0 && !ends[i].stops && accepted_to(&ends[i]) > ends[i].came) sum += accepted_to(&ends[i]) - ends[i].came;
    return sum;
}

/* Each publisher sends what it may, and all are heard but readers that stop. Whether more is to be done. */
static int turn(uint64_t length, uint64_t most, struct pollfd *polls) {
    uint64_t since = now() - begun;
    int waits = 0;
    for (int i = quiet; i < count; i++) {
        end_t *e = &ends[i];
        int more = e->to >= 0 && (most ? e->sent < most : since < length);
        while (more && e->under_way < e->window && e->out_len < HELD / 2) publish(e), more = !most || e->sent < most;
        waits |= more || e->under_way > 0;
        int is_stopped = e->stops && e->from >= 0 && since >= 2000000000u;
        if (is_stopped && away && !e->is_gone) leave(e, 0);
        if (!e->is_gone) flush(e);
        polls[i] = (struct pollfd){.fd = is_stopped ? -1 : e->fd, .events = (short)(POLLIN | (e->out_len ? POLLOUT : 0))};
    }
    if (!waits && !missing()) return 0;
    if (poll(polls + quiet, (nfds_t)(count - quiet), 100) > 0)
        for (int i = quiet; i < count; i++)
            if (polls[i].revents & ~POLLOUT) hear(&ends[i]);
    return now() - (last_came > begun ? last_came : begun) < (uint64_t)PATIENCE * 1000000000u;
}

int main(int argc, char **argv) {
    if (argc != 6) return fprintf(stderr, "usage: fan PORT QOS BYTES SECONDS|COUNTm SHAPE\n"), 2;
    size_t len = strlen(argv[4]);
    uint64_t most = len && argv[4][len - 1] == 'm' ? (uint64_t)atoll(argv[4]) : 0, length = most ? 0 : (uint64_t)(atof(argv[4]) * 1e9);
    qos = atoi(argv[2]), payload = (size_t)atoi(argv[3]);
    if (payload < STAMP || payload > 60000 || qos < 1 || qos > 2) fail("a number that can't be", 0);
    struct pollfd polls[ENDS];
    if (!(ends = calloc(ENDS, sizeof *ends))) fail("want of memory", 0);
    open_all(atoi(argv[1]), argv[5]);
    begun = last_came = now();
    while (turn(length, most, polls)) continue;
    double took = (double)(last_came - begun) / 1e9;
    uint64_t accepted = 0, refused = 0, late = 0, lost = missing(), readers = 0, all = 0;
    for (int i = 0; i < count; i++) {
        end_t *e = &ends[i];
        all += e->accepted, late += e->late;
        if (!e->stops) accepted += e->accepted, refused += e->refused, readers += e->from >= 0 && !e->stops ? accepted_to(e) > 0 : 0;
        if (!e->is_gone) leave(e, 1);
    }
    if (!times_len || !all) fail("nothing came", 0);
    qsort(times, times_len, sizeof *times, by_size);
    double each = accepted ? (double)times_len / (double)accepted : 1;
    printf("%llu %llu %llu %llu %.0f %.0f %.0f %.0f %.0f\n", (unsigned long long)accepted, (unsigned long long)refused, (unsigned long long)lost,
        (unsigned long long)late, (double)times_len / (each > 1 ? each : 1) / took, (double)times[times_len / 2] / 1e3,
        (double)times[times_len - 1 - times_len / 100] / 1e3, (double)early, (double)later / 2);
    return lost || late ? 3 : 0;
}

/* Asks a server the same thing again and again, and tells how many answers came and how long they took.
 *
 *     load PORT KIND CONNECTIONS DEPTH SECONDS
 *
 * So many connections have so many requests under way each: 1 is one by one, more is pipelined, and an answer makes room for the next
 * request. Prints the answers a second, and of their times, in microseconds, that behind which half and that behind which a hundredth
 * of them lie. Ends with 1 at an answer that is an error.
 *
 * KIND is bossd-submit, bossd-renew, bossd-read, redis-set, redis-pexpire, redis-pttl, etcd-grant, etcd-keepalive or etcd-put. bossd and Redis
 * speak lines, and each of these requests has an answer of one line. etcd speaks gRPC, of which the little that is needed stands here. */
#include <arpa/inet.h>
#include <netinet/tcp.h>
#include <stdint.h>
#include <stdio.h>
#include <stdlib.h>
#include <string.h>
#include <sys/epoll.h>
#include <sys/socket.h>
#include <time.h>
#include <unistd.h>

enum { MOST_DEPTH = 256, MOST_CONNECTIONS = 1024, ROOM = 1 << 17 };

struct talk {
    int link, number;
    uint64_t sent[MOST_DEPTH]; /* when the requests under way were sent, in order */
    unsigned first, under_way;
    long txn;          /* bossd: the transaction to renew */
    uint32_t stream;   /* etcd: the next stream */
    size_t message;    /* etcd: how much of a message is still to come */
    long told, ended;  /* etcd: how many messages came, and how many streams ended */
    unsigned char heard[ROOM];
    size_t length;
};

struct kind {
    const char *name;
    size_t (*request)(struct talk *, unsigned char *); /* writes one request */
    void (*begin)(struct talk *);                      /* what is said before the time is taken */
    size_t (*hear)(struct talk *, unsigned *answers);  /* how many bytes were used, and how many answers they are */
};

static _Noreturn void fail(const char *what) {
    fprintf(stderr, "load: %s\n", what);
    exit(1);
}

static uint64_t now(void) {
    struct timespec time;
    clock_gettime(CLOCK_MONOTONIC, &time);
    return (uint64_t)time.tv_sec * 1000000000u + (uint64_t)time.tv_nsec;
}

static void say(struct talk *talk, const void *bytes, size_t length) {
    const char *from = bytes;
    while (length > 0) {
        ssize_t count = send(talk->link, from, length, MSG_NOSIGNAL);
        if (count <= 0) fail("a connection ended at a write");
        from += count;
        length -= (size_t)count;
    }
}

static void hear_more(struct talk *talk) {
    ssize_t count = recv(talk->link, talk->heard + talk->length, ROOM - talk->length, 0);
    if (count <= 0) fail("a connection ended at a read");
    talk->length += (size_t)count;
}

/* ---- lines */

static size_t hear_lines(struct talk *talk, unsigned *answers) {
    size_t used = 0;
    unsigned char *end;
    while ((end = memchr(talk->heard + used, '\n', talk->length - used))) {
        unsigned char *line = talk->heard + used;
        if (*line == '-' || !memcmp(line, "{\"error", 7)) {
            *end = 0;
            fail((char *)line);
        }
        used = (size_t)(end + 1 - talk->heard);
        ++*answers;
    }
    return used;
}

/* Says a line and waits for its answer, which stands at the beginning of what was heard. */
static void ask_line(struct talk *talk, const char *line) {
    unsigned answers = 0;
    say(talk, line, strlen(line));
    talk->length = 0;
    while (answers == 0) {
        hear_more(talk);
        hear_lines(talk, &answers);
    }
    talk->length = 0;
}

static size_t line(unsigned char *into, const char *form, long one, long other) {
    return (size_t)sprintf((char *)into, form, one, other);
}

static size_t bossd_submit(struct talk *talk, unsigned char *into) {
    return line(into, "{\"op\":\"submit\",\"writes\":[{\"point\":\"p%ld\",\"value\":45000,\"priority\":8,\"lease\":60000}]}\n", talk->number, 0);
}

static size_t bossd_renew(struct talk *talk, unsigned char *into) {
    return line(into, "{\"op\":\"renew\",\"txn\":%ld,\"length\":60000}\n", talk->txn, 0);
}

static size_t bossd_read(struct talk *talk, unsigned char *into) {
    return line(into, "{\"op\":\"read\",\"point\":\"p%ld\"}\n", talk->number, 0);
}

static void bossd_begin(struct talk *talk) {
    char text[256];
    line((unsigned char *)text, "{\"op\":\"attach\",\"process\":\"load-%ld\"}\n", talk->number, 0);
    ask_line(talk, text);
    bossd_submit(talk, (unsigned char *)text);
    ask_line(talk, text);
    const char *txn = strstr((char *)talk->heard, "\"txn\":");
    if (!txn) fail("a submit was not accepted");
    talk->txn = atol(txn + 6);
}

/* Whoever reads need not be known, so there may be more of these than control processes. */
static void read_begin(struct talk *talk) {
    char text[64];
    bossd_read(talk, (unsigned char *)text);
    ask_line(talk, text);
}

static size_t redis_set(struct talk *talk, unsigned char *into) {
    return line(into, "SET p%ld 45000 PX 60000\r\n", talk->number, 0);
}

static size_t redis_pexpire(struct talk *talk, unsigned char *into) {
    return line(into, "PEXPIRE p%ld %ld\r\n", talk->number, 60000);
}

static size_t redis_pttl(struct talk *talk, unsigned char *into) {
    return line(into, "PTTL p%ld\r\n", talk->number, 0);
}

static void redis_begin(struct talk *talk) {
    char text[64];
    redis_set(talk, (unsigned char *)text);
    ask_line(talk, text);
}

/* ---- gRPC */

enum { DATA = 0, HEADERS = 1, RESET = 3, SETTINGS = 4, PING = 6, GOAWAY = 7, WINDOW = 8, END_STREAM = 1, END_HEADERS = 4, ACK = 1 };

static size_t frame(unsigned char *into, size_t length, int type, int flags, uint32_t stream) {
    unsigned char head[9] = {length >> 16, length >> 8, length, type, flags, stream >> 24, stream >> 16, stream >> 8, stream};
    memcpy(into, head, 9);
    return 9 + length;
}

static size_t headers(unsigned char *into, const char *path, uint32_t stream) {
    unsigned char *to = into + 9;
    *to++ = 0x83; /* POST */
    *to++ = 0x86; /* http */
    to += sprintf((char *)to, "\x04%c%s", (char)strlen(path), path);
    to += sprintf((char *)to, "\x01\x09localhost\x0f\x10\x10" "application/grpc");
    memcpy(to, "\x00\x02te\x08trailers", 13);
    to += 13;
    return frame(into, (size_t)(to - into - 9), HEADERS, END_HEADERS, stream);
}

/* A message of up to two numbers, its fields 1 and 2. */
static size_t message(unsigned char *into, long one, long other, int flags, uint32_t stream) {
    long fields[2] = {one, other};
    unsigned char *to = into + 9 + 5;
    for (int place = 0; place < 2; ++place) {
        unsigned long value = (unsigned long)fields[place];
        if (value == 0) continue;
        *to++ = (unsigned char)((place + 1) << 3);
        for (; value > 127; value >>= 7) *to++ = (unsigned char)(value | 128);
        *to++ = (unsigned char)value;
    }
    size_t length = (size_t)(to - into - 14);
    unsigned char prefix[5] = {0, 0, 0, 0, (unsigned char)length};
    memcpy(into + 9, prefix, 5);
    return frame(into, length + 5, DATA, flags, stream);
}

static size_t etcd_grant(struct talk *talk, unsigned char *into) {
    size_t length = headers(into, "/etcdserverpb.Lease/LeaseGrant", talk->stream);
    length += message(into + length, 60, 0, END_STREAM, talk->stream);
    talk->stream += 2;
    return length;
}

/* A put of 36 bytes, as the record of a small submit, under a key of this connection. */
static size_t etcd_put(struct talk *talk, unsigned char *into) {
    unsigned char text[64];
    size_t size = (size_t)sprintf((char *)text + 7, "load/%04d", talk->number);
    memcpy(text, "\0\0\0\0\0\x0a", 6);
    text[6] = (unsigned char)size;
    size += 7;
    memcpy(text + size, "\x12\x24", 2);
    memset(text + size + 2, 'v', 36);
    size += 2 + 36;
    text[4] = (unsigned char)(size - 5);
    size_t length = headers(into, "/etcdserverpb.KV/Put", talk->stream);
    memcpy(into + length + 9, text, size);
    length += frame(into + length, size, DATA, END_STREAM, talk->stream);
    talk->stream += 2;
    return length;
}

/* A lease of this run. */
static long lease_of(struct talk *talk) { return (long)getpid() << 16 | (talk->number + 1); }

static size_t etcd_keepalive(struct talk *talk, unsigned char *into) { return message(into, lease_of(talk), 0, 0, talk->stream); }

/* The messages in a frame of data that are whole now. */
static unsigned messages(struct talk *talk, const unsigned char *from, size_t length) {
    unsigned whole = 0;
    while (length > 0) {
        if (talk->message == 0) {
            if (length < 5) fail("the prefix of a message is cut");
            talk->message = ((size_t)from[3] << 8 | from[4]) + 5;
        }
        size_t part = length < talk->message ? length : talk->message;
        talk->message -= part;
        from += part;
        length -= part;
        whole += talk->message == 0;
    }
    return whole;
}

/* An answer is a message. A stream that ends without one was refused. */
static size_t hear_frames(struct talk *talk, unsigned *answers) {
    size_t used = 0;
    while (talk->length - used >= 9) {
        unsigned char *head = talk->heard + used, *body = head + 9;
        size_t length = (size_t)head[0] << 16 | (size_t)head[1] << 8 | head[2];
        if (talk->length - used < 9 + length) break;
        unsigned char reply[32];
        if (head[3] == DATA) {
            unsigned told = messages(talk, body, length);
            *answers += told;
            talk->told += told;
        }
        talk->ended += head[3] == HEADERS && (head[4] & END_STREAM);
        if (talk->ended > talk->told) fail("etcd refused a request");
        if (head[3] == RESET || head[3] == GOAWAY) fail("etcd ended a stream");
        if (head[3] == SETTINGS && !(head[4] & ACK)) say(talk, reply, frame(reply, 0, SETTINGS, ACK, 0));
        if (head[3] == PING && !(head[4] & ACK)) {
            memcpy(reply + 9, body, 8);
            say(talk, reply, frame(reply, 8, PING, ACK, 0));
        }
        used += 9 + length;
    }
    return used;
}

static void etcd_begin(struct talk *talk) {
    unsigned char text[512];
    size_t length = (size_t)sprintf((char *)text, "PRI * HTTP/2.0\r\n\r\nSM\r\n\r\n");
    /* Room for all that comes: the first window of a stream, and that of the connection. */
    memcpy(text + length + 9, "\x00\x04\x7f\xff\xff\xff", 6);
    length += frame(text + length, 6, SETTINGS, 0, 0);
    memcpy(text + length + 9, "\x7f\xff\x00\x00", 4);
    length += frame(text + length, 4, WINDOW, 0, 0);
    length += headers(text + length, "/etcdserverpb.Lease/LeaseGrant", 1);
    length += message(text + length, 60, lease_of(talk), END_STREAM, 1);
    say(talk, text, length);
    unsigned answers = 0;
    while (answers == 0) {
        hear_more(talk);
        size_t used = hear_frames(talk, &answers);
        memmove(talk->heard, talk->heard + used, talk->length - used);
        talk->length -= used;
    }
    talk->stream = 3;
}

static void keepalive_begin(struct talk *talk) {
    unsigned char text[256];
    etcd_begin(talk);
    say(talk, text, headers(text, "/etcdserverpb.Lease/LeaseKeepAlive", talk->stream));
}

static const struct kind KINDS[] = {
    {"bossd-submit", bossd_submit, bossd_begin, hear_lines}, {"bossd-renew", bossd_renew, bossd_begin, hear_lines},
    {"bossd-read", bossd_read, read_begin, hear_lines},     {"redis-set", redis_set, redis_begin, hear_lines},
    {"redis-pexpire", redis_pexpire, redis_begin, hear_lines}, {"redis-pttl", redis_pttl, redis_begin, hear_lines},
    {"etcd-grant", etcd_grant, etcd_begin, hear_frames},     {"etcd-keepalive", etcd_keepalive, keepalive_begin, hear_frames},
    {"etcd-put", etcd_put, etcd_begin, hear_frames},
};

/* ---- the load */

static uint32_t *times;
static size_t count, room;

static void note(uint64_t nanoseconds) {
    if (count == room) {
        room = room ? 2 * room : 1 << 16;
        times = realloc(times, room * sizeof *times);
        if (!times) fail("no memory");
    }
    times[count++] = (uint32_t)(nanoseconds / 100);
}

static int by_time(const void *one, const void *other) {
    uint32_t a = *(const uint32_t *)one, b = *(const uint32_t *)other;
    return (a > b) - (a < b);
}

static void ask(const struct kind *kind, struct talk *talk, unsigned depth) {
    static unsigned char text[MOST_DEPTH * 256];
    size_t length = 0;
    uint64_t moment = now();
    for (; talk->under_way < depth; ++talk->under_way) {
        length += kind->request(talk, text + length);
        talk->sent[(talk->first + talk->under_way) % MOST_DEPTH] = moment;
    }
    say(talk, text, length);
}

static void take(const struct kind *kind, struct talk *talk) {
    unsigned answers = 0;
    hear_more(talk);
    size_t used = kind->hear(talk, &answers);
    memmove(talk->heard, talk->heard + used, talk->length - used);
    talk->length -= used;
    for (uint64_t moment = now(); answers > 0; --answers, --talk->under_way) {
        if (talk->under_way == 0) fail("an answer that nobody asked for");
        note(moment - talk->sent[talk->first]);
        talk->first = (talk->first + 1) % MOST_DEPTH;
    }
}

static int connected(int port) {
    int link = socket(AF_INET, SOCK_STREAM, 0), yes = 1;
    struct sockaddr_in address = {.sin_family = AF_INET, .sin_port = htons((uint16_t)port), .sin_addr.s_addr = htonl(INADDR_LOOPBACK)};
    if (link < 0 || connect(link, (struct sockaddr *)&address, sizeof address)) fail("no connection");
    setsockopt(link, IPPROTO_TCP, TCP_NODELAY, &yes, sizeof yes);
    return link;
}

int main(int words, char **word) {
    if (words != 6) fail("PORT KIND CONNECTIONS DEPTH SECONDS");
    const struct kind *kind = KINDS, *last = KINDS + sizeof KINDS / sizeof *KINDS;
    while (kind < last && strcmp(kind->name, word[2])) ++kind;
    int connections = atoi(word[3]), depth = atoi(word[4]), poll = epoll_create1(0);
    if (kind == last || connections < 1 || connections > MOST_CONNECTIONS || depth < 1 || depth > MOST_DEPTH) fail("words out of range");
    struct talk *talks = calloc((size_t)connections, sizeof *talks);
    if (!talks) fail("no memory");
    for (int number = 0; number < connections; ++number) {
        talks[number].number = number;
        talks[number].link = connected(atoi(word[1]));
        kind->begin(&talks[number]);
        struct epoll_event event = {.events = EPOLLIN, .data.ptr = &talks[number]};
        epoll_ctl(poll, EPOLL_CTL_ADD, talks[number].link, &event);
    }
    uint64_t began = now(), end = began + (uint64_t)(atof(word[5]) * 1e9);
    for (int number = 0; number < connections; ++number) ask(kind, &talks[number], (unsigned)depth);
    while (now() < end) {
        struct epoll_event events[64];
        int ready = epoll_wait(poll, events, 64, 1000);
        for (int place = 0; place < ready; ++place) {
            take(kind, events[place].data.ptr);
            ask(kind, events[place].data.ptr, (unsigned)depth);
        }
    }
    if (count == 0) fail("no answer");
    double seconds = (double)(now() - began) / 1e9;
    qsort(times, count, sizeof *times, by_time);
    printf("%.0f %.1f %.1f\n", (double)count / seconds, times[count / 2] / 10.0, times[count - 1 - count / 100] / 10.0);
}

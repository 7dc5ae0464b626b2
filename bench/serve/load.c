// A load client: PORT SESSIONS WINDOW ORDERS [SERVER [SAMPLES]]. It logs on by so many sessions, C0, C1 and so on of GATE, and
// sends ORDERS orders over all of them, at most WINDOW of each session at a time without their answer. An answer is a message of
// type 8, or an order that comes back from an echo server; its sum, its sequence number and its ClOrdID (11) have to be the next
// ones of its session. It prints orders a second, and the median, the 99th percentile and the most of the time from an order to
// its answer, in microseconds. With SERVER, the number of a process, it prints before that SAMPLES (10) lines, each behind as
// many orders: how many were answered, orders a second since the line before, the server's resident memory in MB, and
// how many orders the slowest and the fastest session have behind them.
#include <arpa/inet.h>
#include <errno.h>
#include <fcntl.h>
#include <netinet/tcp.h>
#include <stdint.h>
#include <stdio.h>
#include <stdlib.h>
#include <string.h>
#include <sys/epoll.h>
#include <sys/socket.h>
#include <time.h>
#include <unistd.h>

enum { MOST_SESSIONS = 64, MOST_WINDOW = 1024, OUT = 1 << 20, IN = 1 << 20, LONGEST = 512 };

struct session {
    int socket, ready, name;
    // The numbers of the last message that was sent, and of the last one that came.
    unsigned long number, came;
    long sent, answered, most;
    uint64_t times[MOST_WINDOW];
    // The fields that each message begins with.
    char head[64];
    int head_length;
    char *out, *in;
    size_t out_from, out_to, in_to;
};

static struct session sessions[MOST_SESSIONS];
static int all;
static uint32_t *latencies;
static long answers;

static void fail(const char *what) {
    perror(what);
    exit(1);
}

static void wrong(const struct session *s, const char *what, const char *at, size_t length) {
    fprintf(stderr, "load: C%d, behind %ld answers: %s: ", s->name, s->answered, what);
    for (size_t i = 0; i < length && i < 300; i++) fputc(at[i] == 1 ? '|' : at[i], stderr);
    fputc('\n', stderr);
    exit(1);
}

static uint64_t now(void) {
    struct timespec t;
    clock_gettime(CLOCK_MONOTONIC, &t);
    return (uint64_t)t.tv_sec * 1000000000u + t.tv_nsec;
}

// Writes a number, and answers where it ends.
static char *decimal(char *at, unsigned long number) {
    char digits[20];
    int count = 0;
    do {
        digits[count++] = '0' + number % 10;
        number /= 10;
    } while (number);
    while (count) *at++ = digits[--count];
    return at;
}

static char *text(char *at, const char *what, size_t length) {
    memcpy(at, what, length);
    return at + length;
}

#define TEXT(at, what) text(at, what, sizeof what - 1)

static unsigned sum_of(const char *at, size_t length) {
    unsigned sum = 0;
    for (size_t i = 0; i < length; i++) sum += (unsigned char)at[i];
    return sum % 256;
}

// The time of now, to the second.
static const char *stamp(void) {
    static char made[32];
    static time_t second;
    time_t t = time(NULL);
    if (t != second) {
        second = t;
        strftime(made, sizeof made, "%Y%m%d-%H:%M:%S.000", gmtime(&t));
    }
    return made;
}

static void put(struct session *s, char kind, const char *rest, size_t rest_length) {
    const char *moment = stamp();
    char body[LONGEST], *end = body;
    end = TEXT(end, "35=");
    *end++ = kind;
    end = text(end, s->head, s->head_length);
    end = decimal(end, ++s->number);
    end = TEXT(end, "\00152=");
    end = text(end, moment, 21);
    *end++ = 1;
    end = text(end, rest, rest_length);
    size_t length = end - body;
    char *begin = s->out + s->out_to, *at = begin;
    at = TEXT(at, "8=FIX.4.4\0019=");
    at = decimal(at, length);
    *at++ = 1;
    at = text(at, body, length);
    unsigned sum = sum_of(begin, at - begin);
    at = TEXT(at, "10=");
    *at++ = '0' + sum / 100;
    *at++ = '0' + sum / 10 % 10;
    *at++ = '0' + sum % 10;
    *at++ = 1;
    s->out_to += at - begin;
}

static void flush(struct session *s) {
    while (s->out_from < s->out_to) {
        ssize_t n = send(s->socket, s->out + s->out_from, s->out_to - s->out_from, MSG_NOSIGNAL);
        if (n < 0) {
            if (errno == EAGAIN) break;
            fail("send");
        }
        s->out_from += n;
    }
    if (s->out_from == s->out_to) s->out_from = s->out_to = 0;
}

// Writes the ClOrdID of a session's order, with what stands around it.
static char *id(char *at, int name, long order) {
    at = TEXT(at, "11=C");
    at = decimal(at, name);
    *at++ = '-';
    at = decimal(at, order);
    *at++ = 1;
    return at;
}

static void fill(struct session *s, long window) {
    while (s->ready && s->sent < s->most && s->sent - s->answered < window && s->out_to + LONGEST < OUT) {
        char rest[128], *end = id(rest, s->name, s->sent);
        end = TEXT(end, "55=ACME\00154=1\00160=");
        end = text(end, stamp(), 21);
        end = TEXT(end, "\00138=100\00140=2\00144=12.50\001");
        s->times[s->sent % MOST_WINDOW] = now();
        put(s, 'D', rest, end - rest);
        s->sent++;
    }
    flush(s);
}

// The answer to the session's oldest order.
static void answer(struct session *s, const char *at, size_t length) {
    char wanted[40] = "\001";
    size_t size = id(wanted + 1, s->name, s->answered) - wanted;
    if (s->answered == s->sent || !memmem(at, length, wanted, size)) wrong(s, "no answer to its next order", at, length);
    uint64_t took = now() - s->times[s->answered % MOST_WINDOW];
    latencies[answers++] = took > UINT32_MAX ? UINT32_MAX : took;
    s->answered++;
}

static void hear(struct session *s, const char *at, size_t length, const char *body) {
    if (memcmp(at, "8=FIX.4.4\0019=", 12) || sum_of(at, length - 7) != (unsigned)atoi(at + length - 4)) wrong(s, "a broken frame", at, length);
    const char *number = memmem(at, length, "\00134=", 4);
    if (!number || strtoul(number + 4, NULL, 10) != ++s->came) wrong(s, "a message out of its turn", at, length);
    switch (body[3]) {
    case '8':
    case 'D':
        answer(s, at, length);
        break;
    case 'A':
        s->ready = 1;
        break;
    case '0':
    case '5':
        break;
    default:
        wrong(s, "a message that wasn't wanted", at, length);
    }
}

// Takes in the whole messages that came.
static void cut(struct session *s) {
    size_t from = 0;
    for (;;) {
        char *at = s->in + from;
        size_t have = s->in_to - from;
        if (have < 24) break;
        long length = strtol(at + 12, NULL, 10);
        char *body = memchr(at + 12, 1, have - 12);
        if (!body) break;
        body++;
        size_t whole = (body - at) + length + 7;
        if (length < 5 || whole > IN) wrong(s, "a broken frame", at, have);
        if (have < whole) break;
        hear(s, at, whole, body);
        from += whole;
    }
    memmove(s->in, s->in + from, s->in_to - from);
    s->in_to -= from;
}

static int later(const void *a, const void *b) {
    uint32_t x = *(const uint32_t *)a, y = *(const uint32_t *)b;
    return x < y ? -1 : x > y;
}

static double memory_of(const char *process) {
    char path[64];
    snprintf(path, sizeof path, "/proc/%s/statm", process);
    FILE *file = fopen(path, "r");
    long size = 0, resident = 0;
    if (file) {
        if (fscanf(file, "%ld %ld", &size, &resident) != 2) resident = 0;
        fclose(file);
    }
    return resident * (double)sysconf(_SC_PAGESIZE) / 1e6;
}

// One line of the samples.
static void tell(const char *process, long since, uint64_t began) {
    long least = sessions[0].answered, most = least;
    for (int k = 1; k < all; k++) {
        if (sessions[k].answered < least) least = sessions[k].answered;
        if (sessions[k].answered > most) most = sessions[k].answered;
    }
    printf("%ld %.0f %.1f %ld %ld\n", answers, (answers - since) * 1e9 / (now() - began), memory_of(process), least, most);
    fflush(stdout);
}

static void log_on(struct session *s, int name, int port, int poll) {
    struct sockaddr_in to = {.sin_family = AF_INET, .sin_port = htons(port), .sin_addr.s_addr = htonl(INADDR_LOOPBACK)};
    s->name = name;
    s->head_length = snprintf(s->head, sizeof s->head, "\00149=C%d\00156=GATE\00134=", name);
    s->out = malloc(OUT);
    s->in = malloc(IN + 1);
    s->socket = socket(AF_INET, SOCK_STREAM, 0);
    for (int tries = 0; connect(s->socket, (struct sockaddr *)&to, sizeof to) < 0; tries++) {
        if (tries == 1000) fail("connect");
        close(s->socket);
        usleep(10000);
        s->socket = socket(AF_INET, SOCK_STREAM, 0);
    }
    int one = 1;
    setsockopt(s->socket, IPPROTO_TCP, TCP_NODELAY, &one, sizeof one);
    fcntl(s->socket, F_SETFL, O_NONBLOCK);
    struct epoll_event event = {.events = EPOLLIN | EPOLLOUT | EPOLLET, .data.ptr = s};
    epoll_ctl(poll, EPOLL_CTL_ADD, s->socket, &event);
    put(s, 'A', "98=0\001108=0\001", 11);
    flush(s);
}

static void receive(struct session *s) {
    for (;;) {
        ssize_t got = recv(s->socket, s->in + s->in_to, IN - s->in_to, 0);
        if (got == 0) {
            fprintf(stderr, "load: C%d: the connection ended behind %ld answers\n", s->name, s->answered);
            exit(1);
        }
        if (got < 0) {
            if (errno != EAGAIN) fail("recv");
            return;
        }
        s->in_to += got;
        s->in[s->in_to] = 0;
        cut(s);
    }
}

static void log_out(struct session *s) {
    char rest[4096];
    put(s, '5', "", 0);
    flush(s);
    // Its Logout is answered before the connection is closed.
    fcntl(s->socket, F_SETFL, 0);
    struct timeval most = {.tv_sec = 2};
    setsockopt(s->socket, SOL_SOCKET, SO_RCVTIMEO, &most, sizeof most);
    recv(s->socket, rest, sizeof rest, 0);
    close(s->socket);
}

int main(int count, char **words) {
    if (count < 5 || count > 7) {
        fprintf(stderr, "usage: load PORT SESSIONS WINDOW ORDERS [SERVER [SAMPLES]]\n");
        return 2;
    }
    int port = atoi(words[1]);
    all = atoi(words[2]);
    long window = atol(words[3]), orders = atol(words[4]);
    const char *server = count > 5 ? words[5] : NULL;
    long samples = count > 6 ? atol(words[6]) : 10;
    if (all < 1 || all > MOST_SESSIONS || window < 1 || window > MOST_WINDOW || orders < all || samples < 1) {
        fprintf(stderr, "load: no run has %ld orders on %d sessions at window %ld\n", orders, all, window);
        return 2;
    }
    long total = orders / all * all, step = total / samples, told = 0, next = step;
    latencies = malloc(sizeof *latencies * total);
    int poll = epoll_create1(0);
    for (int i = 0; i < all; i++) {
        sessions[i].most = orders / all;
        log_on(&sessions[i], i, port, poll);
    }
    uint64_t begun = 0, told_at = 0;
    int ready = 0;
    while (answers < total) {
        struct epoll_event events[MOST_SESSIONS];
        int n = epoll_wait(poll, events, MOST_SESSIONS, 30000);
        if (n == 0) {
            fprintf(stderr, "load: nothing came for 30 s; %ld of %ld answered\n", answers, total);
            return 1;
        }
        for (int i = 0; i < n; i++) {
            struct session *s = events[i].data.ptr;
            int was = s->ready;
            receive(s);
            if (!was && s->ready && ++ready == all) {
                // All sessions begin at once.
                begun = told_at = now();
                for (int k = 0; k < all; k++) fill(&sessions[k], window);
            } else if (ready == all) {
                fill(s, window);
            } else {
                flush(s);
            }
        }
        // One look may take many answers: what is too many counts for the next line.
        if (server && step && answers >= next) {
            tell(server, told, told_at);
            told = answers;
            told_at = now();
            next += step;
        }
    }
    double seconds = (now() - begun) / 1e9;
    qsort(latencies, answers, sizeof *latencies, later);
    printf("%.0f %.1f %.1f %.1f\n", answers / seconds, latencies[answers / 2] / 1e3, latencies[answers * 99 / 100] / 1e3, latencies[answers - 1] / 1e3);
    for (int i = 0; i < all; i++) log_out(&sessions[i]);
    return 0;
}

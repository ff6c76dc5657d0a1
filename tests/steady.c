/* Clients that ask one request after another, and how long each answer took.
 *
 *   steady ADDRESS PORT CONNECTIONS PAUSE_MS TABLE
 *
 * TABLE is a file with a kind of request on each line: WEIGHT LABEL STATUSES METHOD URL [FIELD]. STATUSES are the good ones, with
 * commas; in URL {} stands for a number that is new each time, and {N} for a random one below N. Each connection rests for PAUSE_MS
 * after an answer, and is opened again where it ended. A digit on standard input begins that phase (the first one is 0); at its end,
 * or after ANSWERS answers where a sixth argument says so, all connections are closed, and for each phase and kind there is a line
 * on standard output: phase, label, answers, wrong ones (another status, or no answer), and of the times from a request's first octet
 * sent to its answer's last one received, in microseconds, the median, the 99th of 100, and the most. Label 'all' is all kinds. */
#define _GNU_SOURCE
#include <arpa/inet.h>
#include <errno.h>
#include <netinet/in.h>
#include <netinet/tcp.h>
#include <stdint.h>
#include <stdio.h>
#include <stdlib.h>
#include <string.h>
#include <strings.h>
#include <sys/epoll.h>
#include <sys/socket.h>
#include <time.h>
#include <unistd.h>

enum { KINDS = 32, PHASES = 10, MOST = 1024, HEAD = 16384, REQUEST = 8192, PIECE = 1 << 18 };

struct kind {
    unsigned weight;
    char label[32], statuses[64], method[16], url[1024], field[1024];
};

struct times {
    uint32_t *all;
    size_t len, room, wrong;
};

struct connection {
    int fd, is_open, is_asking, kind, phase;
    char request[REQUEST], head[HEAD];
    size_t to_send, sent, head_len;
    long long body_left;
    uint64_t began, next;
};

static struct kind kinds[KINDS];
static struct times times[PHASES][KINDS + 1];
static struct connection clients[MOST];
static struct sockaddr_in end;
static int kind_count, client_count, phase, poll_fd;
static unsigned total_weight, serial, seed;
static uint64_t pause_us, answers, most_answers;
static char piece[PIECE];

static uint64_t now(void)
{
    struct timespec t;
    clock_gettime(CLOCK_MONOTONIC, &t);
    return (uint64_t)t.tv_sec * 1000000 + (uint64_t)t.tv_nsec / 1000;
}

static void count(struct times *t, uint64_t took, int is_good)
{
    if (!is_good)
        t->wrong++;
    if (t->len == t->room) {
        t->room = t->room ? 2 * t->room : 1024;
        t->all = realloc(t->all, t->room * sizeof *t->all);
        if (!t->all)
            exit(1);
    }
    t->all[t->len++] = (uint32_t)(took > UINT32_MAX ? UINT32_MAX : took);
}

static void answered(struct connection *c, const char *status)
{
    int is_good = status && strstr(kinds[c->kind].statuses, status);
    uint64_t at = now();
    if (!is_good && times[c->phase][c->kind].wrong < 5)
        fprintf(stderr, "%s: %s instead of %s\n", kinds[c->kind].label, status ? status : "no answer", kinds[c->kind].statuses);
    count(&times[c->phase][c->kind], at - c->began, is_good);
    count(&times[c->phase][KINDS], at - c->began, is_good);
    c->is_asking = 0;
    c->next = at + pause_us;
    answers++;
}

static void ended(struct connection *c)
{
    close(c->fd);
    c->is_open = 0;
    if (c->is_asking)
        answered(c, 0);
    c->next = now() + (pause_us > 10000 ? pause_us : 10000);
}

/* Writes a URL with its numbers in place of the braces. */
static void url_of(const struct kind *k, char *to, size_t room)
{
    size_t at = 0;
    for (const char *from = k->url; *from && at + 24 < room; from++) {
        if (*from != '{') {
            to[at++] = *from;
            continue;
        }
        unsigned below = (unsigned)strtoul(from + 1, 0, 10);
        at += (size_t)snprintf(to + at, room - at, "%u", below ? (unsigned)rand_r(&seed) % below : serial++);
        from = strchr(from, '}');
    }
    to[at] = 0;
}

static void choose(struct connection *c)
{
    unsigned die = (unsigned)rand_r(&seed) % total_weight;
    int at = 0;
    while (die >= kinds[at].weight)
        die -= kinds[at++].weight;
    char url[2048];
    url_of(&kinds[at], url, sizeof url);
    c->kind = at;
    c->phase = phase;
    c->to_send = (size_t)snprintf(c->request, REQUEST, "%s %s HTTP/1.1\r\nHost: x\r\n%s%s\r\n", kinds[at].method, url, kinds[at].field,
                                  *kinds[at].field ? "\r\n" : "");
    c->sent = c->head_len = 0;
    c->body_left = -1;
    c->is_asking = 1;
    c->began = now();
}

static void send_rest(struct connection *c)
{
    ssize_t n = send(c->fd, c->request + c->sent, c->to_send - c->sent, MSG_NOSIGNAL);
    if (n < 0 && errno != EAGAIN && errno != ENOTCONN) {
        ended(c);
        return;
    }
    c->sent += n > 0 ? (size_t)n : 0;
    struct epoll_event event = {.events = EPOLLIN | (c->sent < c->to_send ? EPOLLOUT : 0), .data.ptr = c};
    epoll_ctl(poll_fd, EPOLL_CTL_MOD, c->fd, &event);
}

static void ask(struct connection *c)
{
    if (!c->is_open) {
        int yes = 1;
        c->fd = socket(AF_INET, SOCK_STREAM | SOCK_NONBLOCK, 0);
        setsockopt(c->fd, IPPROTO_TCP, TCP_NODELAY, &yes, sizeof yes);
        if (connect(c->fd, (struct sockaddr *)&end, sizeof end) < 0 && errno != EINPROGRESS) {
            close(c->fd);
            c->next = now() + 100000;
            return;
        }
        struct epoll_event event = {.events = EPOLLIN, .data.ptr = c};
        epoll_ctl(poll_fd, EPOLL_CTL_ADD, c->fd, &event);
        c->is_open = 1;
    }
    choose(c);
    send_rest(c);
}

/* Takes a whole head apart. Returns how many octets of the body came with it, or -1 where it has no length. */
static long long take_head(struct connection *c, char *head_end)
{
    c->body_left = -1;
    for (char *line = c->head; line < head_end; line = strstr(line, "\r\n") + 2)
        if (!strncasecmp(line, "content-length:", 15))
            c->body_left = atoll(line + 15);
    return c->body_left < 0 ? -1 : (long long)(c->head + c->head_len - (head_end + 4));
}

static void finish(struct connection *c)
{
    char status[4];
    memcpy(status, c->head + 9, 3);
    status[3] = 0;
    int is_last = strcasestr(c->head, "\r\nconnection: close\r\n") != 0;
    answered(c, status);
    if (is_last)
        ended(c);
}

static void read_head(struct connection *c)
{
    ssize_t n = recv(c->fd, c->head + c->head_len, HEAD - 1 - c->head_len, 0);
    if (n <= 0) {
        if (n == 0 || errno != EAGAIN)
            ended(c);
        return;
    }
    if (!c->is_asking) {            /* something that nobody asked for: a server that closes says so */
        ended(c);
        return;
    }
    c->head_len += (size_t)n;
    c->head[c->head_len] = 0;
    char *head_end = strstr(c->head, "\r\n\r\n");
    if (!head_end)
        return;
    head_end[2] = 0;
    long long with_it = take_head(c, head_end);
    if (with_it < 0 || with_it > c->body_left) {
        ended(c);
        return;
    }
    c->body_left -= with_it;
    if (c->body_left == 0)
        finish(c);
}

static void read_body(struct connection *c)
{
    ssize_t n = recv(c->fd, piece, c->body_left < PIECE ? (size_t)c->body_left : PIECE, 0);
    if (n <= 0) {
        if (n == 0 || errno != EAGAIN)
            ended(c);
        return;
    }
    c->body_left -= n;
    if (c->body_left == 0)
        finish(c);
}

static void read_table(const char *path)
{
    FILE *file = fopen(path, "r");
    char line[4096];
    while (file && kind_count < KINDS && fgets(line, sizeof line, file)) {
        struct kind *k = &kinds[kind_count];
        if (sscanf(line, "%u %31s %63s %15s %1023s %1023[^\n]", &k->weight, k->label, k->statuses, k->method, k->url, k->field) < 5)
            continue;
        total_weight += k->weight;
        kind_count++;
    }
    if (!total_weight) {
        fprintf(stderr, "no requests in %s\n", path);
        exit(1);
    }
}

static int earlier(const void *a, const void *b)
{
    uint32_t x = *(const uint32_t *)a, y = *(const uint32_t *)b;
    return (x > y) - (x < y);
}

static void tell(void)
{
    for (int p = 0; p < PHASES; p++)
        for (int k = 0; k <= KINDS; k++) {
            struct times *t = &times[p][k];
            if (!t->len)
                continue;
            qsort(t->all, t->len, sizeof *t->all, earlier);
            printf("%d %s %zu %zu %u %u %u\n", p, k == KINDS ? "all" : kinds[k].label, t->len, t->wrong, t->all[t->len / 2],
                   t->all[t->len * 99 / 100], t->all[t->len - 1]);
        }
}

/* Begins what is due. Returns after how many milliseconds something is due again. */
static int begin_due(void)
{
    uint64_t at = now(), soonest = at + 100000;
    for (int i = 0; i < client_count; i++) {
        struct connection *c = &clients[i];
        if (!c->is_asking && c->next <= at)
            ask(c);
        if (!c->is_asking && c->next < soonest)
            soonest = c->next;
    }
    at = now();
    return soonest <= at ? 0 : (int)((soonest - at + 999) / 1000);
}

static int is_over(void)
{
    char said[64];
    ssize_t n = read(0, said, sizeof said);
    for (ssize_t i = 0; i < n; i++)
        if (said[i] >= '0' && said[i] <= '9')
            phase = said[i] - '0';
    return n == 0;
}

int main(int argc, char **argv)
{
    if (argc < 6)
        return 2;
    end = (struct sockaddr_in){.sin_family = AF_INET, .sin_port = htons((uint16_t)atoi(argv[2])), .sin_addr.s_addr = inet_addr(argv[1])};
    client_count = atoi(argv[3]) < MOST ? atoi(argv[3]) : MOST;
    pause_us = (uint64_t)atoi(argv[4]) * 1000;
    most_answers = argc > 6 ? strtoull(argv[6], 0, 10) : UINT64_MAX;
    read_table(argv[5]);
    seed = (unsigned)now();
    serial = seed % 1000000 * 1000;
    poll_fd = epoll_create1(0);
    struct epoll_event event = {.events = EPOLLIN, .data.ptr = 0}, events[256];
    epoll_ctl(poll_fd, EPOLL_CTL_ADD, 0, &event);
    for (int i = 0; i < client_count; i++)
        clients[i].next = now() + (pause_us * (uint64_t)i) / (uint64_t)client_count;
    while (answers < most_answers) {
        int n = epoll_wait(poll_fd, events, 256, begin_due());
        for (int i = 0; i < n; i++) {
            struct connection *c = events[i].data.ptr;
            if (!c) {
                if (is_over()) {
                    tell();
                    return 0;
                }
                continue;
            }
            if (c->is_open && c->is_asking && c->sent < c->to_send && events[i].events & EPOLLOUT)
                send_rest(c);
            else if (c->is_open && c->body_left > 0)
                read_body(c);
            else if (c->is_open)
                read_head(c);
        }
    }
    tell();
    return 0;
}

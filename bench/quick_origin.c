/* A fast origin server for benchmarks of caches.
 *
 *   quick_origin PORT
 *
 * listens at 127.0.0.1 and answers GET of /DELAY/OCTETS/LIFE/anything after DELAY milliseconds with a body of OCTETS octets that
 * is fresh for LIFE seconds (0: may not be stored). With a DELAY of 9999 it never answers. GET of /asked is answered with how many other
 * requests there were. Prints its port once it listens. */
#define _GNU_SOURCE
#include <arpa/inet.h>
#include <errno.h>
#include <netinet/in.h>
#include <netinet/tcp.h>
#include <stdint.h>
#include <stdio.h>
#include <stdlib.h>
#include <string.h>
#include <sys/epoll.h>
#include <sys/resource.h>
#include <sys/socket.h>
#include <time.h>
#include <unistd.h>

enum { MOST = 65536, HEAD = 4096, BODY = 16 << 20, NEVER = 9999 };

struct connection {
    char in[HEAD];
    size_t in_len;
    char head[256];
    size_t head_len, sent, total;
    uint64_t due;
    int fd, is_waiting;
    struct connection *next;
};

static struct connection *connections[MOST];
static struct connection *first, *last; /* those that wait, in the order in which they came */
static char body[BODY];
static int poll_fd;
static unsigned long requests;

static uint64_t now(void)
{
    struct timespec t;
    clock_gettime(CLOCK_MONOTONIC, &t);
    return (uint64_t)t.tv_sec * 1000 + (uint64_t)t.tv_nsec / 1000000;
}

static void watch(struct connection *c, uint32_t events, int how)
{
    struct epoll_event event = {.events = events, .data.fd = c->fd};
    epoll_ctl(poll_fd, how, c->fd, &event);
}

static void forget(struct connection *c)
{
    struct connection *before = 0;
    for (struct connection *at = first; c->is_waiting && at; before = at, at = at->next)
        if (at == c) {
            *(before ? &before->next : &first) = at->next;
            if (last == at)
                last = before;
            break;
        }
    connections[c->fd] = 0;
    close(c->fd);
    free(c);
}

static void push(struct connection *c)
{
    while (c->sent < c->total) {
        size_t at = c->sent;
        int is_head = at < c->head_len;
        const char *from = is_head ? c->head + at : body + (at - c->head_len);
        size_t len = is_head ? c->head_len - at : c->total - at;
        ssize_t n = send(c->fd, from, len, MSG_NOSIGNAL | (is_head && c->total > c->head_len ? MSG_MORE : 0));
        if (n < 0 && errno == EAGAIN) {
            watch(c, EPOLLIN | EPOLLOUT, EPOLL_CTL_MOD);
            return;
        }
        if (n < 0) {
            forget(c);
            return;
        }
        c->sent += (size_t)n;
    }
    watch(c, EPOLLIN, EPOLL_CTL_MOD);
}

/* The time as a Date field has it, made once a second. */
static const char *date(void)
{
    static char text[64];
    static time_t shown;
    time_t t = time(0);
    if (t != shown)
        strftime(text, sizeof text, "%a, %d %b %Y %H:%M:%S GMT", gmtime(&t));
    shown = t;
    return text;
}

static void asked(struct connection *c)
{
    unsigned long delay = 0, octets = 0, life = 0;
    c->sent = 0;
    c->in_len = 0;
    if (!strncmp(c->in, "GET /asked ", 11)) {
        char count[32];
        int len = snprintf(count, sizeof count, "%lu", requests);
        c->head_len = (size_t)snprintf(c->head, sizeof c->head, "HTTP/1.1 200 OK\r\nContent-Length: %d\r\n\r\n%s", len, count);
        c->total = c->head_len;
        push(c);
        return;
    }
    requests++;
    sscanf(c->in, "GET /%lu/%lu/%lu/", &delay, &octets, &life);
    if (octets > BODY)
        octets = BODY;
    c->head_len = (size_t)snprintf(c->head, sizeof c->head,
        "HTTP/1.1 200 OK\r\nContent-Length: %lu\r\nContent-Type: text/plain\r\nCache-Control: %s%lu\r\nDate: %s\r\n\r\n",
        octets, life ? "max-age=" : "no-store, max-age=", life, date());
    c->total = c->head_len + octets;
    if (delay == NEVER)
        return;
    if (delay == 0) {
        push(c);
        return;
    }
    c->due = now() + delay;
    c->is_waiting = 1;
    c->next = 0;
    *(last ? &last->next : &first) = c;
    last = c;
}

static void read_from(struct connection *c)
{
    ssize_t n = recv(c->fd, c->in + c->in_len, HEAD - 1 - c->in_len, 0);
    if (n <= 0) {
        if (n == 0 || errno != EAGAIN)
            forget(c);
        return;
    }
    c->in_len += (size_t)n;
    c->in[c->in_len] = 0;
    if (strstr(c->in, "\r\n\r\n"))
        asked(c);
}

static void accept_all(int listener)
{
    for (;;) {
        int fd = accept4(listener, 0, 0, SOCK_NONBLOCK);
        if (fd < 0)
            return;
        int yes = 1;
        setsockopt(fd, IPPROTO_TCP, TCP_NODELAY, &yes, sizeof yes);
        struct connection *c = fd < MOST ? calloc(1, sizeof *c) : 0;
        if (!c) {
            close(fd);
            continue;
        }
        c->fd = fd;
        connections[fd] = c;
        watch(c, EPOLLIN, EPOLL_CTL_ADD);
    }
}

static void answer_due(void)
{
    while (first && first->due <= now()) {
        struct connection *c = first;
        first = c->next;
        if (!first)
            last = 0;
        c->is_waiting = 0;
        push(c);
    }
}

int main(int argc, char **argv)
{
    struct sockaddr_in at = {.sin_family = AF_INET, .sin_port = htons((uint16_t)(argc > 1 ? atoi(argv[1]) : 0)), .sin_addr.s_addr = htonl(INADDR_LOOPBACK)};
    socklen_t len = sizeof at;
    struct rlimit most = {0, 0};
    getrlimit(RLIMIT_NOFILE, &most);
    most.rlim_cur = most.rlim_max;
    setrlimit(RLIMIT_NOFILE, &most);
    memset(body, 'x', sizeof body);
    int listener = socket(AF_INET, SOCK_STREAM | SOCK_NONBLOCK, 0), yes = 1;
    setsockopt(listener, SOL_SOCKET, SO_REUSEADDR, &yes, sizeof yes);
    if (bind(listener, (struct sockaddr *)&at, sizeof at) < 0 || listen(listener, 4096) < 0 || getsockname(listener, (struct sockaddr *)&at, &len) < 0) {
        perror("quick_origin");
        return 1;
    }
    poll_fd = epoll_create1(0);
    struct epoll_event event = {.events = EPOLLIN, .data.fd = listener}, events[256];
    epoll_ctl(poll_fd, EPOLL_CTL_ADD, listener, &event);
    printf("%d\n", ntohs(at.sin_port));
    fflush(stdout);
    for (;;) {
        int n = epoll_wait(poll_fd, events, 256, first ? 1 : -1);
        for (int i = 0; i < n; i++) {
            struct connection *c = events[i].data.fd == listener ? 0 : connections[events[i].data.fd];
            if (events[i].data.fd == listener)
                accept_all(listener);
            else if (c && events[i].events & EPOLLOUT)
                push(c);
            else if (c)
                read_from(c);
        }
        answer_due();
    }
}

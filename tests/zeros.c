/* zeros client PORT URL SECONDS: asks with a content whose first chunk size is zeros without end.
 * zeros origin SECONDS: prints its port, answers one request with a body whose first chunk size is zeros without end. */
#include <arpa/inet.h>
#include <stdio.h>
#include <stdlib.h>
#include <string.h>
#include <sys/socket.h>
#include <time.h>
#include <unistd.h>
static char zeros[1 << 20];
static double now(void) { struct timespec t; clock_gettime(CLOCK_MONOTONIC, &t); return (double)t.tv_sec + (double)t.tv_nsec / 1e9; }
static int flood(int s, double seconds)
{
    double began = now(), sent = 0;
    while (now() - began < seconds) {
        ssize_t n = send(s, zeros, sizeof zeros, MSG_NOSIGNAL);
        if (n <= 0)
            break;
        sent += (double)n;
    }
    fprintf(stderr, "%.0f MiB of zeros in %.1f s\n", sent / 1048576, now() - began);
    close(s);
    return 0;
}
int main(int argc, char **argv)
{
    char text[4096];
    struct sockaddr_in at = {.sin_family = AF_INET, .sin_addr.s_addr = htonl(INADDR_LOOPBACK)};
    socklen_t len = sizeof at;
    memset(zeros, '0', sizeof zeros);
    if (argc == 5) {
        int s = socket(AF_INET, SOCK_STREAM, 0);
        at.sin_port = htons((unsigned short)atoi(argv[2]));
        if (connect(s, (struct sockaddr *)&at, len) < 0)
            return 1;
        int n = snprintf(text, sizeof text, "GET %s HTTP/1.1\r\nHost: x\r\nTransfer-Encoding: chunked\r\n\r\n", argv[3]);
        send(s, text, (size_t)n, MSG_NOSIGNAL);
        return flood(s, atof(argv[4]));
    }
    int l = socket(AF_INET, SOCK_STREAM, 0);
    if (bind(l, (struct sockaddr *)&at, len) < 0 || listen(l, 16) < 0 || getsockname(l, (struct sockaddr *)&at, &len) < 0)
        return 1;
    printf("%d\n", ntohs(at.sin_port));
    fflush(stdout);
    int s = accept(l, 0, 0);
    if (recv(s, text, sizeof text, 0) <= 0)
        return 1;
    int n = snprintf(text, sizeof text, "HTTP/1.1 200 OK\r\nTransfer-Encoding: chunked\r\n\r\n");
    send(s, text, (size_t)n, MSG_NOSIGNAL);
    return flood(s, atof(argv[2]));
}

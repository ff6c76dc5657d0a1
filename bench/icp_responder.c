/* A minimal ICP responder: recvfrom, check, sendto. It answers MISS to a query (RFC 2186) whose length field, version and
 * URL are right, and nothing else; given `drop`, it receives and drops.
 *
 *   icp_responder SECONDS [drop]
 *
 * binds a port of 127.0.0.1, prints it, and ends after so many seconds without a datagram. */
#include <arpa/inet.h>
#include <netinet/in.h>
#include <stdint.h>
#include <stdio.h>
#include <stdlib.h>
#include <string.h>
#include <sys/socket.h>
#include <sys/time.h>

enum { QUERY = 1, MISS = 3, HEADER = 20, REQUESTER = 4, VERSION = 2, MOST = 16384 };

/* The length of the URL with its final zero octet, or 0 if the datagram is not a query. */
static size_t url_of(const uint8_t *packet, size_t count)
{
    if (count < HEADER + REQUESTER + 1 || count > MOST)
        return 0;
    if (packet[0] != QUERY || packet[1] != VERSION)
        return 0;
    if ((size_t)packet[2] * 256 + packet[3] != count)
        return 0;
    const uint8_t *url = packet + HEADER + REQUESTER;
    size_t length = count - HEADER - REQUESTER;
    if (memchr(url, 0, length) != url + length - 1)
        return 0;
    return length;
}

/* Turns a query into its reply, in place. */
static size_t reply(uint8_t *packet, size_t length, const uint8_t own[4])
{
    size_t count = HEADER + length;
    packet[0] = MISS;
    packet[2] = (uint8_t)(count / 256);
    packet[3] = (uint8_t)(count % 256);
    memset(packet + 8, 0, 8);
    memcpy(packet + 16, own, 4);
    memmove(packet + HEADER, packet + HEADER + REQUESTER, length);
    return count;
}

int main(int argc, char **argv)
{
    if (argc < 2)
        return 2;
    int drops = argc > 2 && strcmp(argv[2], "drop") == 0;
    struct timeval patience = {.tv_sec = atoi(argv[1])};
    struct sockaddr_in own = {.sin_family = AF_INET, .sin_addr.s_addr = htonl(INADDR_LOOPBACK)};
    socklen_t size = sizeof own;
    int room = 1 << 20;
    int s = socket(AF_INET, SOCK_DGRAM, 0);
    if (s < 0 || bind(s, (struct sockaddr *)&own, size) < 0 || getsockname(s, (struct sockaddr *)&own, &size) < 0)
        return 1;
    setsockopt(s, SOL_SOCKET, SO_RCVBUF, &room, sizeof room);
    setsockopt(s, SOL_SOCKET, SO_RCVTIMEO, &patience, sizeof patience);
    printf("%d\n", ntohs(own.sin_port));
    fflush(stdout);

    static uint8_t packet[65536];
    uint8_t address[4];
    memcpy(address, &own.sin_addr, 4);
    unsigned long received = 0, answered = 0;
    for (;;) {
        struct sockaddr_in peer;
        socklen_t peer_size = sizeof peer;
        ssize_t count = recvfrom(s, packet, sizeof packet, 0, (struct sockaddr *)&peer, &peer_size);
        if (count < 0)
            break;
        received++;
        size_t length = drops ? 0 : url_of(packet, (size_t)count);
        if (length == 0)
            continue;
        size_t octets = reply(packet, length, address);
        if (sendto(s, packet, octets, 0, (struct sockaddr *)&peer, peer_size) >= 0)
            answered++;
    }
    fprintf(stderr, "received %lu answered %lu\n", received, answered);
    return 0;
}

/* Sends queries to a port of 127.0.0.1, and counts the answers.
 *
 *   icp_sender PORT COUNT WINDOW [htcp|bad|unheard]
 *
 * keeps at most WINDOW queries of ICP in flight, with `htcp` those of HTCP (a TST, RFC 2756). After 200 ms without an answer the queries in
 * flight count as lost. With `bad` it sends datagrams of a wrong version, and with `unheard` queries, which both get no answer: it waits
 * for none. Prints answers and seconds. */
#include <arpa/inet.h>
#include <netinet/in.h>
#include <stdint.h>
#include <stdio.h>
#include <stdlib.h>
#include <string.h>
#include <sys/socket.h>
#include <sys/time.h>
#include <time.h>
#include <unistd.h>

static const char url[] = "http://a/";
/* A TST of GET http://a/, version 1.1, without fields: 37 octets, of which 31 are its DATA, and an AUTH without a signature. */
static uint8_t tst[] = "\0\45\0\0" "\0\37\20\2\0\0\0\0" "\0\3" "GET" "\0\11" "http://a/" "\0\3" "1.1" "\0\0" "\0\2";

static double seconds(void)
{
    struct timespec t;
    clock_gettime(CLOCK_MONOTONIC, &t);
    return (double)t.tv_sec + (double)t.tv_nsec / 1e9;
}

int main(int argc, char **argv)
{
    if (argc < 4)
        return 2;
    unsigned long count = strtoul(argv[2], 0, 10), window = strtoul(argv[3], 0, 10);
    const char *mode = argc > 4 ? argv[4] : "";
    int htcp = strcmp(mode, "htcp") == 0, bad = strcmp(mode, "bad") == 0, mute = bad || strcmp(mode, "unheard") == 0;
    struct sockaddr_in to = {.sin_family = AF_INET, .sin_port = htons((uint16_t)atoi(argv[1])), .sin_addr.s_addr = htonl(INADDR_LOOPBACK)};
    struct timeval patience = {.tv_usec = 200000};
    int room = 1 << 20;
    int s = socket(AF_INET, SOCK_DGRAM, 0);
    if (s < 0 || connect(s, (struct sockaddr *)&to, sizeof to) < 0)
        return 1;
    setsockopt(s, SOL_SOCKET, SO_RCVBUF, &room, sizeof room);
    setsockopt(s, SOL_SOCKET, SO_RCVTIMEO, &patience, sizeof patience);

    uint8_t icp[24 + sizeof url] = {1, bad ? 9 : 2, 0, sizeof icp};
    memcpy(icp + 24, url, sizeof url);
    /* The number of a message is at octet 4 by ICP, at octet 8 by HTCP. */
    uint8_t *query = htcp ? tst : icp, *number = htcp ? tst + 8 : icp + 4;
    size_t octets = htcp ? sizeof tst - 1 : sizeof icp;
    uint8_t answer[65536];
    unsigned long sent = 0, waiting = 0, answers = 0;
    double began = seconds();
    while (sent < count || waiting > 0) {
        if (sent < count && waiting < window) {
            number[0] = (uint8_t)(sent >> 24);
            number[1] = (uint8_t)(sent >> 16);
            number[2] = (uint8_t)(sent >> 8);
            number[3] = (uint8_t)sent;
            if (send(s, query, octets, 0) < 0) {
                perror("send");
                return 1;
            }
            sent++;
            waiting += !mute;
            if (mute && sent % window == 0)
                usleep(1000);
            continue;
        }
        if (recv(s, answer, sizeof answer, 0) < 0)
            waiting = 0;
        else {
            answers++;
            waiting--;
        }
    }
    printf("sent %lu answers %lu seconds %.3f\n", sent, answers, seconds() - began);
    return 0;
}

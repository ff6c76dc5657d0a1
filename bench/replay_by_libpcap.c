/* replay_by_libpcap: what libpcap needs for a filter over a capture, and what a command needs.
 *   replay_by_libpcap replay CAPTURE CODES   opens the file by pcap_open_offline, runs bpf_filter on the IP octets of each
 *                                            Ethernet frame, and prints how many are accepted. CODES are those that
 *                                            `cache_main check` prints behind "script: "
 *   replay_by_libpcap measure COMMAND..      runs the command, and prints on standard error its processor seconds (user and
 *                                            system) and the most memory that was resident
 * `measure` is here, and not in the script, since a process starts with the resident memory of the one that starts it. */
#include <pcap/pcap.h>
#include <stdio.h>
#include <stdlib.h>
#include <string.h>
#include <sys/resource.h>
#include <sys/wait.h>
#include <unistd.h>

enum { ETHERNET = 14, MOST = 4096 };

static struct bpf_insn program[MOST];

static int read_codes(const char *text)
{
    int count = 0;
    for (; text != NULL && count < MOST; count++) {
        unsigned code, jt, jf, k;
        if (sscanf(text, "%u,%u,%u,%u", &code, &jt, &jf, &k) != 4)
            return 0;
        program[count] = (struct bpf_insn){(u_short)code, (u_char)jt, (u_char)jf, k};
        text = strchr(text, ';');
        if (text != NULL)
            text++;
    }
    return count;
}

static int replay(const char *file, const char *codes)
{
    char fault[PCAP_ERRBUF_SIZE];
    int count = read_codes(codes);
    if (count == 0 || !bpf_validate(program, count)) {
        fprintf(stderr, "no program\n");
        return 1;
    }
    pcap_t *capture = pcap_open_offline(file, fault);
    if (capture == NULL) {
        fprintf(stderr, "%s\n", fault);
        return 1;
    }
    unsigned long all = 0, accepted = 0;
    struct pcap_pkthdr *head;
    const u_char *frame;
    int got;
    while ((got = pcap_next_ex(capture, &head, &frame)) == 1) {
        all++;
        if (head->caplen >= ETHERNET && bpf_filter(program, frame + ETHERNET, head->len - ETHERNET, head->caplen - ETHERNET) != 0)
            accepted++;
    }
    pcap_close(capture);
    printf("datagrams %lu accepted %lu\n", all, accepted);
    return got == PCAP_ERROR_BREAK ? 0 : 1;
}

static int measure(char **command)
{
    pid_t child = fork();
    if (child == 0) {
        execvp(command[0], command);
        _exit(127);
    }
    int status;
    struct rusage used;
    if (child < 0 || wait4(child, &status, 0, &used) != child)
        return 1;
    double seconds = (double)(used.ru_utime.tv_sec + used.ru_stime.tv_sec);
    seconds += (double)(used.ru_utime.tv_usec + used.ru_stime.tv_usec) / 1e6;
    fprintf(stderr, "measured seconds %.3f KiB %ld\n", seconds, used.ru_maxrss);
    return WIFEXITED(status) ? WEXITSTATUS(status) : 1;
}

int main(int count, char **words)
{
    if (count == 4 && strcmp(words[1], "replay") == 0)
        return replay(words[2], words[3]);
    if (count > 2 && strcmp(words[1], "measure") == 0)
        return measure(words + 2);
    return 2;
}

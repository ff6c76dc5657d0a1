/* Preloaded before a program, this has each reading of CLOCK_MONOTONIC take longer, so that what another thread does in between is seen:
 * tests/harness.py builds it.
 *
 * LINGER says how many microseconds longer, at most 999,999.
 */
#define _GNU_SOURCE
#include <stdlib.h>
#include <sys/syscall.h>
#include <time.h>
#include <unistd.h>

static struct timespec longer;

__attribute__((constructor)) static void begin(void) {
    const char *linger = getenv("LINGER");
    if (linger && 0 < atoi(linger) && atoi(linger) < 1000000)
        longer.tv_nsec = atoi(linger) * 1000L;
}

int clock_gettime(clockid_t clock, struct timespec *time) {
    if (clock == CLOCK_MONOTONIC && longer.tv_nsec)
        syscall(SYS_nanosleep, &longer, NULL);
    return (int)syscall(SYS_clock_gettime, clock, time);
}

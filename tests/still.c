/* Preloaded before a program, this has its clocks stand still where whoever watches sets them: tests/serve_rules builds it.
 *
 * STILL names a file of three signed 64-bit numbers in the machine's order, which is shared with them: the nanoseconds that CLOCK_REALTIME
 * shows, those that CLOCK_MONOTONIC shows, and by how many each reading of the latter sets it forward. Other clocks are left alone, and
 * so is whatever waits.
 */
#define _GNU_SOURCE
#include <fcntl.h>
#include <stdint.h>
#include <stdlib.h>
#include <sys/mman.h>
#include <sys/syscall.h>
#include <time.h>
#include <unistd.h>

enum { SECOND = 1000000000 };

static int64_t *shown;

__attribute__((constructor)) static void begin(void) {
    const char *path = getenv("STILL");
    int file = path ? open(path, O_RDWR | O_CLOEXEC) : -1;
    if (file < 0)
        return;
    void *at = mmap(NULL, 3 * sizeof *shown, PROT_READ | PROT_WRITE, MAP_SHARED, file, 0);
    close(file);
    if (at != MAP_FAILED)
        shown = at;
}

int clock_gettime(clockid_t clock, struct timespec *time) {
    int64_t nanos;
    if (shown && clock == CLOCK_REALTIME)
        nanos = __atomic_load_n(&shown[0], __ATOMIC_SEQ_CST);
    else if (shown && clock == CLOCK_MONOTONIC)
        nanos = __atomic_fetch_add(&shown[1], __atomic_load_n(&shown[2], __ATOMIC_SEQ_CST), __ATOMIC_SEQ_CST);
    else
        return (int)syscall(SYS_clock_gettime, clock, time);
    time->tv_sec = nanos / SECOND;
    time->tv_nsec = nanos % SECOND;
    return 0;
}

/* Preloaded before a program, this shifts the clock that it takes for the time of day: tests/serve_hostile builds it.
 *
 * CLOCK names a file of one signed 64-bit number in the machine's order, which is shared with whoever watches: the seconds that are
 * added to CLOCK_REALTIME. Other clocks are left alone.
 */
#define _GNU_SOURCE
#include <fcntl.h>
#include <stdint.h>
#include <stdlib.h>
#include <sys/mman.h>
#include <sys/syscall.h>
#include <time.h>
#include <unistd.h>

static int64_t *shift;

__attribute__((constructor)) static void begin(void) {
    const char *path = getenv("CLOCK");
    int file = path ? open(path, O_RDWR | O_CLOEXEC) : -1;
    if (file < 0)
        return;
    void *at = mmap(NULL, sizeof *shift, PROT_READ | PROT_WRITE, MAP_SHARED, file, 0);
    close(file);
    if (at != MAP_FAILED)
        shift = at;
}

int clock_gettime(clockid_t clock, struct timespec *time) {
    int status = (int)syscall(SYS_clock_gettime, clock, time);
    if (status == 0 && clock == CLOCK_REALTIME && shift)
        time->tv_sec += __atomic_load_n(shift, __ATOMIC_RELAXED);
    return status;
}

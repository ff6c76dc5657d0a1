/* Preloaded before a program, this has its time pass faster from some moment on: tests/harness.py builds it.
 *
 * HASTE says how many times, and HASTE_FROM names a file of one octet that others write: once that is not 0, CLOCK_MONOTONIC goes on from
 * what it shows then, and the waits of epoll_wait and nanosleep are so many times shorter. Until then time passes as it does, and a wait
 * looks at that octet every 20 ms. The time of day is left alone, and so is whatever else waits.
 */
#define _GNU_SOURCE
#include <errno.h>
#include <fcntl.h>
#include <stdint.h>
#include <stdlib.h>
#include <sys/epoll.h>
#include <sys/mman.h>
#include <sys/syscall.h>
#include <time.h>
#include <unistd.h>

enum { SECOND = 1000000000, LOOK = 20 };

static const volatile unsigned char *is_wanted;
static int64_t times = 1, began;

static int64_t nanos(const struct timespec *time) {
    return (int64_t)time->tv_sec * SECOND + time->tv_nsec;
}

__attribute__((constructor)) static void begin(void) {
    const char *haste = getenv("HASTE"), *from = getenv("HASTE_FROM");
    int file = from ? open(from, O_RDONLY | O_CLOEXEC) : -1;
    void *found = file < 0 ? MAP_FAILED : mmap(NULL, 1, PROT_READ, MAP_SHARED, file, 0);
    if (file >= 0)
        close(file);
    if (!haste || atoi(haste) < 1 || found == MAP_FAILED)
        return;
    times = atoi(haste);
    is_wanted = found;
}

/* When time began to pass faster, or 0. The first that sees the octet says when. */
static int64_t since(void) {
    int64_t known = __atomic_load_n(&began, __ATOMIC_SEQ_CST);
    struct timespec now;
    if (known || !is_wanted || !*is_wanted || syscall(SYS_clock_gettime, CLOCK_MONOTONIC, &now) != 0)
        return known;
    return __atomic_compare_exchange_n(&began, &known, nanos(&now), 0, __ATOMIC_SEQ_CST, __ATOMIC_SEQ_CST) ? nanos(&now) : known;
}

int clock_gettime(clockid_t clock, struct timespec *time) {
    int64_t from = clock == CLOCK_MONOTONIC ? since() : 0;
    int status = (int)syscall(SYS_clock_gettime, clock, time);
    if (status == 0 && from) {
        int64_t shown = from + (nanos(time) - from) * times;
        time->tv_sec = shown / SECOND;
        time->tv_nsec = shown % SECOND;
    }
    return status;
}

int epoll_wait(int file, struct epoll_event *events, int most, int timeout) {
    int found = 0;
    while (is_wanted && !since() && timeout != 0 && found == 0) {
        int turn = timeout < 0 || timeout > LOOK ? LOOK : timeout;
        found = epoll_pwait(file, events, most, turn, NULL);
        timeout -= timeout < 0 ? 0 : turn;
    }
    if (found != 0)
        return found;
    return epoll_pwait(file, events, most, timeout > 0 && since() ? (int)((timeout - 1) / times + 1) : timeout, NULL);
}

int nanosleep(const struct timespec *asked, struct timespec *left) {
    int64_t faster = since() ? times : 1;
    struct timespec rest = {asked->tv_sec / faster, (asked->tv_sec % faster * SECOND + asked->tv_nsec) / faster};
    int status;
    (void)left;
    while ((status = clock_nanosleep(CLOCK_MONOTONIC, 0, &rest, &rest)) == EINTR)
        ;
    errno = status;
    return status ? -1 : 0;
}

/* Preloaded before a program, this refuses some of its requests for memory: tests/sweep and tests/serve_hostile build it.
 *
 * REFUSE names a file of four 64-bit numbers in the machine's order, which is shared with whoever watches:
 *   nth      the request with this number, from 1 on, is refused (0: none)
 *   every    each so many-th request is refused, while this is not 0
 *   asked    how many requests were made
 *   refused  how many of them were refused
 * Requests are those that the program itself makes; what the C library asks for its own use is neither counted nor refused.
 */
#define _GNU_SOURCE
#include <errno.h>
#include <fcntl.h>
#include <link.h>
#include <stdint.h>
#include <stdlib.h>
#include <sys/mman.h>
#include <unistd.h>

void *__libc_malloc(size_t);
void *__libc_calloc(size_t, size_t);
void *__libc_realloc(void *, size_t);
void *__libc_memalign(size_t, size_t);

struct control {
    uint64_t nth, every, asked, refused;
};

static struct control *control;
static uintptr_t first, last;

/* The first object is the program. */
static int find_program(struct dl_phdr_info *info, size_t size, void *none) {
    (void)size;
    (void)none;
    first = UINTPTR_MAX;
    for (int i = 0; i < info->dlpi_phnum; i++) {
        const ElfW(Phdr) *part = &info->dlpi_phdr[i];
        if (part->p_type != PT_LOAD)
            continue;
        uintptr_t begin = info->dlpi_addr + part->p_vaddr, end = begin + part->p_memsz;
        first = begin < first ? begin : first;
        last = end > last ? end : last;
    }
    return 1;
}

__attribute__((constructor)) static void begin(void) {
    const char *path = getenv("REFUSE");
    int file = path ? open(path, O_RDWR | O_CLOEXEC) : -1;
    if (file < 0)
        return;
    dl_iterate_phdr(find_program, NULL);
    void *at = mmap(NULL, sizeof *control, PROT_READ | PROT_WRITE, MAP_SHARED, file, 0);
    close(file);
    if (at != MAP_FAILED)
        control = at;
}

static int is_refused(const void *caller) {
    uintptr_t at = (uintptr_t)caller;
    if (!control || at < first || at >= last)
        return 0;
    uint64_t number = __atomic_add_fetch(&control->asked, 1, __ATOMIC_RELAXED);
    uint64_t every = __atomic_load_n(&control->every, __ATOMIC_RELAXED);
    if (number != control->nth && (every == 0 || number % every != 0))
        return 0;
    __atomic_add_fetch(&control->refused, 1, __ATOMIC_RELAXED);
    errno = ENOMEM;
    return 1;
}

void *malloc(size_t size) {
    return is_refused(__builtin_return_address(0)) ? NULL : __libc_malloc(size);
}

void *calloc(size_t count, size_t size) {
    return is_refused(__builtin_return_address(0)) ? NULL : __libc_calloc(count, size);
}

void *realloc(void *old, size_t size) {
    return is_refused(__builtin_return_address(0)) ? NULL : __libc_realloc(old, size);
}

int posix_memalign(void **made, size_t alignment, size_t size) {
    if (is_refused(__builtin_return_address(0)))
        return ENOMEM;
    void *at = __libc_memalign(alignment, size);
    if (!at)
        return ENOMEM;
    *made = at;
    return 0;
}

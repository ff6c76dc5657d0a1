/* Preloaded before a program, this has each of its sockets take a while to close: 250 ms. tests/serve_attacks builds it. */
#define _GNU_SOURCE
#include <dlfcn.h>
#include <sys/stat.h>
#include <unistd.h>

int close(int file) {
    static int (*close_file)(int);
    if (!close_file)
        close_file = (int (*)(int))dlsym(RTLD_NEXT, "close");
    struct stat it;
    if (!fstat(file, &it) && S_ISSOCK(it.st_mode))
        usleep(250000);
    return close_file(file);
}

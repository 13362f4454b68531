/* By LD_PRELOAD: each fsync and fdatasync takes 2 ms more, as on a slower disk. */
#define _GNU_SOURCE
#include <dlfcn.h>
#include <time.h>

static int after_a_pause(const char *name, int file) {
    struct timespec left = {0, 2000000};
    int (*sync)(int) = (int (*)(int))dlsym(RTLD_NEXT, name);
    while (nanosleep(&left, &left) != 0)
        ;
    return sync(file);
}

int fsync(int file) { return after_a_pause("fsync", file); }

int fdatasync(int file) { return after_a_pause("fdatasync", file); }

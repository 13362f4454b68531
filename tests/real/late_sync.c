// Has a program that is started with this library preloaded wait a few milliseconds before each fdatasync, so that it is
// often stopped where its last writes aren't synced.
#define _GNU_SOURCE
#include <dlfcn.h>
#include <unistd.h>

int fdatasync(int file) {
    static int (*_Atomic next)(int);
    if (!next) {
        next = (int (*)(int))dlsym(RTLD_NEXT, "fdatasync");
    }
    usleep(5000);
    return next(file);
}

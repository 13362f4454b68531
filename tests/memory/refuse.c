// Refuses allocations of a program that is started with this library preloaded: of the calls of malloc, realloc and
// pthread_create that the program itself makes, counted from 1, the one of number REFUSE, and with REFUSE_ALL set all
// later ones too. The allocations of the C library's own calls are left alone. The descriptor REFUSE_TOLD, where it is
// set, is told with one byte that a call was refused: 'r' for memory, 't' for a thread.
#define _GNU_SOURCE
#include <dlfcn.h>
#include <errno.h>
#include <link.h>
#include <pthread.h>
#include <stdatomic.h>
#include <stdint.h>
#include <stdlib.h>
#include <unistd.h>

extern void *__libc_malloc(size_t size);
extern void *__libc_realloc(void *old, size_t size);

static uintptr_t low = UINTPTR_MAX, high;
static atomic_ulong calls;
static unsigned long refused;
static int all, told = -1;

// The first object is the program.
static int note_program(struct dl_phdr_info *object, size_t size, void *data) {
    (void)size, (void)data;
    for (int i = 0; i < object->dlpi_phnum; i++) {
        const ElfW(Phdr) *part = &object->dlpi_phdr[i];
        if (part->p_type == PT_LOAD) {
            uintptr_t at = object->dlpi_addr + part->p_vaddr;
            low = at < low ? at : low;
            high = at + part->p_memsz > high ? at + part->p_memsz : high;
        }
    }
    return 1;
}

__attribute__((constructor)) static void begin(void) {
    const char *number = getenv("REFUSE"), *descriptor = getenv("REFUSE_TOLD");
    refused = number ? strtoul(number, NULL, 10) : 0;
    told = descriptor ? atoi(descriptor) : -1;
    all = getenv("REFUSE_ALL") != NULL;
    dl_iterate_phdr(note_program, NULL);
}

static int is_refused(void *caller, const char *what) {
    if ((uintptr_t)caller < low || (uintptr_t)caller >= high || refused == 0) {
        return 0;
    }
    unsigned long number = atomic_fetch_add(&calls, 1) + 1;
    if (number != refused && !(all && number > refused)) {
        return 0;
    }
    if (number == refused && told >= 0 && write(told, what, 1) < 0) {
        _exit(125);
    }
    errno = ENOMEM;
    return 1;
}

void *malloc(size_t size) {
    return is_refused(__builtin_return_address(0), "r") ? NULL : __libc_malloc(size);
}

void *realloc(void *old, size_t size) {
    return is_refused(__builtin_return_address(0), "r") ? NULL : __libc_realloc(old, size);
}

typedef int (*create_thread)(pthread_t *, const pthread_attr_t *, void *(*)(void *), void *);

int pthread_create(pthread_t *thread, const pthread_attr_t *attributes, void *(*start)(void *), void *argument) {
    static _Atomic create_thread next;
    if (!next) {
        next = (create_thread)dlsym(RTLD_NEXT, "pthread_create");
    }
    return is_refused(__builtin_return_address(0), "t") ? EAGAIN : next(thread, attributes, start, argument);
}

// Preloaded: counts the bytes that a program has asked malloc for and not given back, those with malloc's own, and the
// pieces, in the three numbers of 8 bytes of the file that LIVE_BYTES names.
#define _GNU_SOURCE
#include <fcntl.h>
#include <malloc.h>
#include <pthread.h>
#include <stdint.h>
#include <stdlib.h>
#include <string.h>
#include <sys/mman.h>
#include <unistd.h>

extern void *__libc_malloc(size_t size);
extern void *__libc_calloc(size_t count, size_t size);
extern void *__libc_realloc(void *old, size_t size);
extern void *__libc_memalign(size_t alignment, size_t size);
extern void __libc_free(void *piece);

// What each piece was asked with; a power of two, far above the pieces that there are.
#define PLACES (1UL << 23)
static struct {
    void *piece;
    size_t asked;
} *pieces;
static int64_t *live;
static pthread_mutex_t lock = PTHREAD_MUTEX_INITIALIZER;

__attribute__((constructor)) static void begin(void) {
    const char *path = getenv("LIVE_BYTES");
    int file = path ? open(path, O_RDWR | O_CREAT, 0600) : -1;
    if (file < 0 || ftruncate(file, 24) < 0) {
        return;
    }
    void *table =
        mmap(NULL, PLACES * sizeof *pieces, PROT_READ | PROT_WRITE, MAP_PRIVATE | MAP_ANONYMOUS | MAP_NORESERVE, -1, 0);
    void *counts = mmap(NULL, 24, PROT_READ | PROT_WRITE, MAP_SHARED, file, 0);
    if (table != MAP_FAILED && counts != MAP_FAILED) {
        live = counts;
        pieces = table;
    }
    close(file);
}

static size_t place_of(void *piece) {
    return ((uintptr_t)piece >> 4) * 0x9E3779B97F4A7C15UL >> 41;
}

static void *note(void *piece, size_t asked) {
    if (pieces == NULL || piece == NULL) {
        return piece;
    }
    pthread_mutex_lock(&lock);
    size_t at = place_of(piece);
    while (pieces[at].piece != NULL && pieces[at].piece != (void *)1) {
        at = (at + 1) % PLACES;
    }
    pieces[at].piece = piece;
    pieces[at].asked = asked;
    live[0] += asked;
    live[1] += malloc_usable_size(piece) + 8;
    live[2]++;
    pthread_mutex_unlock(&lock);
    return piece;
}

static void forget(void *piece) {
    if (pieces == NULL || piece == NULL) {
        return;
    }
    pthread_mutex_lock(&lock);
    size_t at = place_of(piece);
    while (pieces[at].piece != NULL && pieces[at].piece != piece) {
        at = (at + 1) % PLACES;
    }
    // what was asked for before the constructor isn't there
    if (pieces[at].piece == piece) {
        pieces[at].piece = (void *)1;
        live[0] -= pieces[at].asked;
        live[1] -= malloc_usable_size(piece) + 8;
        live[2]--;
    }
    pthread_mutex_unlock(&lock);
}

void *malloc(size_t size) {
    return note(__libc_malloc(size), size);
}

void *calloc(size_t count, size_t size) {
    return note(__libc_calloc(count, size), count * size);
}

void *realloc(void *old, size_t size) {
    forget(old);
    return note(__libc_realloc(old, size), size);
}

void *memalign(size_t alignment, size_t size) {
    return note(__libc_memalign(alignment, size), size);
}

void *aligned_alloc(size_t alignment, size_t size) {
    return note(__libc_memalign(alignment, size), size);
}

int posix_memalign(void **piece, size_t alignment, size_t size) {
    *piece = note(__libc_memalign(alignment, size), size);
    return *piece == NULL ? 12 : 0;
}

void free(void *piece) {
    forget(piece);
    __libc_free(piece);
}

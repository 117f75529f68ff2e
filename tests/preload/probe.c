/* Counts what a program asks of malloc and of pthread_create, or refuses some of it. It is loaded in front of the C
 * library (LD_PRELOAD). PROBE_MODE says what it does, and PROBE_FILE where it writes:
 *
 *   count         the file has a byte for each piece that is asked for
 *   count_starts  the file has a byte for each thread that is started
 *   refuse        the piece number PROBE_CALL is refused
 *   refuse_from   the first piece of PROBE_CALL bytes is refused, or of any size where that is 0, and each later one
 *   refuse_start  the start number PROBE_CALL of a thread is refused
 *
 * In the last three the file has a byte for each call that is refused. In every mode, or without one, the file PROBE_HAD
 * has four numbers of 64 bits: the most pieces and the most bytes that were had at once, and those that are had.
 * A piece is asked for by malloc and realloc; one of calloc is had, and neither counted nor refused. */
#define _GNU_SOURCE
#include <dlfcn.h>
#include <errno.h>
#include <fcntl.h>
#include <malloc.h>
#include <pthread.h>
#include <stdatomic.h>
#include <stdlib.h>
#include <string.h>
#include <sys/mman.h>
#include <unistd.h>

void *__libc_malloc(size_t size);
void *__libc_calloc(size_t count, size_t size);
void *__libc_realloc(void *old, size_t size);
void __libc_free(void *old);

static enum { NONE, COUNT, COUNT_STARTS, REFUSE, REFUSE_FROM, REFUSE_START } mode;
static const char *const modes[] = {"", "count", "count_starts", "refuse", "refuse_from", "refuse_start"};

static struct counts {
    atomic_long most_pieces, most_bytes, pieces, bytes;
} own, *counts = &own;

static int file = -1;
static long chosen;
static atomic_long calls;
static atomic_int is_refusing;

static int opened(const char *name) {
    int made = open(name, O_CREAT | O_RDWR | O_APPEND, 0600);
    if (made < 0) abort();
    return made;
}

__attribute__((constructor)) static void begin(void) {
    const char *named = getenv("PROBE_MODE"), *call = getenv("PROBE_CALL"), *had = getenv("PROBE_HAD");
    if (had) {
        int shared = opened(had);
        if (ftruncate(shared, sizeof own)) abort();
        counts = mmap(NULL, sizeof own, PROT_READ | PROT_WRITE, MAP_SHARED, shared, 0);
        if (counts == MAP_FAILED) abort();
        close(shared);
    }
    chosen = call ? atol(call) : 0;
    for (int each = COUNT; named && each <= REFUSE_START; each++)
        if (!strcmp(named, modes[each])) mode = each;
    if (named && mode == NONE) abort();
}

/* A byte for a call; the file is made for the first one. */
static void note(void) {
    if (file < 0) file = opened(getenv("PROBE_FILE"));
    if (write(file, "x", 1) != 1) abort();
}

static int is_piece_refused(size_t size) {
    if (mode == COUNT) note();
    if (mode == REFUSE) return ++calls == chosen;
    if (mode == REFUSE_FROM && (!chosen || (long)size == chosen)) is_refusing = 1;
    return mode == REFUSE_FROM && is_refusing;
}

static int is_start_refused(void) {
    if (mode == COUNT_STARTS) note();
    return mode == REFUSE_START && ++calls == chosen;
}

static void at_least(atomic_long *most, long now) {
    long was = atomic_load(most);
    while (was < now && !atomic_compare_exchange_weak(most, &was, now)) {
    }
}

static void *had(void *piece) {
    if (piece) {
        at_least(&counts->most_pieces, ++counts->pieces);
        at_least(&counts->most_bytes, counts->bytes += (long)malloc_usable_size(piece));
    }
    return piece;
}

static void let_go(long pieces, size_t bytes) {
    counts->pieces -= pieces;
    counts->bytes -= (long)bytes;
}

void *malloc(size_t size) {
    if (is_piece_refused(size)) {
        note();
        errno = ENOMEM;
        return NULL;
    }
    return had(__libc_malloc(size));
}

void *calloc(size_t count, size_t size) {
    return had(__libc_calloc(count, size));
}

void *realloc(void *old, size_t size) {
    size_t bytes = old ? malloc_usable_size(old) : 0;
    if (is_piece_refused(size)) {
        note();
        errno = ENOMEM;
        return NULL;
    }
    void *piece = __libc_realloc(old, size);
    if (piece || !size) let_go(old != NULL, bytes);
    return had(piece);
}

void free(void *old) {
    if (old) let_go(1, malloc_usable_size(old));
    __libc_free(old);
}

int pthread_create(pthread_t *thread, const pthread_attr_t *how, void *(*work)(void *), void *with) {
    int (*start)(pthread_t *, const pthread_attr_t *, void *(*)(void *), void *) = dlsym(RTLD_NEXT, "pthread_create");
    if (is_start_refused()) {
        note();
        return EAGAIN;
    }
    return start(thread, how, work, with);
}

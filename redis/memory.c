/*
 * memory.c: registers get their memory from Redis, so that Redis counts it.
 *
 * libhlr calls malloc, realloc and free. The module is linked with --wrap for these three names, so that libhlr calls
 * the functions below instead. Redis then counts the memory of registers in used_memory, which maxmemory limits, and
 * the module can report the memory of each register to MEMORY USAGE.
 *
 * TryAlloc returns null when no memory is left, and the register then refuses the call. Redis's other call, Alloc,
 * would end the server. TryAlloc aligns a block as hlr.h asks if Redis was built with jemalloc or with glibc's
 * malloc.
 *
 * Redis frees unlinked values in a thread of its own. Therefore the sum over all registers is atomic, and each thread
 * counts what its own calls take.
 */
#include "hlr_redis.h"
#include <string.h>

/* The build for tests names a function here that refuses memory on request. */
#ifdef TRY_ALLOC
void *TRY_ALLOC(size_t bytes);
#else
#define TRY_ALLOC redis.TryAlloc
#endif

void *__wrap_malloc(size_t bytes);
void *__wrap_realloc(void *block, size_t bytes);
void __wrap_free(void *block);

/* The memory of all registers; and what the calls of this thread took, less what they gave back, since the last call of
 * settled. Both are modulo 2^64, so that they may fall below 0 for a moment. */
static size_t all_bytes;
static __thread size_t taken;

static void take(size_t bytes) {
    taken += bytes;
    __atomic_add_fetch(&all_bytes, bytes, __ATOMIC_RELAXED);
}

void *try_alloc(size_t bytes) { return TRY_ALLOC(bytes); }

void *__wrap_malloc(size_t bytes) {
    void *block = TRY_ALLOC(bytes);
    if (block) take(redis.MallocSize(block));
    return block;
}

void __wrap_free(void *block) {
    if (!block) return;
    take(-redis.MallocSize(block));
    redis.Free(block);
}

/* Before 7.4, Redis offers modules no realloc that can fail. So a block that has to grow or shrink is copied. */
void *__wrap_realloc(void *block, size_t bytes) {
    if (!block) return __wrap_malloc(bytes);
    size_t had = redis.MallocSize(block);
    if (bytes <= had && bytes >= had / 2) return block;
    void *moved = __wrap_malloc(bytes);
    if (!moved) return NULL;
    memcpy(moved, block, bytes < had ? bytes : had);
    __wrap_free(block);
    return moved;
}

size_t bytes_taken_here(void) {
    size_t bytes = taken;
    taken = 0;
    return bytes;
}

uint8_t settled(struct store *store, uint8_t code) {
    store->bytes += bytes_taken_here();
    return code;
}

size_t bytes_of_all(void) { return __atomic_load_n(&all_bytes, __ATOMIC_RELAXED); }

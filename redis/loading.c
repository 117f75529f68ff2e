/*
 * loading.c: loads the blocks of a register with several threads.
 *
 * The rows of a subscriber's accesses, facilities and forwardings are most of the work, and they need only the part of
 * the register that has the subscriber. So the caller's thread adds the subscribers of each block and collects the
 * blocks in a chunk. When the chunk is full, it divides the register behind the last subscriber and lends the part with
 * the chunk's subscribers to a thread, which adds the other rows. Meanwhile the caller's thread adds the next
 * subscribers to the last part, which it never lends before that part's chunk is full.
 *
 * A register has 16 parts at most. Before it would need another one, all parts come home and become one part again.
 * The trees are cut and joined at their edges, so this takes no time that depends on the number of rows.
 */
#include "rows.h"
#include <signal.h>
#include <stdlib.h>
#include <string.h>

#define MOST_PARTS 16

void loading_begin(struct loading *loading, hlr *handle, int threads, size_t (*taken_here)(void)) {
    *loading = (struct loading){.handle = handle, .threads = threads, .parts = 1, .code = HLR_DONE};
    if (threads > LOADERS) loading->threads = LOADERS;
    for (int place = 0; place <= LOADERS; place++)
        loading->chunks[place] = (struct chunk){.part = HLR_CLOSED, .code = HLR_DONE, .taken_here = taken_here};
}

/* The chunk that is being filled. There is one more than there are threads. */
static struct chunk *filling(struct loading *loading) {
    return &loading->chunks[loading->filled % (uint64_t)(loading->threads + 1)];
}

/* What a thread does: it adds the other rows of a chunk's blocks, and sends the part home. */
static void *work(void *given) {
    struct chunk *chunk = given;
    const uint8_t *block = chunk->bytes;
    for (size_t place = 0; place < chunk->blocks && chunk->code == HLR_DONE; place++) {
        chunk->code = other_rows_of_block(&chunk->part, block, chunk->lengths[place]);
        block += chunk->lengths[place];
    }
    hlr_home(&chunk->part);
    if (chunk->taken_here) chunk->taken = chunk->taken_here();
    return NULL;
}

/* Starts a thread that takes no signals, so that they still reach the server's own thread. */
static int is_started(struct chunk *chunk) {
    sigset_t all, before;
    sigfillset(&all);
    pthread_sigmask(SIG_SETMASK, &all, &before);
    chunk->is_running = !pthread_create(&chunk->thread, NULL, work, chunk);
    pthread_sigmask(SIG_SETMASK, &before, NULL);
    return chunk->is_running;
}

/* Lends a part for the other rows of the chunk's blocks. A thread adds them, or else the caller's own thread, which also
 * does so if no thread can be started. */
static uint8_t handed_over(struct loading *loading, uint64_t part, int in_thread) {
    struct chunk *chunk = filling(loading);
    uint8_t code = hlr_lend(loading->handle, part, &chunk->part);
    if (code != HLR_DONE) return code;
    if (!in_thread || !is_started(chunk)) work(chunk);
    loading->filled++;
    return HLR_DONE;
}

/* Waits for the thread that has the chunk, empties it, and returns what the register said of its rows. */
static uint8_t emptied(struct loading *loading, struct chunk *chunk) {
    if (chunk->is_running) pthread_join(chunk->thread, NULL);
    uint8_t code = chunk->code;
    loading->taken += chunk->taken;
    chunk->is_running = 0;
    chunk->blocks = chunk->used = chunk->taken = 0;
    chunk->code = HLR_DONE;
    return code;
}

/* Waits for the threads of all chunks but this one, takes in their parts, and joins all parts to one. */
static uint8_t gathered(struct loading *loading, const struct chunk *kept) {
    uint8_t code = HLR_DONE;
    hlr_region front = {0};
    for (int place = 0; place <= loading->threads; place++) {
        struct chunk *chunk = &loading->chunks[place];
        uint8_t said = chunk == kept ? HLR_DONE : emptied(loading, chunk);
        if (code == HLR_DONE) code = said;
    }
    for (uint64_t part = 0; part < loading->parts; part++) hlr_back(loading->handle, part);
    for (; loading->parts > 1 && code == HLR_DONE; loading->parts--)
        code = hlr_dissolve(loading->handle, loading->parts - 1, &front);
    return code;
}

/* Divides the register in front of the next block, whose first subscriber is this one, and hands over the chunk, which
 * is full. The chunk that is filled next is empty then. */
static uint8_t cut(struct loading *loading, uint64_t s_id) {
    hlr_region made = {0};
    uint8_t code = loading->parts < MOST_PARTS ? HLR_DONE : gathered(loading, filling(loading));
    if (code == HLR_DONE) code = hlr_divide(loading->handle, loading->parts - 1, s_id, &made);
    if (code != HLR_DONE) return code;
    loading->parts++;
    code = handed_over(loading, loading->parts - 2, 1);
    return code == HLR_DONE ? emptied(loading, filling(loading)) : code;
}

/* Copies a block, whose subscribers are added, into the chunk that is being filled. */
static uint8_t collected(struct chunk *chunk, const uint8_t *block, size_t length) {
    if (!chunk->bytes) chunk->bytes = malloc(CHUNK_BLOCKS * BLOCK_BYTES);
    if (!chunk->bytes) return HLR_MEMORY;
    memcpy(chunk->bytes + chunk->used, block, length);
    chunk->used += length;
    chunk->lengths[chunk->blocks++] = length;
    return HLR_DONE;
}

/* The first block is loaded at once, so that a small register needs no room for a chunk. */
static uint8_t added(struct loading *loading, const uint8_t *block, size_t length) {
    uint8_t code = HLR_DONE;
    if (!loading->is_begun) {
        loading->is_begun = 1;
        return rows_of_block(loading->handle, block, length);
    }
    if (filling(loading)->blocks == CHUNK_BLOCKS) code = cut(loading, first_of_block(block, length));
    if (code == HLR_DONE) code = subscribers_of_block(loading->handle, block, length);
    return code == HLR_DONE ? collected(filling(loading), block, length) : code;
}

/* Keeps the first refusal. A subscriber that doesn't lie behind the ones before it is in no part that is at home. */
static uint8_t kept(struct loading *loading, uint8_t code) {
    if (code == HLR_AWAY || code == HLR_ELSEWHERE || code == HLR_OUT_OF_RANGE) code = HLR_FIELD;
    if (loading->code == HLR_DONE) loading->code = code;
    return loading->code;
}

uint8_t loading_block(struct loading *loading, const uint8_t *block, size_t length) {
    if (loading->code != HLR_DONE || length == 0) return loading->code;
    if (loading->threads == 0) return kept(loading, rows_of_block(loading->handle, block, length));
    return kept(loading, added(loading, block, length));
}

uint8_t loading_end(struct loading *loading) {
    int is_rest = loading->code == HLR_DONE && filling(loading)->blocks > 0;
    if (is_rest) kept(loading, handed_over(loading, loading->parts - 1, 0));
    kept(loading, gathered(loading, NULL));
    for (int place = 0; place <= LOADERS; place++) free(loading->chunks[place].bytes);
    return loading->code;
}

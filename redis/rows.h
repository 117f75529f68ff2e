/*
 * rows.h: reads all rows of a register in order, and turns them into bytes and back. It needs hlr.h only, and not
 * Redis.
 */
#ifndef HLR_ROWS_H
#define HLR_ROWS_H

#include "hlr.h"
#include <pthread.h>

/* How many rows of a table one call reads at most. More rows at a time are faster, up to some hundred. */
#define PAGE_ROWS 256

/* How far a walk has come in the page of a table: the place of the next row, the number of rows in the page, and
 * whether it is the table's last page. */
struct page {
    size_t next, count;
    int is_last;
};

/* A walk over the rows of a register, subscriber by subscriber. The register must not change meanwhile. */
struct walk {
    hlr *handle;
    size_t room; /* how many rows a page has in this walk */
    struct page of_subscribers, of_accesses, of_facilities, of_forwardings;
    hlr_subscriber subscribers[PAGE_ROWS];
    hlr_access accesses[PAGE_ROWS];
    hlr_facility facilities[PAGE_ROWS];
    hlr_forwarding_row forwardings[PAGE_ROWS];
};

/* Begins a walk with the first subscriber whose s_id is at least this one. It will read `room` rows at a time, which is
 * 1..=PAGE_ROWS. It takes no memory, so a forked child may walk. */
void walk_begin(struct walk *walk, hlr *handle, uint64_t s_id, size_t room);

/* The next subscriber, or null at the end. Take all rows of a subscriber before you ask for the next one. */
const hlr_subscriber *walk_subscriber(struct walk *walk);

/* The next row of the subscriber with this s_id, or null after the last one. */
const hlr_access *walk_access(struct walk *walk, uint64_t s_id);
const hlr_facility *walk_facility(struct walk *walk, uint64_t s_id);
const hlr_forwarding_row *walk_forwarding(struct walk *walk, uint64_t s_id);

#ifndef BLOCK_BYTES
#define BLOCK_BYTES 65536
#endif

/* Writes the next rows of a walk into a block: whole subscribers, as many as fit. Returns the number of bytes, 0 at the
 * end. */
size_t block_of_rows(struct walk *walk, uint8_t block[BLOCK_BYTES]);

/*
 * Adds the rows of a block to a register that has one part, which is not lent. Every byte is checked, either here or
 * by the register. It returns HLR_FIELD if the bytes are no block, and otherwise the register's own code for the
 * first row that it refuses. The rows before that one stay in the register, so the caller should close it.
 */
uint8_t rows_of_block(hlr *handle, const uint8_t *block, size_t length);

/* The two halves of rows_of_block. The first one adds the subscribers, and checks that the block has whole subscribers.
 * The second one adds their other rows to the lent part that has them; give it only a block that the first one took. */
uint8_t subscribers_of_block(hlr *handle, const uint8_t *block, size_t length);
uint8_t other_rows_of_block(hlr_part *part, const uint8_t *block, size_t length);

/* The s_id of the first subscriber of a block, or 0 if the bytes are no block. */
uint64_t first_of_block(const uint8_t *block, size_t length);

/* ---- loading.c: a register is loaded by several threads ---- */

/* How many threads add rows at most, and the number of blocks in the chunk that one of them gets at a time. A test has
 * smaller chunks and blocks. */
#define LOADERS 4
#ifndef CHUNK_BLOCKS
#define CHUNK_BLOCKS 16
#endif

struct chunk {
    hlr_part part;
    uint8_t *bytes; /* room for CHUNK_BLOCKS blocks */
    size_t lengths[CHUNK_BLOCKS], blocks, used;
    pthread_t thread;
    int is_running; /* whether a thread has the chunk */
    uint8_t code;   /* what the register said of its rows */
    size_t taken;   /* the memory that its thread took */
    size_t (*taken_here)(void);
};

/* A register into which blocks are being loaded. */
struct loading {
    hlr *handle;
    int threads;
    size_t taken; /* the memory that all threads took */
    uint64_t parts;
    int is_begun;    /* whether a block was loaded */
    uint64_t filled; /* how many chunks were handed over */
    uint8_t code;    /* the first refusal */
    struct chunk chunks[LOADERS + 1];
};

/*
 * Begins to load a register that is empty and has one part. Up to LOADERS threads add rows; with 0 the caller's own
 * thread does everything. `taken_here`, which may be null, returns what its thread took since it was last called.
 */
void loading_begin(struct loading *loading, hlr *handle, int threads, size_t (*taken_here)(void));

/* Loads the next block, of at most BLOCK_BYTES bytes, whose subscribers lie behind those of the block before. It returns
 * as rows_of_block does, but the code may be that of an earlier block. Call loading_end in any case. */
uint8_t loading_block(struct loading *loading, const uint8_t *block, size_t length);

/* Waits until all rows are added, and makes one part of the register again. It returns HLR_DONE, or the code of the
 * first row that was refused; the register should be closed then. `taken` has its sum. */
uint8_t loading_end(struct loading *loading);

#endif

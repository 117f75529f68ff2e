/*
 * blocks.c: blocks of rows without a server: a register goes out as blocks and comes back with the same rows and counts,
 * with any number of threads; damaged blocks are refused or add rows in range, with right counts; so are blocks out of
 * order; and a load that is refused memory gives everything back. Prints what went wrong, and nothing else. It is linked
 * with --wrap=malloc.
 *
 *     blocks [TURNS]
 */
#include "rows.h"
#include <stdio.h>
#include <stdlib.h>
#include <string.h>

#define SUBSCRIBERS 3000
#define ROOM 40

static int wrong;

static void expect(int is_so, const char *what) {
    if (is_so || wrong > 9) return;
    printf("%s\n", what);
    wrong++;
}

static uint64_t drawn_below(uint64_t bound) {
    static uint64_t state = 88172645463325252u;
    state ^= state << 13;
    state ^= state >> 7;
    state ^= state << 17;
    return (state >> 11) % bound;
}

static void letters(uint8_t *to, int count) {
    for (; count > 0; count--) *to++ = (uint8_t)('A' + drawn_below(26));
}

/* A subscriber whose rows take the number's bits: so all combinations of rows come. */
static void add(hlr *handle, uint64_t s_id, uint64_t kinds) {
    hlr_subscriber row = {.s_id = s_id, .sub_nbr = 20000000 - s_id, .msc_location = 1 + drawn_below(4294967295), .vlr_location = 1 + drawn_below(4294967295)};
    for (int place = 0; place < 10; place++) {
        row.bits[place] = (uint8_t)drawn_below(2);
        row.hexes[place] = (uint8_t)drawn_below(16);
        row.bytes[place] = (uint8_t)drawn_below(256);
    }
    expect(hlr_add_subscriber(handle, &row) == HLR_DONE, "a subscriber is added");
    for (uint64_t type = 1; type <= 4; type++) {
        hlr_access access = {.s_id = s_id, .ai_type = type, .data1 = drawn_below(256), .data2 = drawn_below(256)};
        hlr_facility facility = {.s_id = s_id, .sf_type = type, .is_active = drawn_below(2), .error_cntrl = drawn_below(256), .data_a = drawn_below(256)};
        letters(access.data3, 3);
        letters(access.data4, 5);
        letters(facility.data_b, 5);
        if (kinds >> (type - 1) & 1) expect(hlr_add_access(handle, &access) == HLR_DONE, "an access is added");
        if (!(kinds >> (type + 3) & 1)) continue;
        expect(hlr_add_facility(handle, &facility) == HLR_DONE, "a facility is added");
        for (uint64_t start = 0; start <= 16; start += 8)
            if (drawn_below(2)) expect(hlr_insert_forwarding(handle, row.sub_nbr, type, start, start + 1 + drawn_below(8), drawn_below(1000000000000000)) == HLR_DONE, "a forwarding is added");
    }
}

static int same_counts(hlr *handle, const uint64_t wanted[HLR_CELLS]) {
    uint64_t counted[HLR_CELLS] = {0};
    int64_t published[HLR_CELLS] = {0}, unposted[HLR_CELLS] = {0};
    hlr_scan(handle, counted);
    hlr_views(handle, published, unposted);
    for (int cell = 0; cell < HLR_CELLS; cell++)
        if (counted[cell] != (uint64_t)(published[cell] + unposted[cell]) || (wanted && counted[cell] != wanted[cell])) return 0;
    return 1;
}

/* All blocks of a register go into another one: their sum of bytes. */
static size_t copied(hlr *from, hlr *to) {
    struct walk walk;
    uint8_t *block = malloc(BLOCK_BYTES);
    size_t length, sum = 0;
    walk_begin(&walk, from, 0, PAGE_ROWS);
    while ((length = block_of_rows(&walk, block)) > 0) {
        expect(rows_of_block(to, block, length) == HLR_DONE, "a block is loaded");
        sum += length;
    }
    free(block);
    return sum;
}

/* How many allocations are still made before one is refused, or a negative number if none is. */
static long left = -1;

void *__real_malloc(size_t bytes);
void *__wrap_malloc(size_t bytes);

void *__wrap_malloc(size_t bytes) {
    long before = __atomic_load_n(&left, __ATOMIC_RELAXED);
    if (before >= 0 && __atomic_fetch_sub(&left, 1, __ATOMIC_RELAXED) == 0) return NULL;
    return __real_malloc(bytes);
}

/* Both registers have the same rows, as blocks. */
static int same_rows(hlr *one, hlr *two) {
    struct walk first, second;
    uint8_t *left = malloc(BLOCK_BYTES), *right = malloc(BLOCK_BYTES);
    size_t length;
    int is_same;
    walk_begin(&first, one, 0, PAGE_ROWS);
    walk_begin(&second, two, 0, 3);
    do {
        length = block_of_rows(&first, left);
        is_same = block_of_rows(&second, right) == length && memcmp(left, right, length) == 0;
    } while (is_same && length > 0);
    free(left);
    free(right);
    return is_same;
}

static void whole(void) {
    hlr one = HLR_CLOSED, two = HLR_CLOSED;
    uint64_t counts[HLR_CELLS] = {0};
    hlr_open(1, 100, &one);
    hlr_open(1, 100, &two);
    expect(copied(&one, &two) == 0, "an empty register has no block");
    for (uint64_t place = 0; place < SUBSCRIBERS; place++) add(&one, 1 + place * 7 + (place > 2000 ? 16000000 - 14000 : 0), place);
    hlr_scan(&one, counts);
    expect(copied(&one, &two) > 3 * BLOCK_BYTES, "a register has several blocks");
    expect(same_rows(&one, &two), "all rows come back");
    expect(same_counts(&two, counts), "all counts come back");
    hlr_close(&one);
    hlr_close(&two);
}

/* Changes some bytes, cuts the block off, moves a stretch, or draws all of it. */
static size_t damage(uint8_t *block, size_t length) {
    size_t at = drawn_below(length), many = drawn_below(length - at);
    switch (drawn_below(4)) {
    case 0: return at;
    case 1: memmove(block + at, block + at + many, length - at - many); return length - many;
    case 2:
        for (size_t place = 0; place < length; place++) block[place] = (uint8_t)drawn_below(256);
        return length;
    default:
        for (uint64_t changes = 1 + drawn_below(4); changes > 0; changes--) block[drawn_below(length)] ^= (uint8_t)(1 << drawn_below(8));
        return length;
    }
}

static void damaged(long turns) {
    struct walk walk;
    hlr one = HLR_CLOSED;
    long done = 0;
    uint8_t *good = malloc(BLOCK_BYTES);
    hlr_open(1, 4, &one);
    for (uint64_t s_id = 1; s_id <= ROOM; s_id++) add(&one, s_id, drawn_below(256));
    walk_begin(&walk, &one, 0, PAGE_ROWS);
    size_t length = block_of_rows(&walk, good);
    for (long turn = 0; turn < turns; turn++) {
        hlr two = HLR_CLOSED;
        uint8_t *bad = malloc(length); /* its own piece of memory, so that a sanitizer sees a read behind its end */
        memcpy(bad, good, length);
        size_t left = damage(bad, length);
        bad = realloc(bad, left > 0 ? left : 1);
        hlr_open(1, 4, &two);
        done += rows_of_block(&two, bad, left) == HLR_DONE;
        expect(same_counts(&two, NULL), "counts of a damaged block are those of its rows");
        hlr_part part = HLR_CLOSED;
        expect(hlr_lend(&two, 0, &part) == HLR_DONE, "the part is at home behind a damaged block");
        hlr_home(&part);
        hlr_close(&two);
        free(bad);
    }
    expect(done > turns / 50 && done < turns / 2, "some damaged blocks are refused, and some are not");
    free(good);
    hlr_close(&one);
}

/* The blocks of a register, in memory of their own. */
struct blocks {
    size_t count, lengths[256];
    uint8_t *block[256];
};

static void taken_out(hlr *handle, struct blocks *blocks) {
    struct walk walk;
    uint8_t *block = malloc(BLOCK_BYTES);
    blocks->count = 0;
    walk_begin(&walk, handle, 0, PAGE_ROWS);
    for (size_t length; (length = block_of_rows(&walk, block)) > 0; blocks->count++) {
        expect(blocks->count < 256, "there is room for all blocks");
        blocks->lengths[blocks->count] = length;
        blocks->block[blocks->count] = memcpy(malloc(length), block, length);
    }
    free(block);
}

/* Loads the blocks, of which the one at `swapped` and the next one come in the other order. */
static uint8_t loaded(const struct blocks *blocks, hlr *to, int threads, size_t swapped) {
    struct loading loading;
    uint8_t code = HLR_DONE;
    loading_begin(&loading, to, threads, NULL);
    for (size_t place = 0; place < blocks->count && code == HLR_DONE; place++) {
        size_t at = place == swapped ? place + 1 : place == swapped + 1 ? place - 1 : place;
        code = loading_block(&loading, blocks->block[at], blocks->lengths[at]);
    }
    uint8_t ended = loading_end(&loading);
    expect(code == HLR_DONE || ended == code, "a refused block stays refused at the end");
    return ended;
}

/* Whether a register has one part and no loose piece. */
static int is_one_part(hlr *handle) {
    hlr_region_list regions = {0};
    return hlr_regions(handle, &regions) == HLR_DONE && regions.count == 1;
}

static void threads_load(hlr *one, const struct blocks *blocks, const uint64_t counts[HLR_CELLS]) {
    for (int threads = 0; threads <= LOADERS; threads++) {
        hlr two = HLR_CLOSED;
        hlr_open(1, 100, &two);
        expect(loaded(blocks, &two, threads, 1000) == HLR_DONE, "threads load all blocks");
        expect(same_rows(one, &two), "threads load all rows");
        expect(same_counts(&two, counts), "threads count all rows");
        expect(is_one_part(&two), "one part is left");
        hlr_close(&two);
    }
}

/* Blocks in another order are refused, or add the same rows, and the counts are right in both cases. */
static void out_of_order(hlr *one, const struct blocks *blocks) {
    size_t refused = 0;
    for (size_t swapped = 0; swapped + 1 < blocks->count; swapped += 3) {
        hlr two = HLR_CLOSED;
        hlr_open(1, 100, &two);
        uint8_t code = loaded(blocks, &two, 2, swapped);
        refused += code == HLR_FIELD;
        expect(code == HLR_FIELD || (code == HLR_DONE && same_rows(one, &two)), "blocks out of order are refused, or add the same rows");
        expect(same_counts(&two, NULL), "counts of blocks out of order are those of the rows");
        hlr_close(&two);
    }
    expect(blocks->count <= CHUNK_BLOCKS || refused > 0, "some blocks out of order are refused");
}

/* Refuses each allocation of a load in turn. What was loaded until then is given back, which a sanitizer sees. */
static void without_memory(const struct blocks *blocks) {
    uint8_t code = HLR_MEMORY;
    for (long made = 0; code == HLR_MEMORY; made += 1 + made / 8) {
        hlr two = HLR_CLOSED;
        hlr_open(1, 100, &two);
        __atomic_store_n(&left, made, __ATOMIC_RELAXED);
        code = loaded(blocks, &two, 3, 1000);
        __atomic_store_n(&left, -1, __ATOMIC_RELAXED);
        expect(code == HLR_MEMORY || code == HLR_DONE, "a load is refused for memory alone");
        expect(same_counts(&two, NULL), "counts of a refused load are those of its rows");
        hlr_close(&two);
    }
}

static void threads(void) {
    static struct blocks blocks;
    hlr one = HLR_CLOSED;
    uint64_t counts[HLR_CELLS] = {0};
    hlr_open(1, 100, &one);
    for (uint64_t place = 0; place < SUBSCRIBERS / 2; place++) add(&one, 1 + place * 7, place);
    hlr_scan(&one, counts);
    taken_out(&one, &blocks);
    threads_load(&one, &blocks, counts);
    out_of_order(&one, &blocks);
    without_memory(&blocks);
    for (size_t place = 0; place < blocks.count; place++) free(blocks.block[place]);
    hlr_close(&one);
}

int main(int argc, char **argv) {
    whole();
    threads();
    damaged(argc > 1 ? atol(argv[1]) : 2000);
    return wrong > 0;
}

/*
 * rows.c: rows as bytes, for RDB and AOF files, DUMP, COPY and digests.
 *
 * A block has whole subscribers, one behind the other. Numbers are little-endian. Of each subscriber it has:
 *
 *     4 s_id    7 sub_nbr    2 bits, bit_1 lowest    5 hexes, hex_1 lowest    10 bytes    4 msc_location    4 vlr_location
 *     3 kinds: 4 bits for the ai_types that it has, 4 for the sf_types, 4 for those of these that are active, and for
 *              each sf_type 3 bits for the start times 0, 8 and 16 of its forwardings
 *     10 of each access: 1 data1    1 data2    3 data3    5 data4
 *     7 of each facility: 1 error_cntrl    1 data_a    5 data_b
 *     8 of each forwarding: 1 end_time    7 numberx
 *
 * So s_id is written once for all rows of a subscriber, and types and start times take only bits. The length of a
 * subscriber follows from its kinds.
 */
#include "rows.h"
#include <string.h>

#define HEAD 39
#define KINDS 36
#define ACCESS 10
#define FACILITY 7
#define FORWARDING 8
#define MOST (HEAD + 4 * ACCESS + 4 * FACILITY + 12 * FORWARDING)

#define ACCESSES(kinds) ((kinds) & 15)
#define FACILITIES(kinds) ((kinds) >> 4 & 15)
#define ACTIVE(kinds) ((kinds) >> 8 & 15)
#define STARTS(kinds) ((kinds) >> 12)

/* put and get copy numbers as they are in memory, which has the lowest byte first. */
_Static_assert(__BYTE_ORDER__ == __ORDER_LITTLE_ENDIAN__, "blocks are little-endian");

static inline uint8_t *put(uint8_t *to, uint64_t number, size_t bytes) {
    memcpy(to, &number, bytes);
    return to + bytes;
}

static inline uint64_t get(const uint8_t *from, size_t bytes) {
    uint64_t number = 0;
    memcpy(&number, from, bytes);
    return number;
}

static inline uint8_t *put_bytes(uint8_t *to, const uint8_t *from, size_t bytes) {
    memcpy(to, from, bytes);
    return to + bytes;
}

/* ---- rows to bytes ---- */

static uint8_t *put_subscriber(uint8_t *to, const hlr_subscriber *row) {
    uint64_t bits = 0, hexes = 0;
    for (int place = 0; place < 10; place++) {
        bits |= (uint64_t)row->bits[place] << place;
        hexes |= (uint64_t)row->hexes[place] << 4 * place;
    }
    to = put(put(put(put(to, row->s_id, 4), row->sub_nbr, 7), bits, 2), hexes, 5);
    return put(put(put_bytes(to, row->bytes, 10), row->msc_location, 4), row->vlr_location, 4);
}

/* Writes all rows of a subscriber. Its kinds are written last, because they are only known then. */
static uint8_t *put_rows(uint8_t *to, struct walk *walk, const hlr_subscriber *subscriber) {
    const hlr_access *access;
    const hlr_facility *facility;
    const hlr_forwarding_row *forwarding;
    uint64_t kinds = 0, s_id = subscriber->s_id;
    uint8_t *head = to;
    to = put_subscriber(to, subscriber) + HEAD - KINDS;
    while ((access = walk_access(walk, s_id))) {
        kinds |= (uint64_t)1 << (access->ai_type - 1);
        to = put(put(to, access->data1, 1), access->data2, 1);
        to = put_bytes(put_bytes(to, access->data3, 3), access->data4, 5);
    }
    while ((facility = walk_facility(walk, s_id))) {
        kinds |= (0x10 | facility->is_active << 8) << (facility->sf_type - 1);
        to = put_bytes(put(put(to, facility->error_cntrl, 1), facility->data_a, 1), facility->data_b, 5);
    }
    while ((forwarding = walk_forwarding(walk, s_id))) {
        kinds |= (uint64_t)0x1000 << (3 * (forwarding->sf_type - 1) + forwarding->start_time / 8);
        to = put(put(to, forwarding->end_time, 1), forwarding->numberx, 7);
    }
    put(head + KINDS, kinds, 3);
    return to;
}

size_t block_of_rows(struct walk *walk, uint8_t block[BLOCK_BYTES]) {
    const hlr_subscriber *subscriber;
    uint8_t *to = block;
    while (to + MOST <= block + BLOCK_BYTES && (subscriber = walk_subscriber(walk))) to = put_rows(to, walk, subscriber);
    return (size_t)(to - block);
}

/* ---- bytes to rows: one pass over the block for each table, because that is faster than subscriber by subscriber
 * ---- */

/* How many of four bits are set. */
static inline size_t ones(uint64_t bits) {
    static const uint8_t counts[16] = {0, 1, 1, 2, 1, 2, 2, 3, 1, 2, 2, 3, 2, 3, 3, 4};
    return counts[bits & 15];
}

/* How many bytes a subscriber has before its facilities, before its forwardings, and in all. */
static inline size_t before_facilities(uint64_t kinds) { return HEAD + ACCESS * ones(ACCESSES(kinds)); }
static inline size_t before_forwardings(uint64_t kinds) { return before_facilities(kinds) + FACILITY * ones(FACILITIES(kinds)); }
static inline size_t length_of(uint64_t kinds) {
    uint64_t starts = STARTS(kinds);
    return before_forwardings(kinds) + FORWARDING * (ones(starts) + ones(starts >> 4) + ones(starts >> 8));
}

/* Whether only facilities that exist are active or have forwardings. */
static int is_kinds(uint64_t kinds) {
    uint64_t facilities = FACILITIES(kinds), starts = STARTS(kinds);
    for (int type = 0; type < 4; type++)
        if (!(facilities >> type & 1) && (starts >> 3 * type & 7)) return 0;
    return !(ACTIVE(kinds) & ~facilities);
}

static uint8_t add_subscriber_of(hlr *handle, const uint8_t *head) {
    hlr_subscriber row = {
        .s_id = get(head, 4),
        .sub_nbr = get(head + 4, 7),
        .msc_location = get(head + 28, 4),
        .vlr_location = get(head + 32, 4),
    };
    uint64_t bits = get(head + 11, 2), hexes = get(head + 13, 5);
    if (bits >> 10) return HLR_FIELD;
    for (int place = 0; place < 10; place++) {
        row.bits[place] = bits >> place & 1;
        row.hexes[place] = hexes >> 4 * place & 15;
    }
    memcpy(row.bytes, head + 18, sizeof row.bytes);
    return hlr_add_subscriber(handle, &row);
}

/* The first pass, which also checks that the block consists of whole subscribers. */
uint8_t subscribers_of_block(hlr *handle, const uint8_t *block, size_t length) {
    const uint8_t *end = block + length;
    uint8_t code = HLR_DONE;
    while (block < end && code == HLR_DONE) {
        uint64_t kinds = end - block < HEAD ? 0 : get(block + KINDS, 3);
        if (end - block < HEAD || (size_t)(end - block) < length_of(kinds) || !is_kinds(kinds)) return HLR_FIELD;
        code = add_subscriber_of(handle, block);
        block += length_of(kinds);
    }
    return code;
}

static uint8_t add_accesses(hlr_part *part, const uint8_t *block, const uint8_t *end) {
    for (uint64_t kinds; block < end; block += length_of(kinds)) {
        const uint8_t *at = block + HEAD;
        kinds = get(block + KINDS, 3);
        for (uint64_t type = 1; type <= 4; type++) {
            if (!(ACCESSES(kinds) >> (type - 1) & 1)) continue;
            hlr_access row = {.s_id = get(block, 4), .ai_type = type, .data1 = at[0], .data2 = at[1]};
            memcpy(row.data3, at + 2, sizeof row.data3);
            memcpy(row.data4, at + 5, sizeof row.data4);
            uint8_t code = hlr_part_add_access(part, &row);
            if (code != HLR_DONE) return code;
            at += ACCESS;
        }
    }
    return HLR_DONE;
}

static uint8_t add_facilities(hlr_part *part, const uint8_t *block, const uint8_t *end) {
    for (uint64_t kinds; block < end; block += length_of(kinds)) {
        kinds = get(block + KINDS, 3);
        const uint8_t *at = block + before_facilities(kinds);
        for (uint64_t type = 1; type <= 4; type++) {
            if (!(FACILITIES(kinds) >> (type - 1) & 1)) continue;
            hlr_facility row = {
                .s_id = get(block, 4),
                .sf_type = type,
                .is_active = ACTIVE(kinds) >> (type - 1) & 1,
                .error_cntrl = at[0],
                .data_a = at[1],
            };
            memcpy(row.data_b, at + 2, sizeof row.data_b);
            uint8_t code = hlr_part_add_facility(part, &row);
            if (code != HLR_DONE) return code;
            at += FACILITY;
        }
    }
    return HLR_DONE;
}

static uint8_t add_forwardings(hlr_part *part, const uint8_t *block, const uint8_t *end) {
    for (uint64_t kinds; block < end; block += length_of(kinds)) {
        kinds = get(block + KINDS, 3);
        const uint8_t *at = block + before_forwardings(kinds);
        for (uint64_t start = 0; start < 12; start++) {
            if (!(STARTS(kinds) >> start & 1)) continue;
            uint8_t code =
                hlr_part_insert_forwarding(part, get(block, 4), 1 + start / 3, start % 3 * 8, at[0], get(at + 1, 7));
            if (code != HLR_DONE) return code;
            at += FORWARDING;
        }
    }
    return HLR_DONE;
}

uint64_t first_of_block(const uint8_t *block, size_t length) { return length < HEAD ? 0 : get(block, 4); }

uint8_t other_rows_of_block(hlr_part *part, const uint8_t *block, size_t length) {
    const uint8_t *end = block + length;
    uint8_t code = add_accesses(part, block, end);
    if (code == HLR_DONE) code = add_facilities(part, block, end);
    if (code == HLR_DONE) code = add_forwardings(part, block, end);
    return code;
}

/* The register's own call adds a forwarding by the subscriber's number, and so has to look each number up. The
 * calls on a lent part take the s_id instead. So the part is lent while the rows of the last three tables are
 * added. */
uint8_t rows_of_block(hlr *handle, const uint8_t *block, size_t length) {
    hlr_part part = HLR_CLOSED;
    uint8_t code = subscribers_of_block(handle, block, length);
    if (code == HLR_DONE) code = hlr_lend(handle, 0, &part);
    if (code != HLR_DONE) return code;
    code = other_rows_of_block(&part, block, length);
    hlr_home(&part);
    hlr_back(handle, 0);
    return code;
}

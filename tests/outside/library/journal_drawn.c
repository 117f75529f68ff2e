/* Drawn changes of two registers, of which one keeps its rows in a journal: both return the same codes, a change that is
 * done adds the line of its kind and no other one adds any, and after each reopening both have the same rows and counts.
 *
 *   journal_drawn PATH CHANGES SEED     prints what went wrong, and nothing else */
#define _XOPEN_SOURCE 700
#include "hlr.h"
#include <inttypes.h>
#include <stdio.h>
#include <stdlib.h>
#include <string.h>

#define PAGE 64
#define PARTS 2
#define WIDTH 2 /* so part 1 begins at 33 */

static hlr plain = HLR_CLOSED, kept = HLR_CLOSED;
static hlr_file file = HLR_FILE_CLOSED;
static const char *path;
static uint64_t number; /* of the change */
static int wrong;

static void expect(int is_so, const char *what) {
    if (is_so || wrong > 9) return;
    printf("change %" PRIu64 ": %s\n", number, what);
    wrong++;
}

static uint64_t below(uint64_t end) { return (uint64_t)random() % end; }

static uint64_t unsynced(void) {
    uint64_t bytes = 0;
    expect(hlr_unsynced(&kept, &bytes) == HLR_DONE, "unsynced");
    return bytes;
}

/* Compares what both registers return, and by how many bytes of lines the journal has grown. */
static void same(uint8_t wanted, uint8_t code, uint64_t before, uint64_t line) {
    expect(code == wanted, "another code");
    expect(unsynced() - before == (code == HLR_DONE ? line : 0), "another number of bytes");
}

/* Makes the same call on both registers, with words that have no effect of their own. */
#define BOTH(line, name, ...)                                       \
    do {                                                            \
        uint64_t before = unsynced();                               \
        uint8_t wanted = name(&plain, __VA_ARGS__);                 \
        same(wanted, name(&kept, __VA_ARGS__), before, line);       \
    } while (0)

static void letters(uint8_t *text, int count) {
    for (int at = 0; at < count; at++) text[at] = (uint8_t)('A' + below(27) % 26);
}

static void add_row(uint64_t s_id, uint64_t type) {
    hlr_subscriber row = {.s_id = s_id, .sub_nbr = below(80), .msc_location = 1 + below(9), .vlr_location = below(UINT32_MAX)};
    hlr_access access = {.s_id = s_id, .ai_type = type, .data1 = below(257), .data2 = below(256)};
    hlr_facility facility = {.s_id = s_id, .sf_type = type, .is_active = below(2), .error_cntrl = below(257), .data_a = below(256)};
    for (int at = 0; at < 10; at++) {
        row.bits[at] = (uint8_t)below(2);
        row.hexes[at] = (uint8_t)below(16);
        row.bytes[at] = (uint8_t)below(256);
    }
    letters(access.data3, 3);
    letters(access.data4, 5);
    letters(facility.data_b, 5);
    switch (below(3)) {
    case 0: BOTH(44, hlr_add_subscriber, &row); break;
    case 1: BOTH(19, hlr_add_access, &access); break;
    default: BOTH(17, hlr_add_facility, &facility);
    }
}

static void change(void) {
    uint64_t s_id = below(64), type = below(20) ? 1 + below(4) : below(6), hour = below(20) ? 8 * below(3) : below(25);
    uint64_t sub_nbr = below(80), location = below(UINT32_MAX), flag = below(2), data = below(257), end = below(26);
    switch (below(8)) {
    case 0: BOTH(10, hlr_update_subscriber, s_id, type, flag, data); break;
    case 1: BOTH(15, hlr_update_location, sub_nbr, location); break;
    case 2: BOTH(21, hlr_insert_forwarding, sub_nbr, type, hour, end, location); break;
    case 3: BOTH(12, hlr_delete_forwarding, sub_nbr, type, hour); break;
    case 4: BOTH(8, hlr_set_active, s_id, type, flag); break;
    case 5: BOTH(14, hlr_set_number, s_id, sub_nbr); break;
    default: add_row(s_id, type);
    }
}

/* Loosens a piece of both registers, or has it taken. */
static void move(void) {
    static int is_loose;
    hlr_region piece = {0};
    uint64_t at = 40 + below(20);
    if (is_loose) BOTH(0, hlr_take, 1, 1);
    else BOTH(0, hlr_give, 1, HLR_HIGH, at, &piece);
    is_loose = !is_loose;
}

static int same_subscribers(const hlr_subscriber *one, const hlr_subscriber *other) {
    return one->s_id == other->s_id && one->sub_nbr == other->sub_nbr && memcmp(one->bits, other->bits, 30) == 0 &&
           one->msc_location == other->msc_location && one->vlr_location == other->vlr_location;
}

/* Compares the rows of all tables, page by page. */
static void compare_rows(void) {
    static hlr_subscriber subscribers[2][PAGE];
    static hlr_access accesses[2][4 * PAGE];
    static hlr_facility facilities[2][4 * PAGE];
    static hlr_forwarding_row forwardings[2][12 * PAGE];
    hlr *handles[2] = {&plain, &kept};
    uint64_t counts[4][2] = {{0}};
    for (int at = 0; at < 2; at++) {
        expect(hlr_next_subscribers(handles[at], 0, subscribers[at], PAGE, &counts[0][at]) == HLR_DONE, "a page");
        expect(hlr_next_accesses(handles[at], 0, 0, accesses[at], 4 * PAGE, &counts[1][at]) == HLR_DONE, "a page");
        expect(hlr_next_facilities(handles[at], 0, 0, facilities[at], 4 * PAGE, &counts[2][at]) == HLR_DONE, "a page");
        expect(hlr_next_forwardings(handles[at], 0, 0, 0, forwardings[at], 12 * PAGE, &counts[3][at]) == HLR_DONE, "a page");
    }
    for (int table = 0; table < 4; table++) expect(counts[table][0] == counts[table][1], "another number of rows");
    for (uint64_t at = 0; at < counts[0][0]; at++)
        expect(same_subscribers(&subscribers[0][at], &subscribers[1][at]), "another subscriber");
    expect(memcmp(accesses[0], accesses[1], counts[1][0] * sizeof(hlr_access)) == 0, "another access");
    for (uint64_t at = 0; at < counts[2][0]; at++)
        expect(memcmp(&facilities[0][at], &facilities[1][at], offsetof(hlr_facility, data_b) + 5) == 0, "another facility");
    expect(memcmp(forwardings[0], forwardings[1], counts[3][0] * sizeof(hlr_forwarding_row)) == 0, "another forwarding");
}

static void compare_counts(void) {
    uint64_t counts[2][HLR_CELLS] = {{0}};
    int64_t published[HLR_CELLS] = {0}, unposted[HLR_CELLS] = {0};
    expect(hlr_scan(&plain, counts[0]) == HLR_DONE && hlr_scan(&kept, counts[1]) == HLR_DONE, "a scan");
    expect(memcmp(counts[0], counts[1], sizeof counts[0]) == 0, "another count");
    expect(hlr_views(&kept, published, unposted) == HLR_DONE, "views");
    for (int cell = 0; cell < HLR_CELLS; cell++)
        expect(published[cell] + unposted[cell] == (int64_t)counts[1][cell], "a cell isn't its count");
}

static void open_file(void) {
    uint8_t code = hlr_file_open(&file, path, &kept, PARTS, WIDTH);
    if (code == HLR_DONE) return;
    printf("change %" PRIu64 ": opening is %s\n", number, hlr_code_name(code));
    exit(1);
}

/* Closes the register, with what isn't synced or right behind a sync, and opens it again. */
static void reopen(void) {
    if (below(2)) {
        expect(hlr_sync(&kept) == HLR_DONE && hlr_close(&kept) == HLR_DONE, "a close behind a sync");
        expect(hlr_file_close(&file, &kept) == HLR_NOT_OPEN, "a close of the file alone");
    } else {
        expect(hlr_file_close(&file, &kept) == HLR_DONE, "a close");
    }
    open_file();
    expect(unsynced() == 0, "something is unsynced at first");
}

int main(int count, char **words) {
    if (count != 4) return 2;
    path = words[1];
    srandom((unsigned)atol(words[3]));
    if (hlr_open(PARTS, WIDTH, &plain) != HLR_DONE) return 2;
    open_file();
    for (uint64_t all = strtoull(words[2], NULL, 10), loose = 0; number < all && wrong < 10; number++) {
        change();
        if (below(97) == 0) move(), loose = !loose;
        if (below(41) == 0) expect(hlr_sync(&kept) == HLR_DONE && unsynced() == 0, "a sync");
        if (below(701) == 0) expect(hlr_file_snapshot(&file, &kept) == HLR_DONE && unsynced() == 0, "a snapshot");
        if (below(501) != 0) continue;
        if (loose) move(), loose = 0;
        reopen();
        compare_rows();
        compare_counts();
    }
    compare_rows();
    expect(hlr_file_close(&file, &kept) == HLR_DONE && hlr_close(&plain) == HLR_DONE, "the end");
    return wrong;
}

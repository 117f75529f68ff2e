/* Pages of each table show each row exactly once, in the order of the keys, and the places behind a page stay as they
 * were: over thousands of rows, so over many nodes of a tree, in several parts and loose pieces, by rooms of 0, 1, 31,
 * 32, 33, 1000 and 10000 rows. What they show is what the calls for one row read. Prints each line that fails. */
#include "hlr.h"
#include <stdio.h>
#include <string.h>

enum { SUBSCRIBERS = 3000, ROOM = 10000 };

static hlr handle = HLR_CLOSED;
static int failed;

#define IS(what) (what) ? (void)0 : (failed = 1, (void)printf("line %d: %s\n", __LINE__, #what))
#define DONE(call) IS((call) == HLR_DONE)

static hlr_subscriber subscribers[ROOM + 1];
static hlr_access accesses[ROOM + 1];
static hlr_facility facilities[ROOM + 1];
static hlr_forwarding_row forwardings[ROOM + 1];

/* which rows there are: none of some subscribers, up to four accesses and facilities, up to three forwardings of each */
static int has_subscriber(uint64_t s_id) { return s_id % 7 != 3; }
static int has_type(uint64_t s_id, uint64_t type) { return has_subscriber(s_id) && (s_id + type) % 3 != 0; }
static int has_forwarding(uint64_t s_id, uint64_t type, uint64_t start) {
    return has_type(s_id, type) && (s_id + type + start / 8) % 4 != 1;
}

/* adds them from the last subscriber to the first */
static void fill(void) {
    hlr_subscriber row = {.msc_location = 1, .vlr_location = 1};
    hlr_access access = {.data3 = "AAA", .data4 = {'A', 'A', 'A', 'A', 'A'}};
    hlr_facility facility = {.is_active = 1, .data_b = {'A', 'A', 'A', 'A', 'A'}};
    for (uint64_t s_id = SUBSCRIBERS; s_id > 0; s_id--) {
        if (!has_subscriber(s_id)) continue;
        row.s_id = access.s_id = facility.s_id = s_id;
        row.sub_nbr = 5 * s_id;
        DONE(hlr_add_subscriber(&handle, &row));
        for (uint64_t type = 1; type <= 4; type++) {
            access.ai_type = facility.sf_type = type;
            access.data1 = facility.data_a = (s_id + type) % 256;
            if (!has_type(s_id, type)) continue;
            DONE(hlr_add_access(&handle, &access));
            DONE(hlr_add_facility(&handle, &facility));
            for (uint64_t start = 0; start < 24; start += 8)
                if (has_forwarding(s_id, type, start))
                    DONE(hlr_insert_forwarding(&handle, row.sub_nbr, type, start, start + 3, 10 * s_id + type));
        }
    }
}

/* the place behind a page is as it was */
static int is_untouched(const void *place, size_t size) {
    const unsigned char *bytes = place;
    while (size && bytes[--size] == 0xee) {}
    return size == 0;
}
#define UNTOUCHED(rows, count) IS(is_untouched(&(rows)[count], sizeof *(rows)))

/* One walk over each table by pages of this room: how many rows each one has that there are, in their order. */
static uint64_t all_subscribers(uint64_t room) {
    uint64_t from = 0, count = 0, shown = 0, s_id = 0;
    do {
        memset(subscribers, 0xee, sizeof subscribers);
        DONE(hlr_next_subscribers(&handle, from, subscribers, room, &count));
        UNTOUCHED(subscribers, count);
        for (uint64_t place = 0; place < count; place++, shown++) {
            do s_id++;
            while (!has_subscriber(s_id));
            IS(subscribers[place].s_id == s_id && subscribers[place].sub_nbr == 5 * s_id);
        }
        from = s_id + 1;
    } while (count == room && room);
    return shown;
}

static uint64_t all_accesses(uint64_t room) {
    uint64_t count = 0, shown = 0, s_id = 0, type = 4;
    hlr_access last = {0};
    do {
        memset(accesses, 0xee, sizeof accesses);
        DONE(hlr_next_accesses(&handle, last.s_id, last.ai_type + 1, accesses, room, &count));
        UNTOUCHED(accesses, count);
        for (uint64_t place = 0; place < count; place++, shown++) {
            do s_id += type == 4, type = type % 4 + 1;
            while (!has_type(s_id, type));
            last = accesses[place];
            IS(last.s_id == s_id && last.ai_type == type && last.data1 == (s_id + type) % 256);
        }
    } while (count == room && room);
    return shown;
}

static uint64_t all_facilities(uint64_t room) {
    uint64_t count = 0, shown = 0, s_id = 0, type = 4;
    hlr_facility last = {0};
    do {
        memset(facilities, 0xee, sizeof facilities);
        DONE(hlr_next_facilities(&handle, last.s_id, last.sf_type + 1, facilities, room, &count));
        UNTOUCHED(facilities, count);
        for (uint64_t place = 0; place < count; place++, shown++) {
            do s_id += type == 4, type = type % 4 + 1;
            while (!has_type(s_id, type));
            last = facilities[place];
            IS(last.s_id == s_id && last.sf_type == type && last.data_a == (s_id + type) % 256);
        }
    } while (count == room && room);
    return shown;
}

static uint64_t all_forwardings(uint64_t room) {
    uint64_t count = 0, shown = 0, s_id = 0, type = 4, start = 16;
    hlr_forwarding_row last = {0};
    do {
        memset(forwardings, 0xee, sizeof forwardings);
        DONE(hlr_next_forwardings(&handle, last.s_id, last.sf_type, last.start_time + 1, forwardings, room, &count));
        UNTOUCHED(forwardings, count);
        for (uint64_t place = 0; place < count; place++, shown++) {
            do {
                s_id += type == 4 && start == 16;
                if (start == 16) type = type % 4 + 1;
                start = (start + 8) % 24;
            } while (!has_forwarding(s_id, type, start));
            last = forwardings[place];
            IS(last.s_id == s_id && last.sf_type == type && last.start_time == start);
            IS(last.end_time == start + 3 && last.numberx == 10 * s_id + type);
        }
    } while (count == room && room);
    return shown;
}

/* how many rows of each table there are, as each one is asked for by its key */
static void count_all(uint64_t counts[4]) {
    hlr_subscriber row = {0};
    hlr_access access = {0};
    hlr_facility facility = {0};
    uint64_t end = 0, number = 0;
    memset(counts, 0, 4 * sizeof *counts);
    for (uint64_t s_id = 1; s_id <= SUBSCRIBERS; s_id++) {
        counts[0] += hlr_subscriber_data(&handle, s_id, &row) == HLR_DONE;
        for (uint64_t type = 1; type <= 4; type++) {
            counts[1] += hlr_access_data(&handle, s_id, type, &access) == HLR_DONE;
            counts[2] += hlr_facility_data(&handle, s_id, type, &facility) == HLR_DONE;
            for (uint64_t start = 0; start < 24; start += 8)
                counts[3] += hlr_forwarding(&handle, s_id, type, start, &end, &number) == HLR_DONE;
        }
    }
}

static void check(const uint64_t counts[4]) {
    static const uint64_t rooms[] = {1, 31, 32, 33, 1000, ROOM};
    for (size_t turn = 0; turn < sizeof rooms / sizeof *rooms; turn++) {
        IS(all_subscribers(rooms[turn]) == counts[0]);
        IS(all_accesses(rooms[turn]) == counts[1]);
        IS(all_facilities(rooms[turn]) == counts[2]);
        IS(all_forwardings(rooms[turn]) == counts[3]);
    }
    IS(all_subscribers(0) + all_accesses(0) + all_facilities(0) + all_forwardings(0) == 0);
}

/* keys between rows, past the range of a field, and behind the last row */
static void keys(void) {
    uint64_t count = 0;
    DONE(hlr_next_subscribers(&handle, 3, subscribers, 1, &count));
    IS(count == 1 && subscribers[0].s_id == 4);
    DONE(hlr_next_subscribers(&handle, SUBSCRIBERS + 1, subscribers, 9, &count));
    IS(count == 0);
    DONE(hlr_next_subscribers(&handle, UINT64_MAX, subscribers, 9, &count));
    IS(count == 0);
    DONE(hlr_next_accesses(&handle, 1, UINT64_MAX, accesses, 1, &count));
    IS(count == 1 && accesses[0].s_id == 2 && accesses[0].ai_type == 2);
    DONE(hlr_next_accesses(&handle, 1, 256, accesses, 1, &count));
    IS(count == 1 && accesses[0].s_id == 2);
    DONE(hlr_next_facilities(&handle, SUBSCRIBERS, 5, facilities, 9, &count));
    IS(count == 0);
    DONE(hlr_next_facilities(&handle, UINT64_C(1) << 48, 0, facilities, 9, &count));
    IS(count == 0);
    DONE(hlr_next_forwardings(&handle, 1, 1, 17, forwardings, 1, &count));
    IS(count == 1 && forwardings[0].s_id == 1 && forwardings[0].sf_type == 3 && forwardings[0].start_time == 0);
    DONE(hlr_next_forwardings(&handle, 1, 1, UINT64_MAX, forwardings, 1, &count));
    IS(count == 1 && forwardings[0].s_id == 1 && forwardings[0].sf_type == 3);
    DONE(hlr_next_forwardings(&handle, SUBSCRIBERS, 4, 17, forwardings, 9, &count));
    IS(count == 0);
}

/* while a part is lent, and of a closed handle, nothing is written */
static void away(void) {
    hlr_part owner = HLR_CLOSED;
    hlr closed = HLR_CLOSED;
    uint64_t count = 77, width = 0;
    memset(subscribers, 0xee, sizeof subscribers);
    DONE(hlr_lend(&handle, 2, &owner));
    IS(hlr_next_subscribers(&handle, 1, subscribers, 1, &count) == HLR_AWAY);
    IS(hlr_next_accesses(&handle, 1, 1, accesses, 1, &count) == HLR_AWAY);
    IS(hlr_next_facilities(&handle, 1, 1, facilities, 1, &count) == HLR_AWAY);
    IS(hlr_next_forwardings(&handle, 1, 1, 0, forwardings, 1, &count) == HLR_AWAY);
    DONE(hlr_width(&handle, &width));
    IS(width == 20);
    DONE(hlr_home(&owner));
    DONE(hlr_back(&handle, 2));
    IS(hlr_next_subscribers(&closed, 1, subscribers, 1, &count) == HLR_NOT_OPEN);
    IS(hlr_width(&closed, &width) == HLR_NOT_OPEN);
    UNTOUCHED(subscribers, 0);
    IS(count == 77);
}

int main(void) {
    uint64_t counts[4];
    hlr_region given;
    DONE(hlr_open(4, 20, &handle));
    check((uint64_t[4]){0, 0, 0, 0});
    fill();
    count_all(counts);
    IS(counts[0] > 2048 && counts[3] > 4096);
    check(counts);
    keys();
    away();
    /* pieces: one of one subscriber, one at the end, one without a row */
    DONE(hlr_give(&handle, 0, 1, 160, &given));
    DONE(hlr_give(&handle, 1, 0, 162, &given));
    DONE(hlr_give(&handle, 3, 1, 2500, &given));
    DONE(hlr_give(&handle, 3, 1, 2000, &given));
    DONE(hlr_divide(&handle, 2, 400, &given));
    check(counts);
    DONE(hlr_close(&handle));
    return failed;
}

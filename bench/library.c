/* Calls a second of a library with the calls of hlr.h: library SUBSCRIBERS CALLS [sparse]. Subscribers have the rows of TATP,
 * some ten each, or with the word sparse one of each kind. They are added in an order that looks random. Each line is a call,
 * how often it was made, and how often a second. Subscribers, types and hours are drawn as TATP does it, so that rows which
 * aren't there are asked for too. Calls for many ask 16 questions, each of which counts. mix is TATP's: of 100 35
 * subscriber_data, 10 new_destination, 35 access_data, 2 update_subscriber, 14 update_location, 2 insert_forwarding and 2
 * delete_forwarding. */
#define _POSIX_C_SOURCE 200809L
#include "hlr.h"
#include "shared.h"
#include <inttypes.h>
#include <stdio.h>
#include <stdlib.h>
#include <string.h>

enum { MANY = 16, TYPES = 4, HOURS = 3 };

/* Where a row of a subscriber lies. */
struct row_place {
    uint32_t s_id;
    uint8_t type, start;
};

/* Rows that are to be added. */
struct rows {
    struct row_place *places;
    uint64_t count;
};

static hlr handle = HLR_CLOSED;
static uint64_t seed = FIRST_SEED, subscribers, others, sum;
static int is_sparse;
static struct rows accesses, facilities, forwardings;

static uint64_t drawn(void) { return drawn_from(&seed); }

static uint64_t drawn_s_id(void) { return drawn() % subscribers + 1; }

static uint64_t drawn_type(void) { return is_sparse ? 1 : drawn() % TYPES + 1; }

static uint64_t drawn_start(void) { return is_sparse ? 8 : drawn() % HOURS * 8; }

static double now(void) { return seconds_of(CLOCK_MONOTONIC); }

/* each subscriber once, in an order that looks random: the step has no divisor in common with their number */
static uint64_t place(uint64_t turn) { return turn * 7919 % subscribers + 1; }

static struct rows room_for(uint64_t most) {
    struct rows rows = {malloc(most * sizeof *rows.places), 0};
    if (!rows.places) exit(1);
    return rows;
}

static void draw_forwardings(uint32_t s_id, uint8_t type) {
    unsigned starts = is_sparse ? 2 : bits_drawn_from(&seed, HOURS, (unsigned)(drawn() % (HOURS + 1)));
    for (uint8_t hour = 0; hour < HOURS; hour++)
        if (starts >> hour & 1) forwardings.places[forwardings.count++] = (struct row_place){s_id, type, hour * 8};
}

static unsigned drawn_types(void) { return is_sparse ? 1 : bits_drawn_from(&seed, TYPES, (unsigned)(drawn() % TYPES) + 1); }

/* Draws which rows there are. */
static void draw_rows(void) {
    accesses = room_for(subscribers * TYPES);
    facilities = room_for(subscribers * TYPES);
    forwardings = room_for(subscribers * TYPES * HOURS);
    for (uint64_t turn = 0; turn < subscribers; turn++) {
        uint32_t s_id = (uint32_t)place(turn);
        unsigned access_types = drawn_types(), facility_types = drawn_types();
        for (uint8_t type = 1; type <= TYPES; type++) {
            if (access_types >> (type - 1) & 1) accesses.places[accesses.count++] = (struct row_place){s_id, type, 0};
            if (!(facility_types >> (type - 1) & 1)) continue;
            facilities.places[facilities.count++] = (struct row_place){s_id, type, 0};
            draw_forwardings(s_id, type);
        }
    }
}

static uint8_t add_subscriber(uint64_t turn) {
    uint64_t s_id = place(turn);
    hlr_subscriber row = {.s_id = s_id, .sub_nbr = number(s_id), .msc_location = 1, .vlr_location = drawn() % 4294967295u + 1};
    return hlr_add_subscriber(&handle, &row);
}
static uint8_t add_access(uint64_t turn) {
    struct row_place at = accesses.places[turn];
    hlr_access row = {.s_id = at.s_id, .ai_type = at.type, .data3 = {'A', 'B', 'C'}, .data4 = {'A', 'B', 'C', 'D', 'E'}};
    return hlr_add_access(&handle, &row);
}
static uint8_t add_facility(uint64_t turn) {
    struct row_place at = facilities.places[turn];
    hlr_facility row = {.s_id = at.s_id, .sf_type = at.type, .is_active = 1, .data_b = {'A', 'B', 'C', 'D', 'E'}};
    return hlr_add_facility(&handle, &row);
}
static uint8_t insert_forwarding(uint64_t turn) {
    struct row_place at = forwardings.places[turn];
    return hlr_insert_forwarding(&handle, number(at.s_id), at.type, at.start, at.start + 8, 100);
}
static uint8_t delete_forwarding(uint64_t turn) {
    struct row_place at = forwardings.places[turn];
    uint8_t code = hlr_delete_forwarding(&handle, number(at.s_id), at.type, at.start);
    return code == HLR_NO_FORWARDING ? HLR_DONE : code;
}
static uint8_t subscriber_data(uint64_t turn) {
    hlr_subscriber row;
    uint8_t code = hlr_subscriber_data(&handle, drawn_s_id(), &row);
    sum += row.vlr_location + turn;
    return code;
}
static uint8_t access_data(uint64_t turn) {
    hlr_access row = {0};
    uint64_t s_id = drawn_s_id();
    uint8_t code = hlr_access_data(&handle, s_id, drawn_type(), &row);
    sum += row.data3[0] + turn;
    return code == HLR_NO_ACCESS ? HLR_DONE : code;
}
static uint8_t new_destination(uint64_t turn) {
    hlr_numbers numbers = {0, {0, 0, 0}};
    uint64_t s_id = drawn_s_id(), type = drawn_type(), start = drawn_start();
    uint8_t code = hlr_new_destination(&handle, s_id, type, start, start + 4, &numbers);
    sum += numbers.numbers[0] + turn;
    return code == HLR_NO_DESTINATION ? HLR_DONE : code;
}
static uint8_t find(uint64_t turn) {
    uint64_t s_id = 0;
    uint8_t code = hlr_find(&handle, number(drawn_s_id()), &s_id);
    sum += s_id + turn;
    return code;
}
static uint8_t facility_data(uint64_t turn) {
    hlr_facility row = {0};
    uint64_t s_id = drawn_s_id();
    uint8_t code = hlr_facility_data(&handle, s_id, drawn_type(), &row);
    sum += row.data_a + turn;
    return code == HLR_NO_FACILITY ? HLR_DONE : code;
}
static uint8_t forwarding(uint64_t turn) {
    uint64_t end_time = 0, numberx = 0, s_id = drawn_s_id(), type = drawn_type();
    uint8_t code = hlr_forwarding(&handle, s_id, type, drawn_start(), &end_time, &numberx);
    sum += end_time + numberx + turn;
    return code == HLR_NO_FORWARDING ? HLR_DONE : code;
}
static uint8_t next_subscriber(uint64_t turn) {
    hlr_subscriber row;
    uint8_t code = hlr_next_subscriber(&handle, drawn_s_id(), &row);
    sum += row.vlr_location + turn;
    return code;
}
static uint8_t update_subscriber(uint64_t turn) {
    uint64_t s_id = drawn_s_id();
    uint8_t code = hlr_update_subscriber(&handle, s_id, drawn_type(), turn & 1, turn & 255);
    return code == HLR_NO_FACILITY ? HLR_DONE : code;
}
static uint8_t update_location(uint64_t turn) {
    return hlr_update_location(&handle, number(drawn_s_id()), (turn * 2654435761u & 4294967295u) | 1);
}
static uint8_t set_active(uint64_t turn) {
    uint64_t s_id = drawn_s_id();
    uint8_t code = hlr_set_active(&handle, s_id, drawn_type(), turn & 1);
    return code == HLR_NO_FACILITY ? HLR_DONE : code;
}
static uint8_t set_number(uint64_t turn) {
    uint64_t s_id = turn / 2 % subscribers + 1;
    return hlr_set_number(&handle, s_id, turn & 1 ? number(s_id) : 999000000000000u);
}
static uint8_t subscriber_data_many(uint64_t turn) {
    uint64_t s_ids[MANY];
    hlr_subscriber rows[MANY];
    uint8_t codes[MANY], refused = 0;
    for (int i = 0; i < MANY; i++) s_ids[i] = drawn_s_id();
    uint8_t code = hlr_subscriber_data_many(&handle, s_ids, MANY, rows, MANY, codes, MANY);
    for (int i = 0; i < MANY; i++) sum += rows[i].vlr_location + turn, refused |= codes[i];
    return code | refused;
}
static uint8_t access_data_many(uint64_t turn) {
    hlr_access_asked asked[MANY];
    hlr_access rows[MANY] = {0};
    uint8_t codes[MANY], refused = 0;
    for (int i = 0; i < MANY; i++) asked[i].s_id = drawn_s_id(), asked[i].ai_type = drawn_type();
    uint8_t code = hlr_access_data_many(&handle, asked, MANY, rows, MANY, codes, MANY);
    for (int i = 0; i < MANY; i++) sum += rows[i].data3[0] + turn, refused |= codes[i] == HLR_NO_ACCESS ? HLR_DONE : codes[i];
    return code | refused;
}
static uint8_t new_destination_many(uint64_t turn) {
    hlr_destination_asked asked[MANY];
    hlr_numbers numbers[MANY] = {{0, {0, 0, 0}}};
    uint8_t codes[MANY], refused = 0;
    for (int i = 0; i < MANY; i++) {
        uint64_t s_id = drawn_s_id(), type = drawn_type(), start = drawn_start();
        asked[i] = (hlr_destination_asked){s_id, type, start, start + 4};
    }
    uint8_t code = hlr_new_destination_many(&handle, asked, MANY, numbers, MANY, codes, MANY);
    for (int i = 0; i < MANY; i++)
        sum += numbers[i].numbers[0] + turn, refused |= codes[i] == HLR_NO_DESTINATION ? HLR_DONE : codes[i];
    return code | refused;
}
static uint8_t mixed_insert(void) {
    uint64_t s_id = drawn_s_id(), type = drawn_type(), start = drawn_start();
    uint8_t code = hlr_insert_forwarding(&handle, number(s_id), type, start, start + 8, 100);
    return code == HLR_EXISTS || code == HLR_NO_FACILITY ? HLR_DONE : code;
}
static uint8_t mixed_delete(void) {
    uint64_t s_id = drawn_s_id(), type = drawn_type();
    uint8_t code = hlr_delete_forwarding(&handle, number(s_id), type, drawn_start());
    return code == HLR_NO_FORWARDING ? HLR_DONE : code;
}
static uint8_t mix(uint64_t turn) {
    uint64_t kind = drawn() % 100;
    if (kind < 35) return subscriber_data(turn);
    if (kind < 45) return new_destination(turn);
    if (kind < 80) return access_data(turn);
    if (kind < 82) return update_subscriber(turn);
    if (kind < 96) return update_location(turn);
    return kind < 98 ? mixed_insert() : mixed_delete();
}
static uint8_t views(uint64_t turn) {
    int64_t published[HLR_CELLS], unposted[HLR_CELLS];
    uint8_t code = hlr_views(&handle, published, unposted);
    sum += (uint64_t)(published[turn % HLR_CELLS] + unposted[turn % HLR_CELLS]);
    return code;
}

/* each call answers so many questions */
static void timed_many(const char *name, uint8_t (*call)(uint64_t), uint64_t calls, uint64_t questions) {
    double begun = now();
    for (uint64_t turn = 0; turn < calls; turn++) others += call(turn) != HLR_DONE;
    printf("%s %" PRIu64 " %.0f\n", name, calls, (double)(calls * questions) / (now() - begun));
}
static void timed(const char *name, uint8_t (*call)(uint64_t), uint64_t calls) { timed_many(name, call, calls, 1); }

int main(int argc, char **argv) {
    if (argc < 3 || argc > 4 || (argc == 4 && strcmp(argv[3], "sparse") != 0)) return 2;
    uint64_t calls = strtoull(argv[2], 0, 10), posted;
    subscribers = strtoull(argv[1], 0, 10);
    is_sparse = argc == 4;
    draw_rows();
    if (hlr_open(1, (subscribers + 31) / 32, &handle)) return 1;
    timed("add_subscriber", add_subscriber, subscribers);
    timed("add_access", add_access, accesses.count);
    timed("add_facility", add_facility, facilities.count);
    timed("insert_forwarding", insert_forwarding, forwardings.count);
    timed("subscriber_data", subscriber_data, calls);
    timed("access_data", access_data, calls);
    timed("new_destination", new_destination, calls);
    timed_many("new_destination_many", new_destination_many, calls / MANY, MANY);
    timed("find", find, calls);
    timed("facility_data", facility_data, calls);
    timed("forwarding", forwarding, calls);
    timed("next_subscriber", next_subscriber, calls);
    timed("update_subscriber", update_subscriber, calls);
    timed("update_location", update_location, calls);
    timed("set_number", set_number, calls / 2 * 2);
    timed("set_active", set_active, calls);
    timed_many("subscriber_data_many", subscriber_data_many, calls / MANY, MANY);
    timed_many("access_data_many", access_data_many, calls / MANY, MANY);
    timed("mix", mix, calls);
    timed("delete_forwarding", delete_forwarding, forwardings.count);
    hlr_post(&handle, 0, HLR_CELLS, &posted);
    timed("views", views, calls / 4);
    hlr_close(&handle);
    fprintf(stderr, "%" PRIu64 " calls were refused (%" PRIu64 ")\n", others, sum);
    return others != 0;
}

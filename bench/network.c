/* What a register for a whole network takes: network SUBSCRIBERS rising|random [sparse|alone]. Subscribers have the rows
 * of TATP, some ten each, or one row of each kind (sparse), or no other row (alone). They are added in rising or in
 * random order of their s_ids, and their numbers are in no order. Each line is a measure and its value. Seconds are those
 * of the processor, user and system. */
#define _POSIX_C_SOURCE 200809L
#include "hlr.h"
#include "shared.h"
#include <inttypes.h>
#include <stdio.h>
#include <stdlib.h>
#include <string.h>
#include <unistd.h>

#define LOCATIONS 4294967295u

enum { PAGE = 256, CALLS = 1000000 };

enum population { TATP, SPARSE, ALONE };

static hlr handle = HLR_CLOSED;
static uint64_t seed = FIRST_SEED, subscribers, sum;
static enum population population = TATP;

static uint64_t drawn(void) { return drawn_from(&seed); }

static double now(void) { return seconds_of(CLOCK_PROCESS_CPUTIME_ID); }

/* Bytes of the process that lie in memory. */
static double resident(void) {
    unsigned long size, pages = 0;
    FILE *file = fopen("/proc/self/statm", "r");
    if (!file || fscanf(file, "%lu %lu", &size, &pages) != 2) exit(1);
    fclose(file);
    return (double)pages * (double)sysconf(_SC_PAGESIZE);
}

static void told(const char *measure, double value) {
    printf("%s %.9f\n", measure, value);
    fflush(stdout);
}

static void want(uint8_t code) {
    if (code == HLR_DONE) return;
    fprintf(stderr, "network: %s\n", hlr_code_name(code));
    exit(1);
}

static unsigned drawn_of(unsigned bits, unsigned count) { return bits_drawn_from(&seed, bits, count); }

/* The types of a subscriber's accesses or facilities. */
static unsigned drawn_types(void) { return population == SPARSE ? 1 : drawn_of(4, (unsigned)(drawn() % 4) + 1); }

static uint64_t add_forwardings(uint64_t s_id, uint64_t sf_type) {
    uint64_t rows = 0;
    unsigned starts = population == SPARSE ? 1 : drawn_of(3, (unsigned)(drawn() % 4));
    for (uint64_t place = 0; place < 3; place++) {
        if (!(starts >> place & 1)) continue;
        uint64_t start = place * 8, end = start + 1 + drawn() % 8;
        want(hlr_insert_forwarding(&handle, number(s_id), sf_type, start, end, drawn() % 1000000000000000u));
        rows++;
    }
    return rows;
}

static uint64_t add_accesses(uint64_t s_id) {
    uint64_t rows = 0;
    unsigned types = drawn_types();
    for (uint64_t type = 1; type <= 4; type++) {
        if (!(types >> (type - 1) & 1)) continue;
        hlr_access row = {.s_id = s_id, .ai_type = type, .data3 = "ABC", .data4 = "ABCDE"};
        want(hlr_add_access(&handle, &row));
        rows++;
    }
    return rows;
}

static uint64_t add_facilities(uint64_t s_id) {
    uint64_t rows = 0;
    unsigned types = drawn_types();
    for (uint64_t type = 1; type <= 4; type++) {
        if (!(types >> (type - 1) & 1)) continue;
        hlr_facility row = {.s_id = s_id, .sf_type = type, .is_active = drawn() % 100 < 85, .data_b = "ABCDE"};
        want(hlr_add_facility(&handle, &row));
        rows += 1 + add_forwardings(s_id, type);
    }
    return rows;
}

/* Adds a subscriber with its accesses, facilities and forwardings: how many rows these are. */
static uint64_t add(uint64_t s_id) {
    hlr_subscriber row = {.s_id = s_id, .sub_nbr = number(s_id), .msc_location = 1};
    row.vlr_location = drawn() % LOCATIONS + 1;
    want(hlr_add_subscriber(&handle, &row));
    return population == ALONE ? 1 : 1 + add_accesses(s_id) + add_facilities(s_id);
}

/* All s_ids, in rising or in random order. */
static uint32_t *s_ids_in_order(int is_random) {
    uint32_t *s_ids = malloc(subscribers * sizeof *s_ids);
    if (!s_ids) exit(1);
    for (uint64_t place = 0; place < subscribers; place++) s_ids[place] = (uint32_t)place + 1;
    for (uint64_t place = subscribers; is_random && place > 1; place--) {
        uint64_t other = drawn() % place;
        uint32_t moved = s_ids[place - 1];
        s_ids[place - 1] = s_ids[other];
        s_ids[other] = moved;
    }
    return s_ids;
}

/* Adds all subscribers. */
static void load(int is_random) {
    uint32_t *s_ids = s_ids_in_order(is_random);
    double empty = resident(), begun = now();
    uint64_t rows = 0;
    for (uint64_t turn = 0; turn < subscribers; turn++) rows += add(s_ids[turn]);
    told("load", now() - begun);
    told("rows", (double)rows);
    told("bytes", (resident() - empty) / (double)subscribers);
    free(s_ids);
}

static uint8_t subscriber_data(void) {
    hlr_subscriber row = {0};
    uint8_t code = hlr_subscriber_data(&handle, drawn() % subscribers + 1, &row);
    sum += row.vlr_location;
    return code;
}

static uint8_t access_data(void) {
    hlr_access row = {0};
    uint8_t code = hlr_access_data(&handle, drawn() % subscribers + 1, drawn() % 4 + 1, &row);
    sum += row.data3[0];
    return code == HLR_NO_ACCESS ? HLR_DONE : code;
}

static uint8_t new_destination(void) {
    hlr_numbers numbers = {0};
    uint64_t s_id = drawn() % subscribers + 1, start_time = drawn() % 3 * 8, end_time = drawn() % 24 + 1;
    uint8_t code = hlr_new_destination(&handle, s_id, drawn() % 4 + 1, start_time, end_time, &numbers);
    sum += numbers.numbers[0];
    return code == HLR_NO_DESTINATION ? HLR_DONE : code;
}

static uint8_t update_location(void) {
    return hlr_update_location(&handle, number(drawn() % subscribers + 1), drawn() % LOCATIONS + 1);
}

static void timed(const char *measure, uint8_t (*call)(void)) {
    double begun = now();
    for (int turn = 0; turn < CALLS; turn++) want(call());
    told(measure, (now() - begun) / CALLS);
}

/* The next four functions read all rows of a table, a page at a time. */
static void read_subscribers(void) {
    static hlr_subscriber rows[PAGE];
    uint64_t s_id = 0, count = 0;
    do {
        want(hlr_next_subscribers(&handle, s_id, rows, PAGE, &count));
        if (count > 0) s_id = rows[count - 1].s_id + 1;
    } while (count > 0);
}

static void read_accesses(void) {
    static hlr_access rows[PAGE];
    uint64_t s_id = 0, ai_type = 0, count = 0;
    do {
        want(hlr_next_accesses(&handle, s_id, ai_type, rows, PAGE, &count));
        if (count > 0) s_id = rows[count - 1].s_id, ai_type = rows[count - 1].ai_type + 1;
    } while (count > 0);
}

static void read_facilities(void) {
    static hlr_facility rows[PAGE];
    uint64_t s_id = 0, sf_type = 0, count = 0;
    do {
        want(hlr_next_facilities(&handle, s_id, sf_type, rows, PAGE, &count));
        if (count > 0) s_id = rows[count - 1].s_id, sf_type = rows[count - 1].sf_type + 1;
    } while (count > 0);
}

static void read_forwardings(void) {
    static hlr_forwarding_row rows[PAGE];
    uint64_t s_id = 0, sf_type = 0, start_time = 0, count = 0;
    do {
        want(hlr_next_forwardings(&handle, s_id, sf_type, start_time, rows, PAGE, &count));
        if (count == 0) return;
        s_id = rows[count - 1].s_id;
        sf_type = rows[count - 1].sf_type;
        start_time = rows[count - 1].start_time + 1;
    } while (count > 0);
}

static void read_pages(void) {
    double begun = now();
    read_subscribers();
    read_accesses();
    read_facilities();
    read_forwardings();
    told("pages", now() - begun);
}

/* Counts all rows anew, and compares the counts with the live ones. */
static void scan(void) {
    uint64_t counts[HLR_CELLS] = {0};
    int64_t published[HLR_CELLS] = {0}, unposted[HLR_CELLS] = {0};
    double begun = now();
    want(hlr_scan(&handle, counts));
    told("scan", now() - begun);
    want(hlr_views(&handle, published, unposted));
    for (int cell = 0; cell < HLR_CELLS; cell++)
        if ((int64_t)counts[cell] != published[cell] + unposted[cell]) exit(1);
}

/* Makes two parts of equal size, and one of them again. */
static void divide(void) {
    hlr_region region = {0};
    double begun = now();
    want(hlr_divide(&handle, 0, subscribers / 2 + 1, &region));
    told("divide", now() - begun);
    begun = now();
    want(hlr_dissolve(&handle, 1, &region));
    told("dissolve", now() - begun);
}

/* Reads which population is meant: false if there is none of this name. */
static int is_population(const char *name) {
    if (strcmp(name, "sparse") == 0) population = SPARSE;
    if (strcmp(name, "alone") == 0) population = ALONE;
    return population != TATP;
}

int main(int argc, char **argv) {
    if (argc < 3 || argc > 4 || (strcmp(argv[2], "rising") != 0 && strcmp(argv[2], "random") != 0)) return 2;
    if (argc == 4 && !is_population(argv[3])) return 2;
    subscribers = strtoull(argv[1], NULL, 10);
    if (subscribers < 2 || subscribers > 16777216) return 2;
    want(hlr_open(1, (subscribers + 31) / 32, &handle));
    load(strcmp(argv[2], "random") == 0);
    timed("gsd", subscriber_data);
    timed("gad", access_data);
    timed("gnd", new_destination);
    timed("ul", update_location);
    read_pages();
    scan();
    divide();
    double begun = now();
    want(hlr_close(&handle));
    told("close", now() - begun);
    fprintf(stderr, "%" PRIu64 "\n", sum);
    return 0;
}

/* Which calls take and give back no memory: malloc, realloc and free are wrapped and counted. All that read do so over a
 * register with several parts, one of them lent, and a loose piece, also in a forked child, where a call of them would end
 * it. It prints what went wrong, and nothing else. */
#include "hlr.h"
#include <stdio.h>
#include <stdlib.h>
#include <sys/wait.h>
#include <unistd.h>

#define SUBSCRIBERS 20000
#define PARTS 4
#define WIDTH 625 /* so part p begins at 1 + p * 5000 */
#define MANY 40

void *__real_malloc(size_t size);
void *__real_realloc(void *old, size_t size);
void __real_free(void *old);
static unsigned long calls;
static int is_child;

static void count(void) {
    if (is_child) _exit(9);
    calls++;
}

void *__wrap_malloc(size_t size) { return count(), __real_malloc(size); }
void *__wrap_realloc(void *old, size_t size) { return count(), __real_realloc(old, size); }
void __wrap_free(void *old) {
    count();
    __real_free(old);
}

static int wrong;

static void expect(int is_so, const char *what) {
    if (is_so || wrong > 9) return;
    printf("%s\n", what);
    wrong++;
}

static hlr handle = HLR_CLOSED;
static hlr_part owner = HLR_CLOSED;

static void filled(void) {
    expect(hlr_open(PARTS, WIDTH, &handle) == HLR_DONE, "a register is opened");
    for (uint64_t s_id = 1; s_id <= SUBSCRIBERS; s_id++) {
        hlr_subscriber row = {.s_id = s_id, .sub_nbr = s_id, .msc_location = 1, .vlr_location = s_id * 200000};
        hlr_access access = {s_id, 1 + s_id % 4, 0, 0, "ABC", "ABCDE"};
        hlr_facility facility = {s_id, 1 + s_id % 4, 1, 0, 0, "ABCDE"};
        int is_done = hlr_add_subscriber(&handle, &row) == HLR_DONE && hlr_add_access(&handle, &access) == HLR_DONE &&
                      hlr_add_facility(&handle, &facility) == HLR_DONE && hlr_insert_forwarding(&handle, s_id, 1 + s_id % 4, 8, 16, s_id) == HLR_DONE;
        expect(is_done, "rows are added");
    }
    expect(calls > SUBSCRIBERS / 100, "calls that add rows take memory");
}

/* Reads of one row, by each s_id and beyond: whether some were done. */
static int read_rows(void) {
    hlr_subscriber row = {0};
    hlr_access access = {0};
    hlr_facility facility = {0};
    hlr_numbers numbers = {0};
    uint64_t end_time = 0, numberx = 0, found = 0, done = 0;
    for (uint64_t s_id = 0; s_id < SUBSCRIBERS + 3; s_id++) {
        done += hlr_subscriber_data(&handle, s_id, &row) == HLR_DONE;
        done += hlr_access_data(&handle, s_id, 1 + s_id % 4, &access) == HLR_DONE;
        done += hlr_new_destination(&handle, s_id, 1 + s_id % 4, 8, 9, &numbers) == HLR_DONE;
        done += hlr_facility_data(&handle, s_id, 1 + s_id % 4, &facility) == HLR_DONE;
        done += hlr_forwarding(&handle, s_id, 1 + s_id % 4, 8, &end_time, &numberx) == HLR_DONE;
        done += hlr_find(&handle, s_id, &found) == HLR_DONE;
    }
    return done > 3 * SUBSCRIBERS;
}

static int read_many(void) {
    uint64_t s_ids[MANY];
    hlr_access_asked accesses[MANY];
    hlr_destination_asked destinations[MANY];
    static hlr_subscriber rows[MANY];
    static hlr_access found[MANY];
    static hlr_numbers numbers[MANY];
    uint8_t codes[MANY] = {0};
    int done = 0;
    for (uint64_t first = 1; first <= SUBSCRIBERS; first += 500) {
        for (uint64_t place = 0; place < MANY; place++) {
            uint64_t s_id = first + 13 * place;
            s_ids[place] = s_id;
            accesses[place] = (hlr_access_asked){s_id, 1 + s_id % 4};
            destinations[place] = (hlr_destination_asked){s_id, 1 + s_id % 4, 8, 9};
        }
        done += hlr_subscriber_data_many(&handle, s_ids, MANY, rows, MANY, codes, MANY) == HLR_DONE;
        done += hlr_access_data_many(&handle, accesses, MANY, found, MANY, codes, MANY) == HLR_DONE;
        done += hlr_new_destination_many(&handle, destinations, MANY, numbers, MANY, codes, MANY) == HLR_DONE;
    }
    return done == 3 * SUBSCRIBERS / 500;
}

/* Reads of all rows, which answer `wanted`, since a part is lent or none is. */
static int read_all(uint8_t wanted) {
    static hlr_subscriber rows[MANY];
    static hlr_access accesses[MANY];
    static hlr_facility facilities[MANY];
    static hlr_forwarding_row forwardings[MANY];
    hlr_subscriber row = {0};
    uint64_t written = 0, counts[HLR_CELLS] = {0};
    int64_t published[HLR_CELLS] = {0}, unposted[HLR_CELLS] = {0};
    hlr_bounds bounds = {0};
    int is_so = hlr_scan(&handle, counts) == wanted && hlr_views(&handle, published, unposted) == wanted && hlr_propose(&handle, &bounds) == wanted;
    for (uint64_t s_id = 0; s_id <= SUBSCRIBERS; s_id += 7) {
        is_so = is_so && hlr_next_subscriber(&handle, s_id, &row) == wanted;
        is_so = is_so && hlr_next_subscribers(&handle, s_id, rows, MANY, &written) == wanted;
        is_so = is_so && hlr_next_accesses(&handle, s_id, 3, accesses, MANY, &written) == wanted;
        is_so = is_so && hlr_next_facilities(&handle, s_id, 3, facilities, MANY, &written) == wanted;
        is_so = is_so && hlr_next_forwardings(&handle, s_id, 3, 1, forwardings, MANY, &written) == wanted;
    }
    return is_so;
}

static int read_register(void) {
    int64_t published[HLR_CELLS] = {0};
    hlr_region_list regions = {0};
    uint64_t width = 0;
    return hlr_look(&handle, published) == HLR_DONE && hlr_regions(&handle, &regions) == HLR_DONE && hlr_width(&handle, &width) == HLR_DONE && width == WIDTH;
}

static int read_part(void) {
    hlr_subscriber row = {0};
    hlr_access access = {0};
    hlr_numbers numbers = {0};
    uint64_t lo = 0, hi = 0, s_id = 5001;
    uint8_t code = 0;
    hlr_access_asked accesses = {s_id, 2};
    hlr_destination_asked destinations = {s_id, 2, 8, 9};
    return hlr_part_range(&owner, &lo, &hi) == HLR_DONE && lo == s_id && hlr_part_subscriber_data(&owner, s_id, &row) == HLR_DONE &&
           hlr_part_access_data(&owner, s_id, 2, &access) == HLR_DONE && hlr_part_new_destination(&owner, s_id, 2, 8, 9, &numbers) == HLR_DONE &&
           hlr_part_subscriber_data_many(&owner, &s_id, 1, &row, 1, &code, 1) == HLR_DONE && hlr_part_access_data_many(&owner, &accesses, 1, &access, 1, &code, 1) == HLR_DONE &&
           hlr_part_new_destination_many(&owner, &destinations, 1, &numbers, 1, &code, 1) == HLR_DONE;
}

static void reads(uint8_t wanted, int has_part) {
    expect(read_rows(), "single rows are read");
    expect(read_many(), "many rows are read");
    expect(read_all(wanted), "all rows are read");
    expect(read_register(), "the register is read");
    expect(!has_part || read_part(), "a part is read");
}

/* The reads, here and in a forked child. */
static void quiet(const char *what, uint8_t wanted, int has_part) {
    unsigned long before = calls;
    int status = 0;
    reads(wanted, has_part);
    expect(calls == before, what);
    pid_t child = fork();
    if (child == 0) {
        is_child = 1;
        wrong = 0;
        reads(wanted, has_part);
        _exit(wrong > 0);
    }
    waitpid(child, &status, 0);
    expect(child > 0 && WIFEXITED(status) && WEXITSTATUS(status) == 0, "a forked child reads");
}

/* Writes that hlr.h says take no memory, or that change a row where it lies. */
static void writes(void) {
    unsigned long before = calls;
    int done = 0;
    for (uint64_t s_id = 1; s_id <= SUBSCRIBERS; s_id++) {
        done += hlr_update_subscriber(&handle, s_id, 1 + s_id % 4, 1, 7) == HLR_DONE;
        done += hlr_update_location(&handle, s_id, 4000000000u) == HLR_DONE;
        done += hlr_set_active(&handle, s_id, 1 + s_id % 4, s_id % 2) == HLR_DONE;
        done += hlr_insert_forwarding(&handle, s_id, 1 + s_id % 4, 8, 16, s_id) == HLR_EXISTS;
    }
    expect(done == 4 * SUBSCRIBERS, "rows are changed");
    expect(calls == before, "a call that changes rows in place takes memory");
}

int main(void) {
    hlr_region piece = {0};
    filled();
    quiet("a call that reads takes memory", HLR_DONE, 0);
    writes();
    expect(hlr_give(&handle, 3, 1, 17501, &piece) == HLR_DONE, "a piece is given away");
    quiet("a call that reads takes memory while a piece is loose", HLR_DONE, 0);
    expect(hlr_lend(&handle, 1, &owner) == HLR_DONE, "a part is lent");
    quiet("a call that reads takes memory while a part is lent", HLR_AWAY, 1);
    hlr_home(&owner);
    hlr_back(&handle, 1);
    hlr_close(&handle);
    return wrong > 0;
}

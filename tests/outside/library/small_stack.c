/* Calls in threads that have STACK_KB of stack left for them and for the functions around them, and no byte more: a page
 * that can't be touched lies below, and the C library keeps what it knows of a thread above. The first thread has a day of
 * examples/library/day.c, whose main is day_main here; the second one a register whose trees are three levels high, each call
 * that changes many rows, a part that is lent, and a look. */
#define _GNU_SOURCE
#include "hlr.h"
#include <alloca.h>
#include <pthread.h>
#include <stdint.h>
#include <stdio.h>
#include <sys/mman.h>
#include <unistd.h>

#define STACK_KB 64
#define ROWS 100000

int day_main(void);

/* What the second thread works on; none of it lies in its stack. */
static hlr many = HLR_CLOSED;
static hlr_part owner = HLR_CLOSED;
static hlr_region region;
static hlr_bounds bounds;
static uint64_t told, counts[HLR_CELLS];
static int64_t published[HLR_CELLS], unposted[HLR_CELLS];

static void *day(void *none) {
    (void)none;
    return (void *)(intptr_t)day_main();
}

/* The line of a call that didn't answer DONE. */
#define DO(call) do { if ((call) != HLR_DONE) return __LINE__; } while (0)

/* All rows of one subscriber. */
static int add(uint64_t s_id) {
    static hlr_subscriber row = {.msc_location = 1};
    static hlr_access access = {.ai_type = 1, .data3 = "ABC", .data4 = {'A', 'B', 'C', 'D', 'E'}};
    static hlr_facility facility = {.sf_type = 1, .is_active = 1, .data_b = {'A', 'B', 'C', 'D', 'E'}};
    row.s_id = access.s_id = facility.s_id = row.sub_nbr = row.vlr_location = s_id;
    DO(hlr_add_subscriber(&many, &row));
    DO(hlr_add_access(&many, &access));
    DO(hlr_add_facility(&many, &facility));
    for (uint64_t hour = 0; hour < 24; hour += 8) DO(hlr_insert_forwarding(&many, s_id, 1, hour, hour + 8, s_id));
    return 0;
}

static int filled(void) {
    int line;
    DO(hlr_open(2, ROWS / 32 + 1, &many));
    for (uint64_t n = 0; n < ROWS; n++)
        if ((line = add(1 + n * 61681 % ROWS)) != 0) return line;
    return 0;
}

/* Rows go from part to part, parts come and go, and all counts are told. */
static int moved(void) {
    for (int side = 0; side < 2; side++) {
        DO(hlr_give(&many, 1 - side, side, side ? ROWS / 7 : ROWS - ROWS / 7, &region));
        DO(hlr_take(&many, region.number, 1 - side));
    }
    DO(hlr_divide(&many, 0, ROWS / 3, &region));
    DO(hlr_post(&many, region.number, HLR_CELLS, &told));
    DO(hlr_dissolve(&many, region.number, &region));
    for (uint64_t part = 0; part < 2; part++) DO(hlr_post(&many, part, HLR_CELLS, &told));
    DO(hlr_propose(&many, &bounds));
    DO(hlr_recut(&many, &bounds, &told));
    DO(hlr_views(&many, published, unposted));
    DO(hlr_scan(&many, counts));
    for (int cell = 0; cell < HLR_CELLS; cell++)
        if (published[cell] + unposted[cell] != (int64_t)counts[cell]) return __LINE__;
    return 0;
}

/* Rows are read, one in a call and sixteen in a call, which lie in one part. */
static int read_out(void) {
    static hlr_subscriber row, rows[16];
    static hlr_facility facility;
    static hlr_access access, accesses[16];
    static hlr_numbers one, numbers[16];
    static hlr_access_asked access_asked[16];
    static hlr_destination_asked asked[16];
    static uint64_t s_ids[16], s_id, end_time, numberx;
    static uint8_t codes[16];
    for (uint64_t i = 0; i < 16; i++) {
        s_ids[i] = access_asked[i].s_id = asked[i].s_id = 1 + i * (ROWS / 64);
        access_asked[i].ai_type = asked[i].sf_type = 1;
        asked[i].end_time = 24;
        DO(hlr_find(&many, s_ids[i], &s_id));
        DO(hlr_next_subscriber(&many, s_id, &row));
        DO(hlr_subscriber_data(&many, s_id, &row));
        DO(hlr_access_data(&many, s_id, 1, &access));
        DO(hlr_facility_data(&many, s_id, 1, &facility));
        DO(hlr_forwarding(&many, s_id, 1, 16, &end_time, &numberx));
        hlr_new_destination(&many, s_id, 1, 0, 24, &one);
    }
    DO(hlr_subscriber_data_many(&many, s_ids, 16, rows, 16, codes, 16));
    DO(hlr_access_data_many(&many, access_asked, 16, accesses, 16, codes, 16));
    DO(hlr_new_destination_many(&many, asked, 16, numbers, 16, codes, 16));
    return 0;
}

/* A part is lent, reads and changes rows, posts, and comes home. */
static int lent(void) {
    static hlr_subscriber row;
    static hlr_access access = {.s_id = 1, .ai_type = 2, .data3 = "ABC", .data4 = {'A', 'B', 'C', 'D', 'E'}};
    static hlr_facility facility = {.s_id = 1, .sf_type = 2, .is_active = 1, .data_b = {'A', 'B', 'C', 'D', 'E'}};
    static hlr_numbers numbers;
    static hlr_access_asked access_asked = {1, 2};
    static hlr_destination_asked asked = {1, 1, 16, 20};
    static uint64_t lo, hi, s_id = 1;
    static uint8_t code;
    DO(hlr_lend(&many, 0, &owner));
    DO(hlr_part_range(&owner, &lo, &hi));
    DO(hlr_part_add_access(&owner, &access));
    DO(hlr_part_add_facility(&owner, &facility));
    DO(hlr_part_set_active(&owner, 1, 2, 0));
    DO(hlr_part_update_subscriber(&owner, 1, 2, 1, 7));
    DO(hlr_part_update_location(&owner, 1, 8));
    DO(hlr_part_delete_forwarding(&owner, 1, 1, 16));
    DO(hlr_part_insert_forwarding(&owner, 1, 1, 16, 24, 9));
    DO(hlr_part_subscriber_data(&owner, 1, &row));
    DO(hlr_part_subscriber_data_many(&owner, &s_id, 1, &row, 1, &code, 1));
    DO(hlr_part_access_data(&owner, 1, 2, &access));
    DO(hlr_part_access_data_many(&owner, &access_asked, 1, &access, 1, &code, 1));
    DO(hlr_part_new_destination(&owner, 1, 1, 16, 20, &numbers));
    DO(hlr_part_new_destination_many(&owner, &asked, 1, &numbers, 1, &code, 1));
    DO(hlr_part_post(&owner, HLR_CELLS, &told));
    DO(hlr_home(&owner));
    DO(hlr_back(&many, 0));
    return 0;
}

/* Rows are taken away, numbers change, facilities are switched. */
static int emptied(void) {
    for (uint64_t s_id = 1; s_id <= ROWS; s_id++) {
        DO(hlr_set_active(&many, s_id, 1, s_id % 2));
        DO(hlr_set_number(&many, s_id, ROWS + s_id));
        DO(hlr_update_location(&many, ROWS + s_id, 7));
        for (uint64_t hour = 0; hour < 24; hour += 8) DO(hlr_delete_forwarding(&many, ROWS + s_id, 1, hour));
    }
    return 0;
}

/* A look at what is published, beside a part that is out. */
static int looked(void) {
    DO(hlr_lend(&many, 1, &owner));
    DO(hlr_look(&many, published));
    DO(hlr_home(&owner));
    DO(hlr_back(&many, 1));
    DO(hlr_close(&many));
    return 0;
}

static void *much(void *none) {
    int line;
    (void)none;
    if ((line = filled()) != 0 || (line = moved()) != 0 || (line = read_out()) != 0) return (void *)(intptr_t)line;
    if ((line = lent()) != 0 || (line = emptied()) != 0) return (void *)(intptr_t)line;
    return (void *)(intptr_t)looked();
}

/* What a thread does, and where its stack ends. */
static void *(*task)(void *);
static char *end;

/* Does it where STACK_KB are left. */
static void *begun(void *none) {
    size_t left = (size_t)((char *)__builtin_frame_address(0) - end);
    volatile char *unused = alloca(left - STACK_KB * 1024);
    unused[0] = 0;
    void *answer = task(none);
    unused[0] = 1;
    return answer;
}

/* What a thread with so small a stack answers. */
static int in_thread(void *(*work)(void *)) {
    size_t page = (size_t)sysconf(_SC_PAGESIZE), size = STACK_KB * 1024 + 4 * page;
    char *stack = mmap(NULL, page + size, PROT_READ | PROT_WRITE, MAP_PRIVATE | MAP_ANONYMOUS | MAP_STACK, -1, 0);
    pthread_attr_t how;
    pthread_t thread;
    void *answer;
    if (stack == MAP_FAILED || mprotect(stack, page, PROT_NONE)) return 2;
    if (pthread_attr_init(&how) || pthread_attr_setstack(&how, stack + page, size)) return 2;
    task = work;
    end = stack + page;
    if (pthread_create(&thread, &how, begun, NULL) || pthread_join(thread, &answer)) return 2;
    return (int)(intptr_t)answer;
}

int main(void) {
    int status = in_thread(day);
    if (status != 0) return status;
    status = in_thread(much);
    if (status != 0) fprintf(stderr, "line %d\n", status);
    return status != 0;
}

/* The calls with a journal in a thread with a stack of 256 KB and no byte more: a page that can't be touched lies below
 * it. All other calls on such a register are made in a stack of 64 KB. Each of SUBSCRIBERS has a facility and a location
 * of its own.
 *
 *   journal_stack PATH SUBSCRIBERS */
#define _GNU_SOURCE
#include "hlr.h"
#include <pthread.h>
#include <stdint.h>
#include <stdio.h>
#include <stdlib.h>
#include <sys/mman.h>
#include <unistd.h>

static hlr handle = HLR_CLOSED;
static hlr_file file = HLR_FILE_CLOSED;
static const char *path;
static uint64_t rows, bytes, counts[HLR_CELLS];

/* The line of a call that didn't return DONE. */
#define DO(call) do { if ((call) != HLR_DONE) return (void *)(intptr_t)__LINE__; } while (0)

static void *open_file(void *none) {
    DO(hlr_file_open(&file, path, &handle, 2, 524288));
    return none;
}

static void *take_snapshot(void *none) {
    DO(hlr_file_snapshot(&file, &handle));
    return none;
}

static void *change(void *none) {
    static hlr_subscriber row = {.msc_location = 1, .vlr_location = 1};
    static hlr_access access = {.ai_type = 1, .data3 = "ABC", .data4 = {'A', 'B', 'C', 'D', 'E'}};
    static hlr_facility facility = {.sf_type = 1, .is_active = 1, .data_b = {'A', 'B', 'C', 'D', 'E'}};
    for (uint64_t n = 0; n < rows; n++) {
        uint64_t s_id = 1 + n * 61681 % rows;
        row.s_id = row.sub_nbr = access.s_id = facility.s_id = s_id;
        DO(hlr_add_subscriber(&handle, &row));
        DO(hlr_add_access(&handle, &access));
        DO(hlr_add_facility(&handle, &facility));
        DO(hlr_insert_forwarding(&handle, s_id, 1, 8, 9, s_id));
        DO(hlr_update_location(&handle, s_id, s_id));
        DO(hlr_update_subscriber(&handle, s_id, 1, 1, 7));
        DO(hlr_set_number(&handle, s_id, rows + s_id));
        DO(hlr_set_active(&handle, s_id, 1, s_id % 2));
        if (s_id % 3 == 0) DO(hlr_delete_forwarding(&handle, rows + s_id, 1, 8));
    }
    DO(hlr_unsynced(&handle, &bytes));
    DO(hlr_sync(&handle));
    DO(hlr_scan(&handle, counts));
    return counts[HLR_AREA_CELL] == rows ? none : (void *)(intptr_t)__LINE__;
}

static void *close_file(void *none) {
    DO(hlr_file_close(&file, &handle));
    return none;
}

/* Returns what a thread with so small a stack returns. */
static int in_thread(void *(*work)(void *), size_t size) {
    size_t page = (size_t)sysconf(_SC_PAGESIZE);
    char *stack = mmap(NULL, page + size, PROT_READ | PROT_WRITE, MAP_PRIVATE | MAP_ANONYMOUS | MAP_STACK, -1, 0);
    pthread_attr_t how;
    pthread_t thread;
    void *answer;
    if (stack == MAP_FAILED || mprotect(stack, page, PROT_NONE)) return 2;
    if (pthread_attr_init(&how) || pthread_attr_setstack(&how, stack + page, size)) return 2;
    if (pthread_create(&thread, &how, work, NULL) || pthread_join(thread, &answer)) return 2;
    munmap(stack, page + size);
    return (int)(intptr_t)answer;
}

int main(int count, char **words) {
    static void *(*const steps[])(void *) = {open_file, change, take_snapshot, close_file, open_file, close_file};
    if (count != 3) return 2;
    path = words[1];
    rows = strtoull(words[2], NULL, 10);
    for (size_t at = 0; at < sizeof steps / sizeof *steps; at++) {
        int is_small = steps[at] == change || steps[at] == close_file;
        int line = in_thread(steps[at], is_small ? 64 * 1024 : 256 * 1024);
        if (line == 0) continue;
        fprintf(stderr, "line %d\n", line);
        return 1;
    }
    return 0;
}

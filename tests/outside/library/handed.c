/* A handle goes from thread to thread, and is closed in another one than it was opened in. */
#include "hlr.h"
#include <pthread.h>
#include <stdio.h>

static hlr handle = HLR_CLOSED;

static void *add(void *first) {
    for (uint64_t s_id = *(uint64_t *)first; s_id < *(uint64_t *)first + 500; s_id++) {
        hlr_subscriber row = {.s_id = s_id, .sub_nbr = s_id, .msc_location = 1, .vlr_location = 1};
        if (hlr_add_subscriber(&handle, &row)) return NULL;
    }
    return first;
}

static void *count(void *none) {
    uint64_t counts[HLR_CELLS];
    printf("%d", hlr_scan(&handle, counts));
    printf(" %d %d", (int)counts[24], (int)counts[40]);
    printf(" %d", hlr_close(&handle));
    printf(" %d\n", hlr_close(&handle));
    return none;
}

int main(void) {
    uint64_t firsts[] = {1, 501};
    pthread_t thread;
    void *told;
    if (hlr_open(4, 524288, &handle)) return 1;
    for (int turn = 0; turn < 2; turn++)
        if (pthread_create(&thread, NULL, add, &firsts[turn]) || pthread_join(thread, &told) || told != &firsts[turn]) return 1;
    return pthread_create(&thread, NULL, count, NULL) || pthread_join(thread, &told);
}

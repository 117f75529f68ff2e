/* Calls a second from threads that each have a part of a register, and from threads that share its handle by a lock:
 * owners SUBSCRIBERS CALLS MOST_THREADS. Each line is a load, the threads, calls a second by owners, and by the lock. With one
 * thread and no owner nobody takes the lock. reads are of subscribers; many are 16 reads in a call, each of which counts; mix is
 * that of bench/library.c, where owners go by the s_id and the handle by the number. */
#define _POSIX_C_SOURCE 200809L
#include "hlr.h"
#include "shared.h"
#include <inttypes.h>
#include <pthread.h>
#include <stdio.h>
#include <stdlib.h>

enum { MOST = 16, MANY = 16 };
typedef enum { READS, MANY_READS, MIX } load;
static const char *const names[] = {"reads", "many", "mix"};

/* No two share a line of the cache. */
typedef struct {
    _Alignas(128) hlr_part owner;
    uint64_t seed, first, count, calls, refused, sum;
    load load;
    int has_lock;
    hlr_subscriber rows[MANY];
    uint8_t codes[MANY];
} worker;

static hlr handle = HLR_CLOSED;
static pthread_mutex_t lock = PTHREAD_MUTEX_INITIALIZER;
static pthread_barrier_t gate;
static worker workers[MOST];

static uint64_t drawn(worker *by) { return drawn_from(&by->seed); }

static double now(void) { return seconds_of(CLOCK_MONOTONIC); }

static uint64_t is_refused(uint8_t code) {
    return code != HLR_DONE && code != HLR_NO_DESTINATION && code != HLR_EXISTS && code != HLR_NO_FORWARDING;
}

/* one call, by the part or by the handle */
static void call_part(worker *by, uint64_t s_id, uint64_t kind) {
    hlr_subscriber subscriber = {0};
    hlr_access access = {0};
    hlr_numbers numbers = {0};
    uint8_t code;
    if (kind < 35) code = hlr_part_subscriber_data(&by->owner, s_id, &subscriber);
    else if (kind < 45) code = hlr_part_new_destination(&by->owner, s_id, 1, 8, 12, &numbers);
    else if (kind < 80) code = hlr_part_access_data(&by->owner, s_id, 1, &access);
    else if (kind < 82) code = hlr_part_update_subscriber(&by->owner, s_id, 1, kind & 1, s_id & 255);
    else if (kind < 96) code = hlr_part_update_location(&by->owner, s_id, drawn(by) % 4294967295u + 1);
    else if (kind < 98) code = hlr_part_insert_forwarding(&by->owner, s_id, 1, 16, 24, 100);
    else code = hlr_part_delete_forwarding(&by->owner, s_id, 1, 16);
    by->refused += is_refused(code);
    by->sum += subscriber.vlr_location + access.data3[0] + numbers.numbers[0];
}
static void call_handle(worker *by, uint64_t s_id, uint64_t kind) {
    hlr_subscriber subscriber = {0};
    hlr_access access = {0};
    hlr_numbers numbers = {0};
    uint8_t code;
    if (kind < 35) code = hlr_subscriber_data(&handle, s_id, &subscriber);
    else if (kind < 45) code = hlr_new_destination(&handle, s_id, 1, 8, 12, &numbers);
    else if (kind < 80) code = hlr_access_data(&handle, s_id, 1, &access);
    else if (kind < 82) code = hlr_update_subscriber(&handle, s_id, 1, kind & 1, s_id & 255);
    else if (kind < 96) code = hlr_update_location(&handle, number(s_id), drawn(by) % 4294967295u + 1);
    else if (kind < 98) code = hlr_insert_forwarding(&handle, number(s_id), 1, 16, 24, 100);
    else code = hlr_delete_forwarding(&handle, number(s_id), 1, 16);
    by->refused += is_refused(code);
    by->sum += subscriber.vlr_location + access.data3[0] + numbers.numbers[0];
}

static uint64_t drawn_subscriber(worker *by) { return by->first + drawn(by) % by->count; }

/* many reads in one call, by the part or by the handle */
static void call_many(worker *by, int is_owner) {
    uint64_t s_ids[MANY];
    uint8_t code;
    for (int i = 0; i < MANY; i++) s_ids[i] = drawn_subscriber(by);
    if (is_owner) code = hlr_part_subscriber_data_many(&by->owner, s_ids, MANY, by->rows, MANY, by->codes, MANY);
    else code = hlr_subscriber_data_many(&handle, s_ids, MANY, by->rows, MANY, by->codes, MANY);
    by->refused += is_refused(code);
    for (int i = 0; i < MANY; i++) {
        by->refused += is_refused(by->codes[i]);
        by->sum += by->rows[i].vlr_location;
    }
}

static void call_one(worker *by, int is_owner) {
    uint64_t s_id = drawn_subscriber(by), kind = by->load == MIX ? drawn(by) % 100 : 0;
    if (is_owner) call_part(by, s_id, kind);
    else call_handle(by, s_id, kind);
}

static void *work(void *argument) {
    worker *by = argument;
    int is_owner = by->owner.mark != 0, has_lock = by->has_lock && !is_owner;
    pthread_barrier_wait(&gate);
    for (uint64_t turn = 0; turn < by->calls; turn += by->load == MANY_READS ? MANY : 1) {
        if (has_lock) pthread_mutex_lock(&lock);
        if (by->load == MANY_READS) call_many(by, is_owner);
        else call_one(by, is_owner);
        if (has_lock) pthread_mutex_unlock(&lock);
    }
    if (is_owner) hlr_home(&by->owner);
    return 0;
}

/* Calls a second of so many threads, with a part each or with the handle. */
static double run(uint64_t threads, uint64_t subscribers, uint64_t calls, load load, int are_owners) {
    pthread_t started[MOST];
    pthread_barrier_init(&gate, 0, (unsigned)threads + 1);
    for (uint64_t i = 0; i < threads; i++) {
        workers[i] = (worker){.owner = HLR_CLOSED, .seed = FIRST_SEED * (i + 1), .first = 1, .count = subscribers, .calls = calls / threads,
                              .load = load, .has_lock = threads > 1};
        if (are_owners) {
            uint64_t behind;
            if (hlr_lend(&handle, i, &workers[i].owner) || hlr_part_range(&workers[i].owner, &workers[i].first, &behind)) exit(1);
            workers[i].count = (behind < subscribers + 1 ? behind : subscribers + 1) - workers[i].first;
        }
        if (pthread_create(&started[i], 0, work, &workers[i])) exit(1);
    }
    double begun = now();
    pthread_barrier_wait(&gate);
    for (uint64_t i = 0; i < threads; i++) pthread_join(started[i], 0);
    double took = now() - begun;
    for (uint64_t i = 0; i < threads; i++) {
        if (workers[i].refused) exit(1);
        if (are_owners && hlr_back(&handle, i)) exit(1);
    }
    pthread_barrier_destroy(&gate);
    return (double)(calls / threads * threads) / took;
}

static void fill(uint64_t subscribers) {
    for (uint64_t turn = 0; turn < subscribers; turn++) {
        uint64_t s_id = turn * 7919 % subscribers + 1;
        hlr_subscriber subscriber = {.s_id = s_id, .sub_nbr = number(s_id), .msc_location = 1, .vlr_location = s_id};
        hlr_access access = {.s_id = s_id, .ai_type = 1, .data3 = {'A', 'B', 'C'}, .data4 = {'A', 'B', 'C', 'D', 'E'}};
        hlr_facility facility = {.s_id = s_id, .sf_type = 1, .is_active = 1, .data_b = {'A', 'B', 'C', 'D', 'E'}};
        if (hlr_add_subscriber(&handle, &subscriber) || hlr_add_access(&handle, &access) || hlr_add_facility(&handle, &facility)
            || hlr_insert_forwarding(&handle, subscriber.sub_nbr, 1, 8, 16, 100)) exit(1);
    }
}

int main(int argc, char **argv) {
    if (argc < 4) return 2;
    uint64_t subscribers = strtoull(argv[1], 0, 10), calls = strtoull(argv[2], 0, 10), most = strtoull(argv[3], 0, 10);
    for (uint64_t threads = 1; threads <= most && threads <= MOST; threads++) {
        if (hlr_open(threads, (subscribers + 31) / 32, &handle)) return 1;
        fill(subscribers);
        for (load load = READS; load <= MIX; load++) {
            double owners = run(threads, subscribers, calls, load, 1), shared = run(threads, subscribers, calls, load, 0);
            printf("%s %" PRIu64 " %.0f %.0f\n", names[load], threads, owners, shared);
        }
        hlr_close(&handle);
    }
    return 0;
}

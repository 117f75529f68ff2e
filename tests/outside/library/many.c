/* Many questions in one call: each answer is that of the call for one, and what a refused one was to write stays as it was.
 * Lists whose counts differ are refused, and nothing is written. Prints each line that fails. */
#include "hlr.h"
#include <stdio.h>
#include <string.h>

/* the last block of sixteen isn't full */
enum { SUBSCRIBERS = 72, TYPES = 6, COUNT = SUBSCRIBERS * TYPES - 3 };

static hlr handle = HLR_CLOSED;
static hlr_part owner = HLR_CLOSED;
static int failed, answered[256];

#define IS(what) (what) ? (void)0 : (failed = 1, (void)printf("line %d: %s\n", __LINE__, #what))
#define DONE(call) IS((call) == HLR_DONE)
#define OTHER(value) memset(&(value), 0xee, sizeof(value))
#define SAME(one, other) IS(!memcmp(&(one), &(other), sizeof(one)))

/* what the many answer, and what one answers */
static uint8_t codes[COUNT], others[COUNT];
static hlr_subscriber rows[COUNT], row;
static hlr_access accesses[COUNT], access_row;
static hlr_numbers numbers[COUNT], found;

/* s_ids 1 to 70 without each seventh; those from 40 to 64 lie in a loose piece */
static void filled(void) {
    hlr_region piece;
    DONE(hlr_open(2, 4, &handle));
    for (uint64_t s_id = 1; s_id <= 70; s_id++) {
        hlr_subscriber one = {.s_id = s_id, .sub_nbr = 1000 + s_id, .msc_location = s_id, .vlr_location = 2 * s_id};
        hlr_access access = {.s_id = s_id, .ai_type = 1 + s_id % 4, .data1 = s_id, .data3 = "ABC", .data4 = "VWXYZ"};
        hlr_facility facility = {.s_id = s_id, .sf_type = 1 + s_id % 4, .is_active = s_id % 3 > 0, .data_b = "FGHIJ"};
        if (s_id % 7 == 0) continue;
        DONE(hlr_add_subscriber(&handle, &one));
        DONE(hlr_add_access(&handle, &access));
        DONE(hlr_add_facility(&handle, &facility));
        for (uint64_t start = 0; start < 24; start += 8)
            DONE(hlr_insert_forwarding(&handle, 1000 + s_id, 1 + s_id % 4, start, start + 1 + s_id % 8, 100 * s_id + start));
    }
    OTHER(piece);
    DONE(hlr_give(&handle, 0, 1, 40, &piece));
}

static void subscribers(void) {
    uint64_t s_ids[COUNT];
    for (int i = 0; i < COUNT; i++) s_ids[i] = i < SUBSCRIBERS ? (uint64_t)(SUBSCRIBERS - 1 - i) : UINT64_C(16777216) + i % 2;
    OTHER(rows);
    OTHER(codes);
    DONE(hlr_subscriber_data_many(&handle, s_ids, COUNT, rows, COUNT, codes, COUNT));
    for (int i = 0; i < COUNT; i++) {
        OTHER(row);
        IS(codes[i] == hlr_subscriber_data(&handle, s_ids[i], &row));
        SAME(rows[i], row);
        answered[codes[i]]++;
    }
    IS(answered[HLR_DONE] > 30 && answered[HLR_NO_SUBSCRIBER] && answered[HLR_FIELD] && answered[HLR_MOVING]);
}

static void access_rows(void) {
    hlr_access_asked asked[COUNT];
    for (int i = 0; i < COUNT; i++) asked[i] = (hlr_access_asked){i / TYPES, i < COUNT / 2 ? i % TYPES : 1 + i % 4};
    OTHER(accesses);
    OTHER(codes);
    DONE(hlr_access_data_many(&handle, asked, COUNT, accesses, COUNT, codes, COUNT));
    for (int i = 0; i < COUNT; i++) {
        OTHER(access_row);
        IS(codes[i] == hlr_access_data(&handle, asked[i].s_id, asked[i].ai_type, &access_row));
        SAME(accesses[i], access_row);
        answered[codes[i]]++;
    }
    IS(answered[HLR_NO_ACCESS]);
}

/* each second block has subscribers of one part and fields in range, so that it is asked at once: at one hour, or at all */
static void destinations(void) {
    hlr_destination_asked asked[COUNT];
    for (int i = 0; i < COUNT; i++) {
        int hour = i / 32 % 4 < 3 ? i / 32 % 4 : i % 3;
        asked[i] = i / 16 % 2 ? (hlr_destination_asked){1 + i % 39, 1 + i % 4, hour * 8, 1 + i % 24}
                              : (hlr_destination_asked){i / TYPES, i % TYPES, i % 4 * 8, 1 + i % 25};
    }
    OTHER(numbers);
    OTHER(codes);
    DONE(hlr_new_destination_many(&handle, asked, COUNT, numbers, COUNT, codes, COUNT));
    for (int i = 0; i < COUNT; i++) {
        OTHER(found);
        IS(codes[i] == hlr_new_destination(&handle, asked[i].s_id, asked[i].sf_type, asked[i].start_time, asked[i].end_time, &found));
        SAME(numbers[i], found);
        answered[codes[i]]++;
    }
    IS(answered[HLR_NO_DESTINATION]);
}

/* the same of a part that is out: its own subscribers alone, so that whole blocks are asked at once, or all */
static void of_part(uint64_t lo, uint64_t count) {
    uint64_t s_ids[COUNT];
    hlr_access_asked access_asked[COUNT];
    hlr_destination_asked asked[COUNT];
    for (int i = 0; i < COUNT; i++) {
        s_ids[i] = lo + i % count;
        access_asked[i] = (hlr_access_asked){s_ids[i], 1 + i % 4};
        asked[i] = (hlr_destination_asked){s_ids[i], 1 + i % 4, i % 3 * 8, 1 + i % 24};
    }
    OTHER(rows);
    OTHER(accesses);
    OTHER(numbers);
    DONE(hlr_part_subscriber_data_many(&owner, s_ids, COUNT, rows, COUNT, codes, COUNT));
    DONE(hlr_part_access_data_many(&owner, access_asked, COUNT, accesses, COUNT, others, COUNT));
    for (int i = 0; i < COUNT; i++) {
        OTHER(row);
        OTHER(access_row);
        IS(codes[i] == hlr_part_subscriber_data(&owner, s_ids[i], &row));
        IS(others[i] == hlr_part_access_data(&owner, s_ids[i], access_asked[i].ai_type, &access_row));
        SAME(rows[i], row);
        SAME(accesses[i], access_row);
    }
    DONE(hlr_part_new_destination_many(&owner, asked, COUNT, numbers, COUNT, codes, COUNT));
    for (int i = 0; i < COUNT; i++) {
        OTHER(found);
        IS(codes[i] == hlr_part_new_destination(&owner, s_ids[i], asked[i].sf_type, asked[i].start_time, asked[i].end_time, &found));
        SAME(numbers[i], found);
        answered[codes[i]]++;
    }
}

/* nothing is written where the answer is another one than HLR_DONE */
static void refused(uint8_t code, uint8_t wanted) {
    static uint8_t other[sizeof rows + sizeof accesses + sizeof numbers];
    IS(code == wanted);
    OTHER(other);
    OTHER(others);
    IS(!memcmp(rows, other, sizeof rows) && !memcmp(accesses, other, sizeof accesses) && !memcmp(numbers, other, sizeof numbers));
    IS(!memcmp(codes, others, sizeof codes));
}

static void refusals(uint8_t wanted, size_t one, size_t two, size_t three) {
    uint64_t s_ids[COUNT] = {1, 2, 3};
    hlr_access_asked access_asked[COUNT] = {{1, 2}, {2, 3}, {3, 4}};
    hlr_destination_asked asked[COUNT] = {{1, 2, 0, 1}, {2, 3, 0, 1}, {3, 4, 0, 1}};
    OTHER(rows);
    OTHER(accesses);
    OTHER(numbers);
    OTHER(codes);
    refused(hlr_subscriber_data_many(&handle, s_ids, one, rows, two, codes, three), wanted);
    refused(hlr_access_data_many(&handle, access_asked, one, accesses, two, codes, three), wanted);
    refused(hlr_new_destination_many(&handle, asked, one, numbers, two, codes, three), wanted);
}

int main(void) {
    filled();
    subscribers();
    access_rows();
    destinations();
    DONE(hlr_lend(&handle, 1, &owner));
    subscribers();
    access_rows();
    destinations();
    IS(answered[HLR_AWAY]);
    of_part(65, 6);
    DONE(hlr_home(&owner));
    DONE(hlr_back(&handle, 1));
    DONE(hlr_lend(&handle, 0, &owner));
    of_part(1, 39);
    of_part(1, 40);
    IS(answered[HLR_ELSEWHERE]);
    DONE(hlr_home(&owner));
    DONE(hlr_back(&handle, 0));
    refusals(HLR_FIELD, 3, 2, 3);
    refusals(HLR_FIELD, 3, 3, 4);
    refusals(HLR_FIELD, 0, 3, 3);
    refusals(HLR_DONE, 0, 0, 0);
    DONE(hlr_close(&handle));
    refusals(HLR_NOT_OPEN, 3, 3, 3);
    refusals(HLR_NOT_OPEN, 3, 2, 1);
    return failed;
}

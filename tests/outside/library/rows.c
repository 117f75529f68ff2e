/* Every field that C hands in is the library's field of that name, and every field that it gets. No two fields have the
 * same value, and what is written was filled with other bytes before. Prints each line that fails. */
#include "hlr.h"
#include <stdio.h>
#include <stdlib.h>
#include <string.h>

static hlr handle = HLR_CLOSED;
static int failed;

#define IS(what) (what) ? (void)0 : (failed = 1, (void)printf("line %d: %s\n", __LINE__, #what))
#define DONE(call) IS((call) == HLR_DONE)
#define SAME(of, field) IS(!memcmp(&found.field, &of.field, sizeof of.field))
#define OTHER(value) memset(&value, 0xee, sizeof value)

/* one field out of its range is refused, with all others in theirs */
#define REFUSED(call, of, field, value) \
    do { \
        of = in_range; \
        of.field = value; \
        IS(call == HLR_FIELD); \
        of = in_range; \
    } while (0)

static hlr_subscriber seventy = {
    .s_id = 70,
    .sub_nbr = 123456789012345,
    .bits = {1, 0, 0, 1, 0, 1, 1, 1, 0, 1},
    .hexes = {15, 0, 14, 3, 9, 4, 7, 12, 6, 8},
    .bytes = {255, 0, 128, 16, 99, 200, 5, 64, 33, 254},
    .msc_location = 4294967295,
    .vlr_location = 268435456,
};

static void found_is_seventy(void) {
    hlr_subscriber found;
    OTHER(found);
    DONE(hlr_subscriber_data(&handle, 70, &found));
    SAME(seventy, s_id);
    SAME(seventy, sub_nbr);
    SAME(seventy, bits);
    SAME(seventy, hexes);
    SAME(seventy, bytes);
    SAME(seventy, msc_location);
    SAME(seventy, vlr_location);
}

/* an added row comes back as it was; a change of bit_1, of the number and of the location changes just that field */
static void subscriber(void) {
    hlr_subscriber in_range = seventy;
    REFUSED(hlr_add_subscriber(&handle, &seventy), seventy, s_id, 0);
    REFUSED(hlr_add_subscriber(&handle, &seventy), seventy, sub_nbr, 1000000000000000);
    for (int place = 0; place < 10; place++) {
        REFUSED(hlr_add_subscriber(&handle, &seventy), seventy, bits[place], 2);
        REFUSED(hlr_add_subscriber(&handle, &seventy), seventy, hexes[place], 16);
    }
    REFUSED(hlr_add_subscriber(&handle, &seventy), seventy, msc_location, 0);
    REFUSED(hlr_add_subscriber(&handle, &seventy), seventy, vlr_location, 0);
    DONE(hlr_add_subscriber(&handle, &seventy));
    found_is_seventy();
    DONE(hlr_update_location(&handle, 123456789012345, 536870912));
    seventy.vlr_location = 536870912;
    found_is_seventy();
    DONE(hlr_set_number(&handle, 70, 543210987654321));
    seventy.sub_nbr = 543210987654321;
    found_is_seventy();
}

static void access_of_seventy(void) {
    hlr_access row = {
        .s_id = 70,
        .ai_type = 3,
        .data1 = 201,
        .data2 = 102,
        .data3 = {'A', 'B', 'C'},
        .data4 = {'V', 'W', 'X', 'Y', 'Z'},
    };
    hlr_access in_range = row, found;
    REFUSED(hlr_add_access(&handle, &row), row, s_id, 16777217);
    REFUSED(hlr_add_access(&handle, &row), row, ai_type, 5);
    REFUSED(hlr_add_access(&handle, &row), row, data1, 256);
    REFUSED(hlr_add_access(&handle, &row), row, data2, 256);
    for (int place = 0; place < 3; place++) REFUSED(hlr_add_access(&handle, &row), row, data3[place], 'a');
    for (int place = 0; place < 5; place++) REFUSED(hlr_add_access(&handle, &row), row, data4[place], '@');
    DONE(hlr_add_access(&handle, &row));
    OTHER(found);
    DONE(hlr_access_data(&handle, 70, 3, &found));
    SAME(row, s_id);
    SAME(row, ai_type);
    SAME(row, data1);
    SAME(row, data2);
    SAME(row, data3);
    SAME(row, data4);
    IS(hlr_access_data(&handle, 70, 2, &found) == HLR_NO_ACCESS);
}

static void facility(void) {
    hlr_facility row = {
        .s_id = 70,
        .sf_type = 2,
        .is_active = 1,
        .error_cntrl = 203,
        .data_a = 104,
        .data_b = {'F', 'G', 'H', 'I', 'J'},
    };
    hlr_facility in_range = row, found;
    REFUSED(hlr_add_facility(&handle, &row), row, s_id, 16777217);
    REFUSED(hlr_add_facility(&handle, &row), row, sf_type, 5);
    REFUSED(hlr_add_facility(&handle, &row), row, is_active, 2);
    REFUSED(hlr_add_facility(&handle, &row), row, error_cntrl, 256);
    REFUSED(hlr_add_facility(&handle, &row), row, data_a, 256);
    for (int place = 0; place < 5; place++) REFUSED(hlr_add_facility(&handle, &row), row, data_b[place], '[');
    DONE(hlr_add_facility(&handle, &row));
    OTHER(found);
    DONE(hlr_facility_data(&handle, 70, 2, &found));
    SAME(row, s_id);
    SAME(row, sf_type);
    SAME(row, is_active);
    SAME(row, error_cntrl);
    SAME(row, data_a);
    SAME(row, data_b);
    IS(hlr_facility_data(&handle, 70, 3, &found) == HLR_NO_FACILITY);
    row.sf_type = 4;
    row.is_active = 0;
    DONE(hlr_add_facility(&handle, &row));
    DONE(hlr_update_subscriber(&handle, 70, 2, 0, 255));
    seventy.bits[0] = 0;
    found_is_seventy();
    IS(hlr_update_subscriber(&handle, 70, 3, 0, 255) == HLR_NO_FACILITY);
    IS(hlr_update_subscriber(&handle, 70, 2, 2, 255) == HLR_FIELD);
    IS(hlr_update_subscriber(&handle, 70, 2, 1, 256) == HLR_FIELD);
}

static void numbers(void) {
    hlr_numbers found;
    uint64_t number = seventy.sub_nbr, end_time = 0, numberx = 0;
    OTHER(found);
    DONE(hlr_insert_forwarding(&handle, number, 2, 8, 22, 800));
    DONE(hlr_insert_forwarding(&handle, number, 2, 0, 23, 999999999999999));
    DONE(hlr_insert_forwarding(&handle, number, 2, 16, 24, 1600));
    DONE(hlr_insert_forwarding(&handle, number, 4, 8, 24, 4));
    DONE(hlr_forwarding(&handle, 70, 2, 8, &end_time, &numberx));
    IS(end_time == 22 && numberx == 800);
    IS(hlr_forwarding(&handle, 70, 4, 16, &end_time, &numberx) == HLR_NO_FORWARDING);
    DONE(hlr_find(&handle, number, &numberx));
    IS(numberx == 70);
    IS(hlr_find(&handle, number + 1, &numberx) == HLR_NO_NUMBER);
    IS(hlr_find(&handle, UINT64_C(1000000000000000), &numberx) == HLR_FIELD);
    IS(hlr_new_destination(&handle, 70, 4, 8, 12, &found) == HLR_NO_DESTINATION);
    DONE(hlr_new_destination(&handle, 70, 2, 16, 21, &found));
    IS(found.count == 3);
    IS(found.numbers[0] == 999999999999999 && found.numbers[1] == 800 && found.numbers[2] == 1600);
    OTHER(found);
    DONE(hlr_new_destination(&handle, 70, 2, 8, 22, &found));
    IS(found.count == 1);
    IS(found.numbers[0] == 999999999999999 && found.numbers[1] == 0 && found.numbers[2] == 0);
    DONE(hlr_set_active(&handle, 70, 4, 1));
    DONE(hlr_delete_forwarding(&handle, number, 2, 8));
    DONE(hlr_new_destination(&handle, 70, 4, 8, 12, &found));
    IS(found.count == 1 && found.numbers[0] == 4);
}

static int is_forwarding(hlr_forwarding_row found, uint64_t sf_type, uint64_t start_time, uint64_t end_time,
                         uint64_t numberx) {
    return found.s_id == 70 && found.sf_type == sf_type && found.start_time == start_time && found.end_time == end_time &&
           found.numberx == numberx;
}

/* each field of a row that is listed, and no byte behind the last row */
static void listed(void) {
    struct { hlr_subscriber rows[1]; uint8_t behind[8]; } subscribers;
    struct { hlr_access rows[1]; uint8_t behind[8]; } accesses;
    struct { hlr_facility rows[2]; uint8_t behind[8]; } facilities;
    struct { hlr_forwarding_row rows[3]; uint8_t behind[8]; } forwardings;
    uint8_t other[8];
    uint64_t count, width;
    OTHER(subscribers);
    OTHER(accesses);
    OTHER(facilities);
    OTHER(forwardings);
    OTHER(other);
    OTHER(count);
    OTHER(width);
    DONE(hlr_next_subscribers(&handle, 70, subscribers.rows, 1, &count));
    IS(count == 1 && !memcmp(subscribers.behind, other, 8));
    hlr_subscriber found = subscribers.rows[0];
    SAME(seventy, s_id);
    SAME(seventy, sub_nbr);
    SAME(seventy, bits);
    SAME(seventy, hexes);
    SAME(seventy, bytes);
    SAME(seventy, msc_location);
    SAME(seventy, vlr_location);
    DONE(hlr_next_accesses(&handle, 70, 3, accesses.rows, 1, &count));
    IS(count == 1 && !memcmp(accesses.behind, other, 8));
    IS(accesses.rows[0].s_id == 70 && accesses.rows[0].ai_type == 3 && accesses.rows[0].data1 == 201);
    IS(accesses.rows[0].data2 == 102 && !memcmp(accesses.rows[0].data3, "ABC", 3));
    IS(!memcmp(accesses.rows[0].data4, "VWXYZ", 5));
    DONE(hlr_next_facilities(&handle, 0, 0, facilities.rows, 2, &count));
    IS(count == 2 && !memcmp(facilities.behind, other, 8));
    IS(facilities.rows[0].s_id == 70 && facilities.rows[0].sf_type == 2 && facilities.rows[0].is_active == 1);
    IS(facilities.rows[0].error_cntrl == 203 && facilities.rows[0].data_a == 255);
    IS(!memcmp(facilities.rows[0].data_b, "FGHIJ", 5) && facilities.rows[1].sf_type == 4);
    DONE(hlr_next_forwardings(&handle, 70, 2, 0, forwardings.rows, 3, &count));
    IS(count == 3 && !memcmp(forwardings.behind, other, 8));
    IS(is_forwarding(forwardings.rows[0], 2, 0, 23, 999999999999999));
    IS(is_forwarding(forwardings.rows[1], 2, 16, 24, 1600));
    IS(is_forwarding(forwardings.rows[2], 4, 8, 24, 4));
    DONE(hlr_width(&handle, &width));
    IS(width == 4);
}

static int is_region(hlr_region found, uint64_t lo, uint64_t hi, uint64_t is_piece, uint64_t number) {
    return found.lo == lo && found.hi == hi && found.is_piece == is_piece && found.number == number;
}

static void regions(void) {
    hlr_region_list list;
    hlr_region found;
    OTHER(list);
    OTHER(found);
    DONE(hlr_give(&handle, 0, 1, 33, &found));
    IS(is_region(found, 33, 65, 1, 1));
    DONE(hlr_give(&handle, 1, 0, 101, &found));
    IS(is_region(found, 65, 101, 1, 2));
    DONE(hlr_regions(&handle, &list));
    IS(list.count == 4);
    IS(is_region(list.regions[0], 1, 33, 0, 0));
    IS(is_region(list.regions[1], 33, 65, 1, 1));
    IS(is_region(list.regions[2], 65, 101, 1, 2));
    IS(is_region(list.regions[3], 101, 16777217, 0, 1));
    for (int place = 4; place < 32; place++) IS(is_region(list.regions[place], 0, 0, 0, 0));
    DONE(hlr_take(&handle, 2, 1));
    DONE(hlr_take(&handle, 1, 0));
    DONE(hlr_divide(&handle, 1, 200, &found));
    IS(is_region(found, 200, 16777217, 0, 2));
    DONE(hlr_regions(&handle, &list));
    IS(list.count == 3);
    IS(is_region(list.regions[1], 65, 200, 0, 1));
    for (uint64_t turn = 0; turn < 13; turn++) DONE(hlr_divide(&handle, 2 + turn, 300 + turn, &found));
    IS(hlr_divide(&handle, 15, 313, &found) == HLR_MANY_PARTS);
    DONE(hlr_regions(&handle, &list));
    IS(list.count == 16);
    IS(is_region(list.regions[15], 312, 16777217, 0, 15));
    for (uint64_t turn = 0; turn < 13; turn++) DONE(hlr_dissolve(&handle, 15 - turn, &found));
    IS(is_region(found, 200, 16777217, 0, 2));
}

/* what is proposed is what the parts are cut to */
static void bounds(void) {
    hlr_bounds cuts = {.count = 2, .bounds = {9, 77}};
    hlr_region_list list;
    uint64_t moved, posted, part;
    OTHER(moved);
    OTHER(posted);
    DONE(hlr_recut(&handle, &cuts, &moved));
    IS(moved == 2);
    DONE(hlr_regions(&handle, &list));
    IS(list.count == 3 && list.regions[1].lo == 9 && list.regions[2].lo == 77);
    cuts.count = 1;
    IS(hlr_recut(&handle, &cuts, &moved) == HLR_FIELD);
    cuts.count = 16;
    IS(hlr_recut(&handle, &cuts, &moved) == HLR_FIELD);
    for (part = 0; part < 3; part++) DONE(hlr_post(&handle, part, HLR_CELLS, &posted));
    OTHER(cuts);
    DONE(hlr_propose(&handle, &cuts));
    IS(cuts.count == 2 && 1 < cuts.bounds[0] && cuts.bounds[0] < cuts.bounds[1]);
    for (int place = 2; place < 15; place++) IS(cuts.bounds[place] == 0);
    DONE(hlr_recut(&handle, &cuts, &moved));
    DONE(hlr_regions(&handle, &list));
    IS(list.regions[1].lo == cuts.bounds[0] && list.regions[2].lo == cuts.bounds[1]);
}

/* what is published stands in the first array, and what isn't in the second; both with what is counted */
static void cells(void) {
    int64_t published[HLR_CELLS], unposted[HLR_CELLS];
    uint64_t counts[HLR_CELLS];
    OTHER(published);
    OTHER(unposted);
    OTHER(counts);
    hlr_subscriber row = seventy;
    row.s_id = 71;
    row.sub_nbr = 71;
    DONE(hlr_add_subscriber(&handle, &row));
    DONE(hlr_views(&handle, published, unposted));
    DONE(hlr_scan(&handle, counts));
    /* both subscribers are in area 26, whose location begins at 536870912; the second one isn't posted */
    IS(published[26] == 1 && unposted[26] == 1 && counts[26] == 2);
    for (int cell = 0; cell < HLR_CELLS; cell++) IS(published[cell] + unposted[cell] == (int64_t)counts[cell]);
}

/* open handles are moved as bytes, and the old places are used no more */
static void moved(void) {
    hlr_subscriber row = {.s_id = 0, .sub_nbr = 1, .msc_location = 1, .vlr_location = 1};
    hlr *handles = calloc(2, sizeof *handles), *others = malloc(100 * sizeof *others);
    for (int place = 0; place < 2; place++) {
        DONE(hlr_open(1, 4, &handles[place]));
        row.s_id = place + 1;
        DONE(hlr_add_subscriber(&handles[place], &row));
    }
    memcpy(others, handles, 2 * sizeof *handles);
    OTHER(*handles);
    free(handles);
    for (int place = 0; place < 2; place++) {
        DONE(hlr_subscriber_data(&others[place], place + 1, &row));
        IS(hlr_subscriber_data(&others[place], 2 - place, &row) == HLR_NO_SUBSCRIBER);
        DONE(hlr_close(&others[place]));
    }
    free(others);
}

int main(void) {
    DONE(hlr_open(2, 4, &handle));
    subscriber();
    access_of_seventy();
    facility();
    numbers();
    listed();
    regions();
    bounds();
    cells();
    DONE(hlr_close(&handle));
    moved();
    return failed;
}

/* Parts that are lent: owners in threads at work while the register adds rows, looks and takes parts in; two registers
 * whose owners come home in every order; and each allocation of a lend refused (malloc is wrapped). It prints what went
 * wrong, and nothing else. */
#include "hlr.h"
#include <pthread.h>
#include <sched.h>
#include <stdio.h>
#include <stdlib.h>

#define PARTS 4
#define ROUNDS 20
#define ROWS 24
#define WIDTH 32                 /* so part p begins at 1 + p * 256 */
#define FIRST(p) (1 + (p) * 256)

static int wrong;
static void expect(int is, const char *what) {
    if (!is) {
        printf("%s\n", what);
        wrong = 1;
    }
}

void *__real_malloc(size_t size);
void *__real_realloc(void *old, size_t size);
static long left = -1; /* how many pieces of memory are given before one is refused; below 0, all are */
static int refused(void) { return left >= 0 && left-- == 0; }
void *__wrap_malloc(size_t size) { return refused() ? NULL : __real_malloc(size); }
void *__wrap_realloc(void *old, size_t size) { return refused() ? NULL : __real_realloc(old, size); }

static uint8_t add(hlr *handle, uint64_t s_id) {
    hlr_subscriber row = {.s_id = s_id, .sub_nbr = s_id, .msc_location = 1, .vlr_location = 1};
    hlr_facility facility = {.s_id = s_id, .sf_type = 2, .is_active = 1, .data_b = "AAAA"};
    facility.data_b[4] = 'A';
    uint8_t code = hlr_add_subscriber(handle, &row);
    return code ? code : hlr_add_facility(handle, &facility);
}

static uint64_t location(hlr *handle, uint64_t s_id) {
    hlr_subscriber row = {0};
    expect(hlr_subscriber_data(handle, s_id, &row) == HLR_DONE, "a row is read");
    return row.vlr_location;
}

/* What is published and not posted adds up to what is counted. */
static void expect_counts(hlr *handle) {
    int64_t published[HLR_CELLS] = {0}, unposted[HLR_CELLS] = {0};
    uint64_t counts[HLR_CELLS] = {0};
    expect(hlr_views(handle, published, unposted) == HLR_DONE && hlr_scan(handle, counts) == HLR_DONE, "all are home");
    for (int cell = 0; cell < HLR_CELLS; cell++)
        expect(published[cell] + unposted[cell] == (int64_t)counts[cell], "a cell is its count");
}

/* An owner's thread: its rows move on by one area, and a forwarding of each comes or goes; then it goes home. */
static void *work(void *owner) {
    hlr_part *part = owner;
    uint64_t lo = 0, hi = 0, posted = 0;
    hlr_numbers numbers = {0};
    int bad = hlr_part_range(part, &lo, &hi) != HLR_DONE || hi <= lo;
    for (uint64_t s_id = lo; s_id < lo + ROWS; s_id++) {
        hlr_subscriber row = {0};
        bad |= hlr_part_subscriber_data(part, s_id, &row) != HLR_DONE || row.s_id != s_id;
        bad |= hlr_part_update_location(part, s_id, row.vlr_location + (UINT64_C(1) << 26)) != HLR_DONE;
        if (hlr_part_insert_forwarding(part, s_id, 2, 8, 16, s_id) == HLR_EXISTS)
            bad |= hlr_part_delete_forwarding(part, s_id, 2, 8) != HLR_DONE;
        else
            bad |= hlr_part_new_destination(part, s_id, 2, 8, 12, &numbers) != HLR_DONE || numbers.numbers[0] != s_id;
        if (s_id % 7 == 0) bad |= hlr_part_post(part, 5, &posted) != HLR_DONE;
    }
    bad |= hlr_part_update_location(part, hi, 1) != (hi == 16777217 ? HLR_FIELD : HLR_ELSEWHERE);
    bad |= hlr_part_post(part, HLR_CELLS, &posted) != HLR_DONE;
    bad |= hlr_home(part) != HLR_DONE || hlr_home(part) != HLR_NOT_OPEN;
    return bad ? owner : NULL;
}

/* Parts 1 to 3 go out again and again, while the register works on part 0 and looks. */
static void threads(void) {
    static hlr_part owners[PARTS];
    pthread_t thread[PARTS];
    int64_t published[HLR_CELLS] = {0};
    uint64_t s_id = 0, added = 0;
    void *told;
    hlr handle = HLR_CLOSED;
    expect(hlr_open(PARTS, WIDTH, &handle) == HLR_DONE, "a register is opened");
    for (uint64_t p = 1; p < PARTS; p++)
        for (s_id = FIRST(p); s_id < FIRST(p) + ROWS; s_id++) expect(add(&handle, s_id) == HLR_DONE, "a row is added");
    for (int round = 0; round < ROUNDS; round++) {
        for (uint64_t p = 1; p < PARTS; p++)
            if (hlr_lend(&handle, p, &owners[p]) || pthread_create(&thread[p], NULL, work, &owners[p])) exit(1);
        for (uint64_t out = PARTS - 1; out > 0; added++) {
            if (added < 200) expect(add(&handle, 1 + added) == HLR_DONE, "a row is added beside owners");
            expect(hlr_find(&handle, FIRST(1), &s_id) == HLR_DONE && s_id == FIRST(1), "a number is found");
            expect(hlr_look(&handle, published) == HLR_DONE, "the cells are looked at");
            out = 0;
            for (uint64_t p = 1; p < PARTS; p++) out += hlr_back(&handle, p) == HLR_AWAY;
            sched_yield(); /* valgrind runs one thread at a time */
        }
        for (uint64_t p = 1; p < PARTS; p++) {
            expect(pthread_join(thread[p], &told) == 0 && !told, "an owner's answers");
            expect(location(&handle, FIRST(p)) == 1 + ((uint64_t)(round + 1) << 26), "an owner's change");
        }
        expect_counts(&handle);
    }
    expect(hlr_close(&handle) == HLR_DONE, "a register is closed");
}

/* Owners of two parts of each of two registers go home in one order and are taken in in another. */
static void orders(void) {
    static const int order[24][4] = {
        {0, 1, 2, 3}, {0, 1, 3, 2}, {0, 2, 1, 3}, {0, 2, 3, 1}, {0, 3, 1, 2}, {0, 3, 2, 1}, {1, 0, 2, 3}, {1, 0, 3, 2},
        {1, 2, 0, 3}, {1, 2, 3, 0}, {1, 3, 0, 2}, {1, 3, 2, 0}, {2, 0, 1, 3}, {2, 0, 3, 1}, {2, 1, 0, 3}, {2, 1, 3, 0},
        {2, 3, 0, 1}, {2, 3, 1, 0}, {3, 0, 1, 2}, {3, 0, 2, 1}, {3, 1, 0, 2}, {3, 1, 2, 0}, {3, 2, 0, 1}, {3, 2, 1, 0}};
    hlr handles[2] = {HLR_CLOSED, HLR_CLOSED};
    hlr_part owners[4] = {HLR_CLOSED, HLR_CLOSED, HLR_CLOSED, HLR_CLOSED};
    uint64_t at = 1;
    for (int which = 0; which < 2; which++) {
        expect(hlr_open(PARTS, WIDTH, &handles[which]) == HLR_DONE, "one of two registers is opened");
        for (int p = 0; p < 2; p++) expect(add(&handles[which], FIRST(p)) == HLR_DONE, "a row of one of two registers");
    }
    for (int homes = 0; homes < 24; homes++)
        for (int backs = 0; backs < 24; backs++) {
            at += 4;
            for (int i = 0; i < 4; i++) {
                expect(hlr_lend(&handles[i / 2], i % 2, &owners[i]) == HLR_DONE, "a part of one of two registers is lent");
                expect(hlr_part_update_location(&owners[i], FIRST(i % 2), at + i) == HLR_DONE, "its row is changed");
                expect(hlr_back(&handles[i / 2], i % 2) == HLR_AWAY, "it isn't back yet");
            }
            for (int i = 0; i < 4; i++) expect(hlr_home(&owners[order[homes][i]]) == HLR_DONE, "it is sent home");
            for (int i = 0; i < 4; i++) {
                int which = order[backs][i];
                expect(hlr_back(&handles[which / 2], which % 2) == HLR_DONE, "it is back");
            }
            for (int i = 0; i < 4; i++) expect(location(&handles[i / 2], FIRST(i % 2)) == at + i, "it is the register's own");
        }
    for (int i = 0; i < 4; i++) expect(hlr_lend(&handles[i / 2], i % 2, &owners[i]) == HLR_DONE, "a part is lent at the end");
    expect(hlr_home(&owners[1]) == HLR_DONE && hlr_close(&handles[0]) == HLR_DONE, "a register is closed while parts are out");
    expect(hlr_part_update_location(&owners[0], FIRST(0), 9) == HLR_DONE, "a part goes on without its register");
    expect(hlr_home(&owners[0]) == HLR_DONE && hlr_home(&owners[2]) == HLR_DONE, "a part goes home to none");
    expect(hlr_close(&handles[1]) == HLR_DONE && hlr_home(&owners[3]) == HLR_DONE, "and after the other one");
}

/* A lend whose memory is refused leaves the part at home and its handle closed. */
static void memory(void) {
    hlr handle = HLR_CLOSED;
    hlr_part owner = HLR_CLOSED;
    uint8_t code;
    long piece = 0;
    expect(hlr_open(PARTS, WIDTH, &handle) == HLR_DONE && add(&handle, 1) == HLR_DONE, "a register for refused lends");
    do {
        left = piece++;
        code = hlr_lend(&handle, 0, &owner);
        left = -1;
        if (code == HLR_MEMORY) {
            expect(hlr_home(&owner) == HLR_NOT_OPEN, "a refused lend leaves the part's handle closed");
            expect(location(&handle, 1) == 1 && hlr_back(&handle, 0) == HLR_DONE, "a refused lend leaves the part at home");
        }
    } while (code == HLR_MEMORY);
    expect(code == HLR_DONE && piece > 2, "a lend takes memory more than once, and each time it may be refused");
    left = 0;
    expect(hlr_home(&owner) == HLR_DONE && hlr_back(&handle, 0) == HLR_DONE, "a part comes home without memory");
    expect(left == 0, "a part that comes home asks for no memory");
    left = -1;
    expect(hlr_close(&handle) == HLR_DONE, "a register with refused lends is closed");
}

/* While a part is lent, a call that is refused without it is refused all the same, and any other is away, also if its
 * number is taken. A post of no cell says whether the part is lent, and that is so until it is taken in. */
static void refusals(void) {
    hlr handle = HLR_CLOSED;
    hlr_part owner = HLR_CLOSED;
    hlr_region given = {0};
    hlr_subscriber row = {.s_id = FIRST(0) + 1, .sub_nbr = FIRST(1), .msc_location = 1, .vlr_location = 1};
    uint64_t posted = 7;
    expect(hlr_open(PARTS, WIDTH, &handle) == HLR_DONE, "a register for refusals is opened");
    for (int p = 0; p < 2; p++) expect(add(&handle, FIRST(p)) == HLR_DONE, "a row for refusals");
    expect(hlr_post(&handle, 0, 0, &posted) == HLR_DONE && posted == 0, "a post of no cell");
    expect(hlr_lend(&handle, 0, &owner) == HLR_DONE, "a part is lent for refusals");
    expect(hlr_update_location(&handle, 999, 1) == HLR_NO_NUMBER, "a number that nobody has needs no part");
    expect(hlr_update_location(&handle, FIRST(0), 0) == HLR_FIELD, "nor does a field out of its range");
    expect(hlr_give(&handle, 0, HLR_HIGH, FIRST(1), &given) == HLR_OUT_OF_RANGE, "nor does a cut outside of a part");
    expect(hlr_add_subscriber(&handle, &row) == HLR_AWAY, "a new row is away, although its number is taken");
    expect(hlr_set_number(&handle, FIRST(0), FIRST(1)) == HLR_AWAY, "and so is a number that is taken");
    expect(hlr_post(&handle, 0, 0, &posted) == HLR_AWAY, "a post of no cell of a lent part");
    expect(hlr_home(&owner) == HLR_DONE && hlr_post(&handle, 0, 0, &posted) == HLR_AWAY, "a part that was sent home is lent");
    expect(hlr_back(&handle, 0) == HLR_DONE && hlr_post(&handle, 0, 0, &posted) == HLR_DONE, "a part that is home again");
    expect(hlr_add_subscriber(&handle, &row) == HLR_NUMBER_TAKEN, "the number is taken");
    expect(hlr_close(&handle) == HLR_DONE, "a register for refusals is closed");
}

int main(void) {
    threads();
    orders();
    memory();
    refusals();
    return wrong;
}

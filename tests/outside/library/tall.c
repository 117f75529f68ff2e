/* Trees of height 4 and 5. Falling s_ids leave each node half full, since a full node has none before it that could take
 * entries: 2 * 16^5 and a few of them make the subscribers' tree one of height 5. Their numbers are drawn, and make the
 * index one of height 4, as more than 32^4 rows do in any order. Then drawn s_ids go in between the falling ones. Each row
 * is read back by its s_id, and found by its number. It prints what went wrong, and nothing else. */
#include "hlr.h"
#include <stdio.h>

#define FALLING UINT64_C(2098000) /* 2 * 16^5 is 2,097,152 */
#define APART UINT64_C(7)         /* so the greatest of them is 14,686,000 */
#define DRAWN UINT64_C(350000)
#define S_IDS UINT64_C(16777216)
#define NUMBERS UINT64_C(1000000000000000)

static hlr handle = HLR_CLOSED;
static int wrong;
static void expect(int is, const char *what) {
    if (!is && wrong++ == 0) printf("%s\n", what);
}

/* A number drawn for an s_id (splitmix). */
static uint64_t number_of(uint64_t s_id) {
    uint64_t word = s_id * UINT64_C(0x9E3779B97F4A7C15);
    word = (word ^ (word >> 30)) * UINT64_C(0xBF58476D1CE4E5B9);
    word = (word ^ (word >> 27)) * UINT64_C(0x94D049BB133111EB);
    return (word ^ (word >> 31)) % NUMBERS;
}

/* The s_id drawn at a turn: another one at each turn, since each step here can be undone within 24 bits. */
static uint64_t drawn(uint64_t turn) {
    uint64_t word = turn ^ (turn >> 13);
    word = word * UINT64_C(0x9E3779B1) % S_IDS;
    word ^= word >> 11;
    word = word * UINT64_C(0x85EBCA6B) % S_IDS;
    return (word ^ (word >> 13)) + 1;
}

static void add(uint64_t s_id) {
    hlr_subscriber row = {.s_id = s_id, .sub_nbr = number_of(s_id), .msc_location = 1, .vlr_location = s_id};
    expect(hlr_add_subscriber(&handle, &row) == HLR_DONE, "a row goes in");
}

static void read_back(uint64_t s_id) {
    hlr_subscriber row = {0};
    uint64_t found = 0;
    expect(hlr_subscriber_data(&handle, s_id, &row) == HLR_DONE, "a row is there");
    expect(row.s_id == s_id && row.vlr_location == s_id && row.sub_nbr == number_of(s_id), "a row is as it went in");
    expect(hlr_find(&handle, number_of(s_id), &found) == HLR_DONE && found == s_id, "a number is found");
}

/* Does the same to each row: first to those with falling s_ids, and then to the drawn ones that aren't among these. */
static void each(void (*call)(uint64_t s_id)) {
    for (uint64_t left = FALLING; left > 0; left--) call(left * APART);
    for (uint64_t turn = 0; turn < DRAWN; turn++) {
        uint64_t s_id = drawn(turn);
        if (s_id % APART != 0 || s_id > FALLING * APART) call(s_id);
    }
}

int main(void) {
    expect(hlr_open(1, 524288, &handle) == HLR_DONE, "a register is opened");
    each(add);
    each(read_back);
    expect(hlr_close(&handle) == HLR_DONE, "a register is closed");
    return wrong != 0;
}

/* Registers of 1 to 16 parts are opened, filled and closed, so that a leak check sees what a close leaves: each with all
 * its parts at home, with a piece that is loose, with a part that came by a divide, and with parts that are lent, which go
 * home once their register is closed. It prints what went wrong, and nothing else. */
#include "hlr.h"
#include <inttypes.h>
#include <stdio.h>

#define MOST_PARTS 16
#define ROWS 40                      /* in each part: more than one node of a tree holds */
#define WIDTH 128                    /* so each part has 256 subscribers or more */

static int wrong;
static void expect(int is, uint64_t parts, const char *what) {
    if (!is) {
        printf("%" PRIu64 " parts: %s\n", parts, what);
        wrong = 1;
    }
}

/* The first subscriber of a part at the opening. */
static uint64_t first_of(uint64_t part, uint64_t parts) { return 1 + part * 32 / parts * WIDTH; }

/* Adds the rows of a part, all with one facility and one forwarding each. */
static void fill(hlr *handle, uint64_t parts, uint64_t part) {
    uint64_t first = first_of(part, parts);
    for (uint64_t s_id = first; s_id < first + ROWS; s_id++) {
        hlr_subscriber row = {.s_id = s_id, .sub_nbr = s_id, .msc_location = 1, .vlr_location = 1};
        hlr_access access = {.s_id = s_id, .ai_type = 1, .data3 = {'A', 'A', 'A'}, .data4 = {'A', 'A', 'A', 'A', 'A'}};
        hlr_facility facility = {.s_id = s_id, .sf_type = 1, .is_active = 1, .data_b = {'A', 'A', 'A', 'A', 'A'}};
        expect(hlr_add_subscriber(handle, &row) == HLR_DONE, parts, "a subscriber is added");
        expect(hlr_add_access(handle, &access) == HLR_DONE, parts, "an access is added");
        expect(hlr_add_facility(handle, &facility) == HLR_DONE, parts, "a facility is added");
        expect(hlr_insert_forwarding(handle, s_id, 1, 8, 16, s_id) == HLR_DONE, parts, "a forwarding is added");
    }
}

/* Opens a register of so many parts, each of which has rows. */
static hlr filled(uint64_t parts) {
    hlr handle = HLR_CLOSED;
    expect(hlr_open(parts, WIDTH, &handle) == HLR_DONE, parts, "a register is opened");
    for (uint64_t part = 0; part < parts; part++) fill(&handle, parts, part);
    return handle;
}

static void close_register(hlr *handle, uint64_t parts) {
    expect(hlr_close(handle) == HLR_DONE, parts, "a register is closed");
    expect(hlr_close(handle) == HLR_NOT_OPEN, parts, "a register is closed once");
}

/* All parts are at home. */
static void at_home(uint64_t parts) {
    hlr handle = filled(parts);
    close_register(&handle, parts);
}

/* The upper half of the last part is a loose piece. */
static void with_a_piece(uint64_t parts) {
    hlr handle = filled(parts);
    hlr_region piece = {0};
    uint64_t last = parts - 1;
    expect(hlr_give(&handle, last, 1, first_of(last, parts) + ROWS / 2, &piece) == HLR_DONE, parts, "a piece is given");
    close_register(&handle, parts);
}

/* The last part is divided, so that there is one part more than at the opening. */
static void divided(uint64_t parts) {
    hlr handle = filled(parts);
    hlr_region part = {0};
    uint64_t last = parts - 1;
    expect(hlr_divide(&handle, last, first_of(last, parts) + ROWS / 2, &part) == HLR_DONE, parts, "a part is divided");
    close_register(&handle, parts);
}

/* All parts are out, and go home behind the register. */
static void all_lent(uint64_t parts) {
    hlr handle = filled(parts);
    hlr_part lent[MOST_PARTS] = {HLR_CLOSED};
    for (uint64_t part = 0; part < parts; part++)
        expect(hlr_lend(&handle, part, &lent[part]) == HLR_DONE, parts, "a part is lent");
    close_register(&handle, parts);
    for (uint64_t part = 0; part < parts; part++) expect(hlr_home(&lent[part]) == HLR_DONE, parts, "a part goes home");
}

int main(void) {
    for (uint64_t parts = 1; parts <= MOST_PARTS; parts++) {
        at_home(parts);
        with_a_piece(parts);
        if (parts < MOST_PARTS) divided(parts);
        all_lent(parts);
    }
    return wrong;
}

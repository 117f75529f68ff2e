/* A day of traffic in small, with the register as a library (docs/LIBRARY.md tells how it is built): two subscribers in
 * two parts, a call that is forwarded, a move, what the counts say, rows on their way from part to part, a bound that goes
 * to where the rows are, and a third part for a while. */
#include "hlr.h"
#include <inttypes.h>
#include <stdio.h>

static hlr handle = HLR_CLOSED;

/* Ends the day where memory was refused; else tells what was asked for, and its code. */
static int done(const char *asked, uint8_t code) {
    if (code != HLR_MEMORY) return printf("%s: %d\n", asked, code);
    hlr_close(&handle);
    fputs("day: no memory\n", stderr);
    return 0;
}

static int views(void) {
    int64_t published[HLR_CELLS] = {0}, unposted[HLR_CELLS] = {0};
    if (!done("views", hlr_views(&handle, published, unposted))) return 0;
    for (int cell = 0; cell < HLR_CELLS; cell++)
        if (published[cell] || unposted[cell])
            printf("  cell %d: %" PRId64 " published, %" PRId64 " not posted\n", cell, published[cell], unposted[cell]);
    return 1;
}

int main(void) {
    hlr_subscriber seven = {.s_id = 7, .sub_nbr = 49151000007, .msc_location = 1, .vlr_location = HLR_AREA_WIDTH};
    hlr_subscriber seventy = seven, row = {0};
    hlr_access access = {.s_id = 7, .ai_type = 1, .data1 = 255, .data3 = {'A', 'B', 'C'}, .data4 = {'V', 'W', 'X', 'Y', 'Z'}};
    hlr_facility forwarding = {.s_id = 7, .sf_type = 2, .is_active = 1, .data_b = {'A', 'B', 'C', 'D', 'E'}};
    hlr_numbers numbers = {0};
    hlr_region_list regions = {0};
    hlr_region part = {0}, piece = {0};
    hlr_bounds bounds = {0};
    uint64_t count = 0;
    seventy.s_id = 70;
    seventy.sub_nbr = 49151000070;
    if (!done("open", hlr_open(2, 4, &handle))) return 1;
    if (!done("add 7", hlr_add_subscriber(&handle, &seven))) return 1;
    if (!done("add 7 again", hlr_add_subscriber(&handle, &seven))) return 1;
    if (!done("add 70", hlr_add_subscriber(&handle, &seventy))) return 1;
    if (!done("add an access", hlr_add_access(&handle, &access))) return 1;
    if (!done("add a facility", hlr_add_facility(&handle, &forwarding))) return 1;
    if (!done("forward 7 from 8 to 16", hlr_insert_forwarding(&handle, seven.sub_nbr, 2, 8, 16, 100))) return 1;
    done("a call at 8", hlr_new_destination(&handle, 7, 2, 8, 12, &numbers));
    printf("  goes to %015" PRIu64 ", of %" PRIu64 "\n", numbers.numbers[0], numbers.count);
    if (!done("number 77 for 7", hlr_set_number(&handle, 7, 77))) return 1;
    done("move 77", hlr_update_location(&handle, 77, 2 * HLR_AREA_WIDTH));
    done("clear bit_1 of 7", hlr_update_subscriber(&handle, 7, 2, 0, 9));
    done("read 7", hlr_subscriber_data(&handle, 7, &row));
    printf("  number %015" PRIu64 ", at %" PRIu64 "\n", row.sub_nbr, row.vlr_location);
    done("read 8", hlr_subscriber_data(&handle, 8, &row));
    if (!views()) return 1;
    done("switch it off", hlr_set_active(&handle, 7, 2, 0));
    done("forward 77 no more", hlr_delete_forwarding(&handle, 77, 2, 8));
    done("post part 0", hlr_post(&handle, 0, HLR_CELLS, &count));
    done("post part 1", hlr_post(&handle, 1, HLR_CELLS, &count));
    if (!views()) return 1;
    if (!done("give what part 0 has from 5 on", hlr_give(&handle, 0, HLR_HIGH, 5, &piece))) return 1;
    done("read 7 on its way", hlr_subscriber_data(&handle, 7, &row));
    if (!done("take it into part 1", hlr_take(&handle, piece.number, 1))) return 1;
    done("propose", hlr_propose(&handle, &bounds));
    if (!done("recut", hlr_recut(&handle, &bounds, &count))) return 1;
    if (!done("divide part 1 at 70", hlr_divide(&handle, 1, 70, &part))) return 1;
    done("regions", hlr_regions(&handle, &regions));
    for (count = 0; count < regions.count; count++)
        printf("  part %" PRIu64 ": %" PRIu64 " to %" PRIu64 "\n", regions.regions[count].number, regions.regions[count].lo, regions.regions[count].hi - 1);
    if (!done("dissolve part 2", hlr_dissolve(&handle, 2, &part))) return 1;
    printf("  part %" PRIu64 " to %" PRIu64 "\n", part.number, part.hi - 1);
    done("close", hlr_close(&handle));
    done("read 7", hlr_subscriber_data(&handle, 7, &row));
    return 0;
}

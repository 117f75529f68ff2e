/* Adds a subscriber, moves it to another location, and reads the live count of the area where it is now. */
#include <hlr.h>
#include <stdio.h>

int main(void) {
    hlr handle = HLR_CLOSED;
    hlr_subscriber row = {.s_id = 7, .sub_nbr = 49151000007, .msc_location = 1, .vlr_location = HLR_AREA_WIDTH};
    int64_t published[HLR_CELLS] = {0}, unposted[HLR_CELLS] = {0};
    if (hlr_open(1, 524288, &handle) != HLR_DONE) return 1;
    uint8_t added = hlr_add_subscriber(&handle, &row);
    uint8_t moved = hlr_update_location(&handle, row.sub_nbr, 2 * HLR_AREA_WIDTH);
    uint8_t counted = hlr_views(&handle, published, unposted);
    printf("%s, %s, %s\n", hlr_code_name(added), hlr_code_name(moved), hlr_code_name(counted));
    printf("subscribers in area 2: %d\n", (int)(published[HLR_AREA_CELL + 2] + unposted[HLR_AREA_CELL + 2]));
    return hlr_close(&handle) != HLR_DONE;
}

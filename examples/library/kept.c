/* Keeps a register in the file hlr.journal: each run moves subscriber 7 on, and tells the location once it is kept. */
#include <hlr.h>
#include <inttypes.h>
#include <stdio.h>

int main(void) {
    hlr handle = HLR_CLOSED;
    hlr_file file = HLR_FILE_CLOSED;
    hlr_subscriber row = {.s_id = 7, .sub_nbr = 49151000007, .msc_location = 1, .vlr_location = 1};
    uint8_t code = hlr_file_open(&file, "hlr.journal", &handle, 1, 524288);
    if (code == HLR_DONE && hlr_subscriber_data(&handle, 7, &row) == HLR_DONE) {
        code = hlr_update_location(&handle, row.sub_nbr, ++row.vlr_location);
    } else if (code == HLR_DONE) {
        code = hlr_add_subscriber(&handle, &row);
    }
    if (code == HLR_DONE) code = hlr_sync(&handle);
    printf("%s: the location is %" PRIu64 "\n", hlr_code_name(code), row.vlr_location);
    return hlr_file_close(&file, &handle) != HLR_DONE;
}

/* How long save.c of the examples takes to load and to save records: backup RECORDS FILE loads RECORDS, saves the rows into
 * FILE, and prints seconds of processor time. */
#define main save_main
#include "save.c"
#undef main
#include "shared.h"

static double now(void) { return seconds_of(CLOCK_PROCESS_CPUTIME_ID); }

int main(int argc, char **argv) {
    hlr handle = HLR_CLOSED;
    FILE *records = argc == 3 ? fopen(argv[1], "r") : NULL;
    if (records == NULL || hlr_open(1, 524288, &handle) != HLR_DONE) return 1;
    double opened = now();
    if (!load_rows(&handle, records)) return 1;
    double loaded = now();
    if (!save_file(&handle, argv[2])) return 1;
    printf("C: load %.2f s, save %.2f s\n", loaded - opened, now() - loaded);
    fclose(records);
    return hlr_close(&handle) != HLR_DONE;
}

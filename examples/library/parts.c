/* Two parts work in two threads of their own, without a lock, while the main thread reads the published counts. Then the
 * parts come home, and the bound between them moves to where the rows are. */
#include <hlr.h>
#include <inttypes.h>
#include <pthread.h>
#include <stdio.h>
#include <stdlib.h>

#define WIDTH 4 /* subscribers in a zone, so part 1 begins at 1 + 16 * WIDTH, which is 65 */
#define AREA_1 HLR_AREA_WIDTH /* the first location of area 1 */

static hlr handle = HLR_CLOSED;

/* Ends the program unless a call is done. */
static void want(const char *call, uint8_t code) {
    if (code == HLR_DONE) return;
    fprintf(stderr, "%s: %s\n", call, hlr_code_name(code));
    exit(1);
}

/* Moves each subscriber of a part to area 1, publishes the counts, and sends the part home. */
static void *move_all(void *lent) {
    hlr_part *part = lent;
    uint64_t lo = 0, hi = 0, posted = 0;
    want("hlr_part_range", hlr_part_range(part, &lo, &hi));
    for (uint64_t s_id = lo; s_id < hi && s_id <= 128; s_id++)
        want("hlr_part_update_location", hlr_part_update_location(part, s_id, AREA_1));
    want("hlr_part_post", hlr_part_post(part, HLR_CELLS, &posted));
    want("hlr_home", hlr_home(part));
    return NULL;
}

int main(void) {
    hlr_part lent[2] = {HLR_CLOSED, HLR_CLOSED};
    pthread_t threads[2];
    int64_t published[HLR_CELLS] = {0};
    hlr_bounds bounds = {.count = 1, .bounds = {33}};
    uint64_t moved = 0;
    want("hlr_open", hlr_open(2, WIDTH, &handle));
    for (uint64_t s_id = 1; s_id <= 128; s_id++) {
        hlr_subscriber row = {.s_id = s_id, .sub_nbr = 49151000000 + s_id, .msc_location = 1, .vlr_location = 1};
        want("hlr_add_subscriber", hlr_add_subscriber(&handle, &row));
    }
    for (int part = 0; part < 2; part++) {
        want("hlr_lend", hlr_lend(&handle, (uint64_t)part, &lent[part]));
        if (pthread_create(&threads[part], NULL, move_all, &lent[part]) != 0) return 1;
    }
    want("hlr_look", hlr_look(&handle, published)); /* works while parts are lent; what it finds depends on the threads */
    for (int part = 0; part < 2; part++) {
        pthread_join(threads[part], NULL);
        want("hlr_back", hlr_back(&handle, (uint64_t)part));
    }
    want("hlr_look", hlr_look(&handle, published));
    printf("%" PRId64 " subscribers in area 1\n", published[HLR_AREA_CELL + 1]);
    want("hlr_recut", hlr_recut(&handle, &bounds, &moved));
    printf("%" PRIu64 " bound moved: part 1 begins at %" PRIu64 " now\n", moved, bounds.bounds[0]);
    want("hlr_close", hlr_close(&handle));
    return 0;
}

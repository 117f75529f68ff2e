/* A register that is opened by the name of its journal, and changed until the work is done or the process is killed.
 *
 *   journal_run PATH FROM TO GROUP SNAPSHOT   makes the changes FROM to TO, and syncs after each GROUP of them. Where
 *                                             SNAPSHOT isn't 0, each SNAPSHOTth sync is a snapshot. Where GROUP is 0,
 *                                             only the close syncs
 *   journal_run PATH last                     prints the number of the last change that the journal has, and what it
 *                                             has of those before is looked at too
 *   journal_run PATH hold                     opens the journal, says so, and closes it when its input ends
 *
 * The changes are the records of tests/outside/journal_lib.sh: 1 to 50 add the subscribers of these s_ids, and each
 * later one moves the next of them to the location of its number. The first form writes the number of the last change
 * to standard output as soon as it may be acknowledged. A call that lacks memory is made once more. If a snapshot fails,
 * it tries a sync, which mustn't be done if the variable NO_SYNC is set, and then another snapshot. Any other refusal is
 * told on standard error, and ends the run with status 1. */
#define _XOPEN_SOURCE 700
#include "hlr.h"
#include <inttypes.h>
#include <stdio.h>
#include <stdlib.h>
#include <string.h>
#include <unistd.h>

#define ROWS 50

/* Makes a call, and makes it again if it lacks memory. */
#define DO(code, call)                           \
    do {                                         \
        code = (call);                           \
        if (code == HLR_MEMORY) code = (call);   \
    } while (0)

static hlr handle = HLR_CLOSED;
static hlr_file file = HLR_FILE_CLOSED;

static int refused(const char *what, uint8_t code) {
    fprintf(stderr, "%s: %s\n", what, hlr_code_name(code));
    return 1;
}

static uint8_t change(uint64_t number) {
    uint64_t s_id = (number - 1) % ROWS + 1;
    if (number > ROWS) return hlr_update_location(&handle, s_id, number);
    hlr_subscriber row = {.s_id = s_id, .sub_nbr = s_id, .msc_location = 1, .vlr_location = number};
    return hlr_add_subscriber(&handle, &row);
}

/* Puts all changes so far on the disk, by a sync or by a snapshot. */
static uint8_t keep(int is_snapshot) {
    uint8_t code;
    if (!is_snapshot) {
        DO(code, hlr_sync(&handle));
        return code;
    }
    DO(code, hlr_file_snapshot(&file, &handle));
    if (code != HLR_FAILED) return code;
    code = hlr_sync(&handle);
    if (code == HLR_DONE && getenv("NO_SYNC")) exit(refused("a sync after a snapshot that failed", code));
    if (code == HLR_DONE) return code;
    return hlr_file_snapshot(&file, &handle);
}

static void acknowledge(uint64_t number) {
    char text[32];
    int length = snprintf(text, sizeof text, "%" PRIu64 "\n", number);
    if (write(STDOUT_FILENO, text, (size_t)length) != length) exit(2);
}

static int run(uint64_t from, uint64_t to, uint64_t group, uint64_t snapshot) {
    uint64_t syncs = 0;
    uint8_t code;
    for (uint64_t number = from; number <= to; number++) {
        DO(code, change(number));
        if (code != HLR_DONE) return refused("a change", code);
        if (group == 0 || ((number - from + 1) % group != 0 && number != to)) continue;
        syncs++;
        code = keep(snapshot != 0 && syncs % snapshot == 0);
        if (code != HLR_DONE) return refused("a sync", code);
        acknowledge(number);
    }
    return 0;
}

/* Prints the number of the last change, if each subscriber has the location of the last change that can be its own. */
static int last(void) {
    uint64_t last = 0;
    hlr_subscriber row = {0};
    for (uint64_t s_id = 1; s_id <= ROWS; s_id++)
        if (hlr_subscriber_data(&handle, s_id, &row) == HLR_DONE && row.vlr_location > last) last = row.vlr_location;
    for (uint64_t s_id = 1; s_id <= ROWS; s_id++) {
        uint64_t wanted = last < s_id ? 0 : last - (last - s_id) % ROWS;
        uint8_t code = hlr_subscriber_data(&handle, s_id, &row);
        if (code != (wanted ? HLR_DONE : HLR_NO_SUBSCRIBER) || (wanted && row.vlr_location != wanted)) {
            printf("the wrong row of %" PRIu64 ", last is %" PRIu64 "\n", s_id, last);
            return 1;
        }
    }
    printf("%" PRIu64 "\n", last);
    return 0;
}

static int hold(void) {
    puts("open");
    fflush(stdout);
    while (getchar() != EOF) {
    }
    return 0;
}

int main(int count, char **words) {
    uint8_t code;
    int status = 2;
    uint64_t closed = 0; /* the number of the last change, if the close syncs it */
    if (count < 3) return status;
    DO(code, hlr_file_open(&file, words[1], &handle, 3, 7));
    if (code != HLR_DONE) return refused("opening", code);
    if (strcmp(words[2], "last") == 0) status = last();
    else if (strcmp(words[2], "hold") == 0) status = hold();
    else if (count == 6) {
        uint64_t numbers[4];
        for (int at = 0; at < 4; at++) numbers[at] = strtoull(words[2 + at], NULL, 10);
        status = run(numbers[0], numbers[1], numbers[2], numbers[3]);
        if (status == 0 && numbers[2] == 0) closed = numbers[1];
    }
    code = hlr_file_close(&file, &handle);
    if (status == 0 && code != HLR_DONE) return refused("closing", code);
    if (closed != 0) acknowledge(closed);
    return status;
}

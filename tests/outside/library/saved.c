/* What save.c of the examples saves, and when it saves nothing: saved FILE works with this file and prints each line that
 * fails. While a part is lent, of a closed handle, and if the file can't be written, the file stays as it was, and the
 * caller is told why. While pieces are loose, all rows are saved. A forked child saves the rows as they were at the fork. */
#define main save_main
#include "save.c"
#undef main

#include <signal.h>
#include <stdlib.h>
#include <sys/resource.h>
#include <sys/wait.h>

enum { SUBSCRIBERS = 300, MOST = 1 << 20 };

static hlr handle = HLR_CLOSED;
static int failed;

#define IS(what) (what) ? (void)0 : (failed = 1, (void)printf("line %d: %s\n", __LINE__, #what))
#define DONE(call) IS((call) == HLR_DONE)

/* Adds subscribers with an access, two facilities and up to two forwardings each, and numbers that aren't their s_ids. */
static void fill(void) {
    for (uint64_t s_id = 1; s_id <= SUBSCRIBERS; s_id++) {
        hlr_subscriber row = {.s_id = s_id, .sub_nbr = 1000 * s_id, .msc_location = s_id, .vlr_location = s_id};
        hlr_access access = {.s_id = s_id, .ai_type = 1 + s_id % 4, .data3 = "ABC", .data4 = {'A', 'B', 'C', 'D', 'E'}};
        hlr_facility facility = {.s_id = s_id, .sf_type = 2, .is_active = 1, .data_b = {'A', 'B', 'C', 'D', 'E'}};
        row.hexes[9] = 15;
        row.bytes[0] = (uint8_t)s_id;
        DONE(hlr_add_subscriber(&handle, &row));
        DONE(hlr_add_access(&handle, &access));
        DONE(hlr_add_facility(&handle, &facility));
        facility.sf_type = 4;
        DONE(hlr_add_facility(&handle, &facility));
        if (s_id % 3) DONE(hlr_insert_forwarding(&handle, row.sub_nbr, 2, 8, 16, 7));
        if (s_id % 2) DONE(hlr_insert_forwarding(&handle, row.sub_nbr, 4, 0, 9, 8));
    }
}

/* Reads a file as text, which is empty if there is none. */
static char *text_of(const char *path) {
    char *text = calloc(1, MOST);
    FILE *file = fopen(path, "r");
    if (text == NULL) exit(2);
    if (file == NULL) return text;
    text[fread(text, 1, MOST - 1, file)] = '\0';
    fclose(file);
    return text;
}

static int has_text(const char *path, const char *wanted) {
    char *text = text_of(path);
    int is_same = strcmp(text, wanted) == 0;
    free(text);
    return is_same;
}

/* how many lines of a text begin with a word */
static int lines_of(const char *text, const char *word) {
    int lines = 0;
    for (; *text; text = strchr(text, '\n') + 1) lines += strncmp(text, word, strlen(word)) == 0;
    return lines;
}

/* A save that has to fail leaves the file as it was, and no other file. */
static void expect_refused(hlr *store, const char *path, const char *new_path, const char *wanted) {
    IS(!save_file(store, path));
    IS(has_text(path, wanted));
    IS(access(new_path, F_OK) != 0);
}

/* A register that can't be saved is refused with this code, and nothing of it is written. */
static void expect_nothing(hlr *store, uint8_t wanted) {
    FILE *file = tmpfile();
    if (file == NULL) exit(2);
    IS(save_rows(store, file) == wanted);
    IS(ftell(file) == 0);
    fclose(file);
}

/* Loads what is saved into another register, which has the same counts then. */
static void expect_loads(const char *path) {
    uint64_t counts[HLR_CELLS] = {0}, loaded[HLR_CELLS] = {0};
    hlr again = HLR_CLOSED;
    FILE *file = fopen(path, "r");
    if (file == NULL) exit(2);
    DONE(hlr_open(1, 4, &again));
    IS(load_rows(&again, file));
    fclose(file);
    DONE(hlr_scan(&handle, counts));
    DONE(hlr_scan(&again, loaded));
    IS(memcmp(counts, loaded, sizeof counts) == 0);
    DONE(hlr_close(&again));
}

/* A forked child saves the rows as they were at the fork, after this process has changed those that no loose piece has. */
static void forked(const char *path, const char *wanted) {
    int status = 0, pipe_ends[2];
    char byte = 0;
    if (pipe(pipe_ends) != 0) exit(2);
    pid_t child = fork();
    if (child < 0) exit(2);
    if (child == 0) _exit(read(pipe_ends[0], &byte, 1) == 1 && save_file(&handle, path) ? 0 : 1);
    for (uint64_t s_id = 1; s_id < 9; s_id++) DONE(hlr_update_location(&handle, 1000 * s_id, 4294967295));
    IS(write(pipe_ends[1], &byte, 1) == 1);
    IS(waitpid(child, &status, 0) == child && status == 0);
    IS(has_text(path, wanted));
    IS(save_file(&handle, path));
    IS(!has_text(path, wanted));
}

int main(int argc, char **argv) {
    char new_path[4096] = "";
    hlr_part lent = HLR_CLOSED;
    hlr_region piece = {0};
    hlr closed = HLR_CLOSED;
    struct rlimit size = {0};
    if (argc != 2) return 2;
    snprintf(new_path, sizeof new_path, "%s.new", argv[1]);
    DONE(hlr_open(2, 4, &handle));
    fill();
    IS(save_file(&handle, argv[1]));
    char *saved = text_of(argv[1]);
    IS(lines_of(saved, "sub,") == SUBSCRIBERS && lines_of(saved, "acc,") == SUBSCRIBERS);
    IS(lines_of(saved, "fac,") == 2 * SUBSCRIBERS && lines_of(saved, "icf,") == 200 + 150);
    expect_loads(argv[1]);

    DONE(hlr_lend(&handle, 0, &lent));
    expect_nothing(&handle, HLR_AWAY);
    expect_refused(&handle, argv[1], new_path, saved);
    DONE(hlr_home(&lent));
    expect_refused(&handle, argv[1], new_path, saved);
    DONE(hlr_back(&handle, 0));
    expect_nothing(&closed, HLR_NOT_OPEN);
    expect_refused(&closed, argv[1], new_path, saved);
    IS(!save_file(&handle, "/nowhere/rows.csv"));

    DONE(hlr_give(&handle, 0, 1, 9, &piece));
    DONE(hlr_give(&handle, 1, 1, 200, &piece));
    IS(remove(argv[1]) == 0 && save_file(&handle, argv[1]) && has_text(argv[1], saved));
    forked(argv[1], saved);

    free(saved);
    saved = text_of(argv[1]);
    signal(SIGXFSZ, SIG_IGN);
    if (getrlimit(RLIMIT_FSIZE, &size) != 0) return 2;
    size.rlim_cur = 5000;
    if (setrlimit(RLIMIT_FSIZE, &size) != 0) return 2;
    expect_refused(&handle, argv[1], new_path, saved);
    free(saved);
    DONE(hlr_close(&handle));
    return failed;
}

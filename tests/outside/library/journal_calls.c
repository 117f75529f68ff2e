/* What each call with a journal returns: by a descriptor and by the name of a file, in each order, and after a sync that
 * failed. It works in a folder that is passed, prints what went wrong, and nothing else. */
#define _XOPEN_SOURCE 700
#include "hlr.h"
#include <errno.h>
#include <fcntl.h>
#include <stdio.h>
#include <stdlib.h>
#include <string.h>
#include <sys/stat.h>
#include <unistd.h>

static int wrong;

static void expect(int is_so, const char *what, int line) {
    if (is_so || wrong > 20) return;
    printf("line %d: %s\n", line, what);
    wrong++;
}

#define IS(call, wanted) is(call, wanted, #call, __LINE__)
#define SO(what) expect(what, #what, __LINE__)

static void is(uint8_t code, uint8_t wanted, const char *call, int line) {
    if (code == wanted || wrong > 20) return;
    printf("line %d: %s is %s, and not %s\n", line, call, hlr_code_name(code), hlr_code_name(wanted));
    wrong++;
}

/* Opens a file, and makes it if there is none. */
static int opened(const char *name) {
    int fd = open(name, O_RDWR | O_CREAT, 0644);
    if (fd < 0) perror(name), exit(2);
    return fd;
}

/* Makes a file of these bytes, and opens it. */
static int made(const char *name, const char *bytes, size_t size) {
    unlink(name);
    int fd = opened(name);
    if (write(fd, bytes, size) != (ssize_t)size) perror(name), exit(2);
    return fd;
}

static int made_blank(const char *name) {
    static char zeros[4096];
    return made(name, zeros, sizeof zeros);
}

/* Tells whether a file has these bytes. */
static int has(const char *name, const char *bytes, size_t size) {
    char found[4096];
    int fd = open(name, O_RDONLY);
    ssize_t count = read(fd, found, sizeof found);
    close(fd);
    return count == (ssize_t)size && memcmp(found, bytes, size) == 0;
}

static int is_open(int fd) { return fcntl(fd, F_GETFD) >= 0; }

static uint8_t add(hlr *handle, uint64_t s_id) {
    hlr_subscriber row = {.s_id = s_id, .sub_nbr = 100 + s_id, .msc_location = 1, .vlr_location = 1};
    return hlr_add_subscriber(handle, &row);
}

static uint64_t unsynced(hlr *handle) {
    uint64_t bytes = UINT64_MAX;
    SO(hlr_unsynced(handle, &bytes) == HLR_DONE);
    return bytes;
}

/* Tells whether the subscribers are these, the digits of a number. */
static int has_rows(hlr *handle, uint64_t digits) {
    hlr_subscriber row = {0};
    uint64_t from = 1, found = 0;
    while (hlr_next_subscriber(handle, from, &row) == HLR_DONE) {
        found = 10 * found + row.s_id;
        from = row.s_id + 1;
    }
    return found == digits;
}

/* A file of zeros is a journal without rows, and what is synced there is found again. */
static void kept(void) {
    hlr handle = HLR_CLOSED;
    int64_t published[HLR_CELLS] = {0}, unposted[HLR_CELLS] = {0};
    uint64_t posted = 0, width = 0;
    hlr_region_list regions = {0};
    int fd = made_blank("one"), other;
    IS(hlr_journal(&handle, fd, 2, 4), HLR_DONE);
    SO(unsynced(&handle) == 0);
    IS(add(&handle, 3), HLR_DONE);
    IS(add(&handle, 1), HLR_DONE);
    SO(unsynced(&handle) == 88);
    IS(add(&handle, 3), HLR_EXISTS);
    IS(hlr_post(&handle, 0, HLR_CELLS, &posted), HLR_DONE);
    SO(unsynced(&handle) == 88 && posted == 2);
    IS(hlr_sync(&handle), HLR_DONE);
    SO(unsynced(&handle) == 0);
    IS(hlr_sync(&handle), HLR_DONE);
    IS(add(&handle, 2), HLR_DONE);
    IS(hlr_close(&handle), HLR_DONE);
    SO(is_open(fd));
    close(fd);
    other = opened("one");
    IS(hlr_journal(&handle, other, 1, 5), HLR_DONE);
    SO(has_rows(&handle, 13));
    IS(hlr_views(&handle, published, unposted), HLR_DONE);
    SO(published[HLR_AREA_CELL] == 0 && unposted[HLR_AREA_CELL] == 2);
    IS(hlr_width(&handle, &width), HLR_DONE);
    IS(hlr_regions(&handle, &regions), HLR_DONE);
    SO(width == 5 && regions.count == 1);
    IS(add(&handle, 5), HLR_DONE);
    IS(hlr_journal_end(&handle), HLR_DONE);
    SO(is_open(other));
    close(other);
    IS(add(&handle, 6), HLR_DONE);
    SO(has_rows(&handle, 1356));
    IS(hlr_close(&handle), HLR_DONE);
    other = opened("one");
    IS(hlr_journal(&handle, other, 1, 5), HLR_DONE);
    SO(has_rows(&handle, 135));
    IS(hlr_close(&handle), HLR_DONE);
    close(other);
}

/* Each refusal of opening, in order, leaves the handle closed and the file as it was. */
static void openings(void) {
    static const struct {
        const char *bytes;
        size_t size;
    } bad[] = {{"", 0}, {"hlr journal 1\n", 14}, {"hello\n\0", 7}, {"hlr journal 2\n\0", 15}, {"hlr journal 1\nS\n\0", 17},
               {"hlr journal 1\nhlr journal 1\n\0", 29}};
    hlr handle = HLR_CLOSED;
    int fd = made_blank("one"), ends[2];
    for (uint64_t parts = 0; parts < 18; parts += 17) IS(hlr_journal(&handle, -1, parts, 4), HLR_FIELD);
    for (uint64_t width = 0; width < 524290; width += 524289) IS(hlr_journal(&handle, -1, 1, width), HLR_FIELD);
    IS(hlr_journal(&handle, -1, 1, 4), HLR_FAILED);
    SO(pipe(ends) == 0);
    IS(hlr_journal(&handle, ends[0], 1, 4), HLR_FAILED);
    close(ends[0]), close(ends[1]);
    ends[0] = open("one", O_RDONLY);
    IS(hlr_journal(&handle, ends[0], 1, 4), HLR_FAILED);
    close(ends[0]);
    ends[0] = open("one", O_WRONLY);
    IS(hlr_journal(&handle, ends[0], 1, 4), HLR_FAILED);
    close(ends[0]);
    IS(hlr_close(&handle), HLR_NOT_OPEN);
    for (size_t at = 0; at < sizeof bad / sizeof *bad; at++) {
        int other = made("other", bad[at].bytes, bad[at].size);
        IS(hlr_journal(&handle, other, 1, 4), HLR_BAD_JOURNAL);
        SO(has("other", bad[at].bytes, bad[at].size));
        IS(hlr_close(&handle), HLR_NOT_OPEN);
        close(other);
    }
    IS(hlr_journal(&handle, fd, 1, 4), HLR_DONE);
    IS(hlr_journal(&handle, -1, 0, 0), HLR_STILL_OPEN);
    IS(hlr_close(&handle), HLR_DONE);
    IS(hlr_open(1, 4, &handle), HLR_DONE);
    IS(hlr_journal(&handle, fd, 1, 4), HLR_STILL_OPEN);
    IS(hlr_close(&handle), HLR_DONE);
    close(fd);
}

/* Calls on a closed handle, on a register without a journal, and on one that lends a part. */
static void without(void) {
    hlr handle = HLR_CLOSED;
    hlr_part part = HLR_CLOSED, other = HLR_CLOSED;
    uint64_t bytes = 7;
    int fd = made("two", "", 0);
    for (int turn = 0; turn < 2; turn++) {
        uint8_t code = turn ? HLR_NO_JOURNAL : HLR_NOT_OPEN;
        IS(hlr_sync(&handle), code);
        IS(hlr_unsynced(&handle, &bytes), code);
        IS(hlr_journal_end(&handle), code);
        SO(bytes == 7);
        if (!turn) IS(hlr_snapshot(&handle, fd), HLR_NOT_OPEN);
        if (!turn) IS(hlr_open(2, 4, &handle), HLR_DONE);
    }
    IS(add(&handle, 1), HLR_DONE);
    IS(hlr_lend(&handle, 0, &part), HLR_DONE);
    IS(hlr_snapshot(&handle, -1), HLR_AWAY);
    IS(hlr_snapshot(&handle, fd), HLR_AWAY);
    IS(hlr_home(&part), HLR_DONE);
    IS(hlr_snapshot(&handle, fd), HLR_AWAY);
    IS(hlr_back(&handle, 0), HLR_DONE);
    IS(hlr_snapshot(&handle, -1), HLR_FAILED);
    IS(hlr_sync(&handle), HLR_NO_JOURNAL);
    IS(hlr_snapshot(&handle, fd), HLR_DONE);
    SO(unsynced(&handle) == 0);
    IS(hlr_lend(&handle, 0, &part), HLR_JOURNALED);
    IS(hlr_lend(&handle, 99, &part), HLR_JOURNALED);
    IS(hlr_home(&part), HLR_NOT_OPEN);
    IS(hlr_back(&handle, 0), HLR_DONE);
    IS(add(&handle, 2), HLR_DONE);
    IS(hlr_journal_end(&handle), HLR_DONE);
    IS(hlr_lend(&handle, 0, &part), HLR_DONE);
    IS(hlr_part_update_location(&part, 1, 9), HLR_DONE);
    IS(hlr_lend(&handle, 1, &part), HLR_STILL_OPEN);
    IS(hlr_lend(&handle, 1, &other), HLR_DONE);
    IS(hlr_home(&part), HLR_DONE);
    IS(hlr_home(&other), HLR_DONE);
    IS(hlr_close(&handle), HLR_DONE);
    close(fd);
    fd = opened("two");
    IS(hlr_journal(&handle, fd, 1, 4), HLR_DONE);
    SO(has_rows(&handle, 12));
    IS(hlr_close(&handle), HLR_DONE);
    close(fd);
}

/* A snapshot wants an empty file. Where it is refused, the register keeps the journal that it had. */
static void snapshots(void) {
    hlr handle = HLR_CLOSED;
    int fd = made_blank("one"), blank = made_blank("blank"), text = made("text", "x", 1), next = made("next", "", 0);
    IS(hlr_journal(&handle, fd, 2, 4), HLR_DONE);
    IS(add(&handle, 1), HLR_DONE);
    IS(hlr_snapshot(&handle, blank), HLR_BAD_JOURNAL);
    IS(hlr_snapshot(&handle, text), HLR_BAD_JOURNAL);
    IS(hlr_snapshot(&handle, fd), HLR_BAD_JOURNAL);
    IS(hlr_snapshot(&handle, -1), HLR_FAILED);
    SO(unsynced(&handle) == 44 && has("text", "x", 1));
    IS(hlr_sync(&handle), HLR_DONE);
    IS(add(&handle, 2), HLR_DONE);
    IS(hlr_snapshot(&handle, next), HLR_DONE);
    SO(unsynced(&handle) == 0 && is_open(fd));
    IS(add(&handle, 3), HLR_DONE);
    IS(hlr_sync(&handle), HLR_DONE);
    IS(hlr_close(&handle), HLR_DONE);
    SO(is_open(next));
    close(next), close(blank), close(text);
    IS(hlr_journal(&handle, fd, 1, 4), HLR_DONE);
    SO(has_rows(&handle, 1));
    IS(hlr_close(&handle), HLR_DONE);
    close(fd);
    next = opened("next");
    IS(hlr_journal(&handle, next, 1, 4), HLR_DONE);
    SO(has_rows(&handle, 123));
    IS(hlr_close(&handle), HLR_DONE);
    close(next);
}

/* Each change of a register whose sync has failed is refused, also one that would be refused anyway. */
static void changes_refused(hlr *handle) {
    hlr_access access = {.s_id = 1, .ai_type = 1, .data3 = "ABC", .data4 = {'A', 'B', 'C', 'D', 'E'}};
    hlr_facility facility = {.s_id = 1, .sf_type = 1, .is_active = 1, .data_b = {'A', 'B', 'C', 'D', 'E'}};
    IS(add(handle, 4), HLR_FAILED);
    IS(add(handle, 1), HLR_FAILED);
    IS(add(handle, 0), HLR_FAILED);
    IS(hlr_add_access(handle, &access), HLR_FAILED);
    IS(hlr_add_facility(handle, &facility), HLR_FAILED);
    IS(hlr_update_subscriber(handle, 1, 2, 1, 1), HLR_FAILED);
    IS(hlr_update_location(handle, 101, 9), HLR_FAILED);
    IS(hlr_update_location(handle, 999, 9), HLR_FAILED);
    IS(hlr_insert_forwarding(handle, 101, 2, 8, 9, 7), HLR_FAILED);
    IS(hlr_delete_forwarding(handle, 101, 2, 8), HLR_FAILED);
    IS(hlr_set_active(handle, 1, 2, 0), HLR_FAILED);
    IS(hlr_set_number(handle, 1, 105), HLR_FAILED);
}

/* After a sync that failed, each change and each sync fails and changes nothing, and reads work. A snapshot helps. */
static void failed(void) {
    hlr handle = HLR_CLOSED;
    hlr_part part = HLR_CLOSED;
    hlr_region region = {0};
    uint64_t s_id = 0;
    int fd = made_blank("one"), none = open("/dev/null", O_RDONLY), next = made("next", "", 0);
    IS(hlr_journal(&handle, fd, 2, 4), HLR_DONE);
    IS(add(&handle, 1), HLR_DONE);
    IS(hlr_sync(&handle), HLR_DONE);
    SO(dup2(none, fd) == fd);
    IS(hlr_sync(&handle), HLR_DONE);
    IS(add(&handle, 2), HLR_DONE);
    IS(add(&handle, 3), HLR_DONE);
    IS(hlr_sync(&handle), HLR_FAILED);
    for (int turn = 0; turn < 2; turn++) {
        changes_refused(&handle);
        IS(hlr_sync(&handle), HLR_FAILED);
        IS(hlr_journal_end(&handle), HLR_FAILED);
        IS(hlr_lend(&handle, 0, &part), HLR_JOURNALED);
        IS(hlr_snapshot(&handle, none), HLR_FAILED);
        IS(hlr_unsynced(&handle, &s_id), HLR_FAILED);
        SO(has_rows(&handle, 123));
        IS(hlr_find(&handle, 103, &s_id), HLR_DONE);
        IS(hlr_find(&handle, 105, &s_id), HLR_NO_NUMBER);
        IS(hlr_give(&handle, 0, HLR_HIGH, 5, &region), HLR_DONE);
        IS(hlr_take(&handle, region.number, 0), HLR_DONE);
    }
    IS(hlr_snapshot(&handle, next), HLR_DONE);
    SO(unsynced(&handle) == 0);
    IS(add(&handle, 4), HLR_DONE);
    IS(hlr_journal_end(&handle), HLR_DONE);
    IS(hlr_close(&handle), HLR_DONE);
    IS(hlr_journal(&handle, next, 1, 4), HLR_DONE);
    SO(has_rows(&handle, 1234));
    SO(dup2(none, next) == next);
    IS(add(&handle, 5), HLR_DONE);
    IS(hlr_sync(&handle), HLR_FAILED);
    IS(hlr_close(&handle), HLR_DONE);
    close(fd), close(next), close(none);
    fd = opened("one");
    IS(hlr_journal(&handle, fd, 1, 4), HLR_DONE);
    SO(has_rows(&handle, 1));
    IS(hlr_close(&handle), HLR_DONE);
    close(fd);
}

/* Two registers have a journal each, and a third has none. */
static void several(void) {
    hlr handles[3] = {HLR_CLOSED, HLR_CLOSED, HLR_CLOSED};
    int fds[2] = {made_blank("one"), made_blank("two")};
    IS(hlr_open(1, 4, &handles[2]), HLR_DONE);
    for (int at = 0; at < 2; at++) IS(hlr_journal(&handles[at], fds[at], 1, 4), HLR_DONE);
    for (uint64_t s_id = 1; s_id < 10; s_id++) IS(add(&handles[s_id % 3], s_id), HLR_DONE);
    for (int at = 0; at < 3; at++) IS(hlr_sync(&handles[at]), at < 2 ? HLR_DONE : HLR_NO_JOURNAL);
    for (int at = 0; at < 3; at++) IS(hlr_close(&handles[at]), HLR_DONE);
    for (int at = 0; at < 2; at++) {
        IS(hlr_journal(&handles[2], fds[at], 1, 4), HLR_DONE);
        SO(has_rows(&handles[2], at ? 147 : 369));
        IS(hlr_close(&handles[2]), HLR_DONE);
        close(fds[at]);
    }
}

/* A file that is opened by its name. */
static void named(void) {
    hlr handle = HLR_CLOSED, other = HLR_CLOSED;
    hlr_file file = HLR_FILE_CLOSED, second = HLR_FILE_CLOSED;
    struct stat about;
    IS(hlr_file_open(&file, "rows", &handle, 0, 4), HLR_FIELD);
    IS(hlr_file_open(&file, "rows", &handle, 17, 4), HLR_FIELD);
    IS(hlr_file_open(&file, "rows", &handle, 1, 0), HLR_FIELD);
    IS(hlr_file_open(&file, "rows", &handle, 1, 524289), HLR_FIELD);
    SO(access("rows", F_OK) != 0);
    IS(hlr_file_snapshot(&file, &handle), HLR_NOT_OPEN);
    IS(hlr_file_close(&file, &handle), HLR_NOT_OPEN);
    IS(hlr_file_open(&file, "rows", &handle, 2, 4), HLR_DONE);
    SO(stat("rows", &about) == 0 && about.st_size == HLR_TAPE_ROOM && access("rows.new", F_OK) != 0);
    SO((fcntl(file.journal, F_GETFD) & FD_CLOEXEC) && (fcntl(file.folder, F_GETFD) & FD_CLOEXEC));
    IS(hlr_file_open(&file, "rows", &handle, 0, 4), HLR_STILL_OPEN);
    IS(hlr_file_open(&file, "other", &other, 2, 4), HLR_STILL_OPEN);
    IS(hlr_file_open(&second, "other", &handle, 2, 4), HLR_STILL_OPEN);
    IS(hlr_file_open(&second, "rows", &other, 2, 4), HLR_LOCKED);
    IS(hlr_file_open(&second, "./rows", &other, 2, 4), HLR_LOCKED);
    IS(hlr_close(&other), HLR_NOT_OPEN);
    IS(add(&handle, 1), HLR_DONE);
    IS(hlr_file_close(&file, &handle), HLR_DONE);
    IS(hlr_file_close(&file, &handle), HLR_NOT_OPEN);
    IS(hlr_close(&handle), HLR_NOT_OPEN);
    IS(hlr_file_open(&file, "rows", &handle, 1, 524288), HLR_DONE);
    SO(has_rows(&handle, 1));
    IS(add(&handle, 2), HLR_DONE);
    IS(hlr_sync(&handle), HLR_DONE);
    IS(add(&handle, 3), HLR_DONE);
    IS(hlr_close(&handle), HLR_DONE);
    IS(hlr_file_open(&second, "rows", &other, 2, 4), HLR_LOCKED);
    IS(hlr_file_close(&file, &handle), HLR_NOT_OPEN);
    IS(hlr_file_open(&second, "rows", &other, 2, 4), HLR_DONE);
    SO(has_rows(&other, 12));
    IS(hlr_file_close(&second, &other), HLR_DONE);
}

/* Snapshots of a file that is opened by its name: they keep its rights and its lock, and leave nothing else behind. */
static void named_snapshots(void) {
    hlr handle = HLR_CLOSED, other = HLR_CLOSED;
    hlr_file file = HLR_FILE_CLOSED, second = HLR_FILE_CLOSED;
    struct stat before, after;
    close(made("rows.next", "left over", 9));
    IS(hlr_file_open(&file, "rows", &handle, 1, 4), HLR_DONE);
    SO(access("rows.next", F_OK) != 0);
    SO(chmod("rows", 0640) == 0 && stat("rows", &before) == 0);
    for (uint64_t s_id = 3; s_id < 6; s_id++) {
        IS(add(&handle, s_id), HLR_DONE);
        IS(hlr_file_snapshot(&file, &handle), HLR_DONE);
        SO(unsynced(&handle) == 0 && access("rows.next", F_OK) != 0);
        SO(stat("rows", &after) == 0 && after.st_mode == before.st_mode && after.st_ino != before.st_ino);
        IS(hlr_file_open(&second, "rows", &other, 1, 4), HLR_LOCKED);
        before = after;
    }
    IS(hlr_journal_end(&handle), HLR_DONE);
    IS(add(&handle, 6), HLR_DONE);
    IS(hlr_file_snapshot(&file, &handle), HLR_DONE);
    IS(add(&handle, 7), HLR_DONE);
    IS(hlr_journal_end(&handle), HLR_DONE);
    IS(hlr_file_close(&file, &handle), HLR_NO_JOURNAL);
    IS(hlr_file_open(&second, "rows", &other, 1, 4), HLR_DONE);
    SO(has_rows(&other, 1234567));
    IS(hlr_close(&other), HLR_DONE);
    IS(hlr_file_snapshot(&second, &other), HLR_NOT_OPEN);
    IS(hlr_file_close(&second, &other), HLR_NOT_OPEN);
}

/* A snapshot can't be made, or can't take the place of the file. */
static void snapshots_that_fail(void) {
    hlr handle = HLR_CLOSED;
    hlr_file file = HLR_FILE_CLOSED;
    IS(hlr_file_open(&file, "rows", &handle, 1, 4), HLR_DONE);
    IS(add(&handle, 8), HLR_DONE);
    SO(mkdir("rows.next", 0755) == 0);
    IS(hlr_file_snapshot(&file, &handle), HLR_FAILED);
    SO(unsynced(&handle) == 44);
    IS(hlr_sync(&handle), HLR_DONE);
    SO(rmdir("rows.next") == 0 && rename("rows", "moved") == 0 && mkdir("rows", 0755) == 0);
    IS(add(&handle, 9), HLR_DONE);
    IS(hlr_file_snapshot(&file, &handle), HLR_FAILED);
    SO(access("rows.next", F_OK) != 0);
    IS(hlr_sync(&handle), HLR_NO_JOURNAL);
    SO(has_rows(&handle, 123456789));
    SO(rmdir("rows") == 0 && rename("moved", "rows") == 0);
    IS(hlr_file_snapshot(&file, &handle), HLR_DONE);
    IS(hlr_sync(&handle), HLR_DONE);
    IS(hlr_file_close(&file, &handle), HLR_DONE);
    IS(hlr_file_open(&file, "rows", &handle, 1, 4), HLR_DONE);
    SO(has_rows(&handle, 123456789));
    IS(hlr_file_close(&file, &handle), HLR_DONE);
}

/* Files elsewhere, by links, and files that are none. */
static void places(void) {
    hlr handle = HLR_CLOSED;
    hlr_file file = HLR_FILE_CLOSED;
    struct stat about;
    SO(mkdir("folder", 0755) == 0 && symlink("folder/rows", "link") == 0);
    IS(hlr_file_open(&file, "folder/rows", &handle, 1, 4), HLR_DONE);
    IS(add(&handle, 1), HLR_DONE);
    IS(hlr_file_close(&file, &handle), HLR_DONE);
    IS(hlr_file_open(&file, "link", &handle, 1, 4), HLR_DONE);
    SO(has_rows(&handle, 1));
    IS(add(&handle, 2), HLR_DONE);
    SO(rename("folder", "renamed") == 0);
    IS(hlr_file_snapshot(&file, &handle), HLR_DONE);
    IS(hlr_file_close(&file, &handle), HLR_DONE);
    SO(lstat("link", &about) == 0 && S_ISLNK(about.st_mode));
    IS(hlr_file_open(&file, "renamed/rows", &handle, 1, 4), HLR_DONE);
    SO(has_rows(&handle, 12));
    IS(hlr_file_close(&file, &handle), HLR_DONE);
    IS(hlr_file_open(&file, "none/rows", &handle, 1, 4), HLR_FAILED);
    IS(hlr_file_open(&file, "", &handle, 1, 4), HLR_FAILED);
    IS(hlr_file_open(&file, "renamed", &handle, 1, 4), HLR_BAD_JOURNAL);
    SO(access(".new", F_OK) != 0 && mkfifo("pipe", 0644) == 0);
    IS(hlr_file_open(&file, "pipe", &handle, 1, 4), HLR_BAD_JOURNAL);
    close(made("empty", "", 0));
    IS(hlr_file_open(&file, "empty", &handle, 1, 4), HLR_BAD_JOURNAL);
    close(made("other", "not ours", 8));
    SO(symlink("other", "trap.new") == 0);
    IS(hlr_file_open(&file, "trap", &handle, 1, 4), HLR_FAILED);
    SO(has("other", "not ours", 8));
    close(made("made.new", "left over", 9));
    IS(hlr_file_open(&file, "made", &handle, 1, 4), HLR_DONE);
    SO(has_rows(&handle, 0) && access("made.new", F_OK) != 0);
    IS(hlr_file_close(&file, &handle), HLR_DONE);
}

int main(int count, char **words) {
    if (count != 2 || chdir(words[1])) return 2;
    kept();
    openings();
    without();
    snapshots();
    failed();
    several();
    named();
    named_snapshots();
    snapshots_that_fail();
    places();
    return wrong;
}

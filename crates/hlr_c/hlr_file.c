/*
 * The calls of hlr.h that work on the file of a journal. The calls hlr_tape_.. of the library say which calls the file
 * is owed, and this source makes them.
 *
 * The calls hlr_file_.. open a journal by its name. They treat files as the program hlr does with --journal, so that
 * each can open what the other one has left:
 *
 *   - A journal gets its name once its zeros are on the disk. So no crash leaves a file of this name that is none.
 *   - The file is locked as long as it is open. A lock belongs to an open file, so the system drops it when the process
 *     ends, and no lock is left over. After locking, the file is compared with the one that has the name by then,
 *     because a snapshot may have taken its place meanwhile.
 *   - A snapshot is written under the journal's name with .next behind it. It then takes the journal's name by a
 *     renaming, which is on the disk once the folder is synced.
 */
#define _XOPEN_SOURCE 700

#include "hlr.h"

#include <errno.h>
#include <fcntl.h>
#include <stdio.h>
#include <stdlib.h>
#include <string.h>
#include <sys/file.h>
#include <sys/mman.h>
#include <sys/stat.h>
#include <unistd.h>

/* A new journal has this many zeros. */
#define ROOM HLR_TAPE_ROOM

/* Bytes are read and written in pieces of this many. */
#define PIECE 16384

/* Returns the code for a call of the system that has just failed. */
static uint8_t fault(void) {
    if (errno == ENOMEM) return HLR_MEMORY;
    return HLR_FAILED;
}

/* Returns two texts as one, in memory of its own, or NULL without memory. */
static char *joined(const char *front, const char *back) {
    size_t length = strlen(front), rest = strlen(back) + 1;
    char *both = malloc(length + rest);
    if (both == NULL) return NULL;
    memcpy(both, front, length);
    memcpy(both + length, back, rest);
    return both;
}

/* Locks a file until it is closed. */
static uint8_t lock_file(int file) {
    if (flock(file, LOCK_EX | LOCK_NB) == 0) return HLR_DONE;
    if (errno == EWOULDBLOCK) return HLR_LOCKED;
    return fault();
}

/* Writes bytes to a file from an offset on, and returns whether it could. */
static int write_all(int file, const uint8_t *bytes, uint64_t count, uint64_t at) {
    while (count > 0) {
        ssize_t put = pwrite(file, bytes, count, (off_t)at);
        if (put < 0 && errno == EINTR) continue;
        if (put == 0) errno = EIO;
        if (put <= 0) return 0;
        bytes += put;
        count -= (uint64_t)put;
        at += (uint64_t)put;
    }
    return 1;
}

/* Writes zeros to a file from one offset to another, and returns whether it could. */
static int write_zeros(int file, uint64_t from, uint64_t to) {
    static const uint8_t zeros[PIECE];
    while (from < to) {
        uint64_t count = to - from < PIECE ? to - from : PIECE;
        if (!write_all(file, zeros, count, from)) return 0;
        from += count;
    }
    return 1;
}

/* Makes an empty file one of zeros, which aren't on the disk yet, and returns whether it could. */
static int fill(int file) { return ftruncate(file, 0) == 0 && write_zeros(file, 0, ROOM); }

/* Writes the bytes of a call that is owed, a piece at a time, and returns whether it could. */
static int write_owed(hlr *handle, uint64_t index, const hlr_call *call) {
    uint8_t piece[PIECE];
    hlr_call same;
    for (uint64_t skip = 0; skip < call->to - call->from; skip += PIECE) {
        uint64_t rest = call->to - call->from - skip;
        if (hlr_tape_owed(handle, index, skip, piece, PIECE, &same) != HLR_DONE) return 0;
        if (!write_all(call->fd, piece, rest < PIECE ? rest : PIECE, call->from + skip)) return 0;
    }
    return 1;
}

/* Makes a call that is owed, and returns whether it could. */
static int make_call(hlr *handle, uint64_t index, const hlr_call *call) {
    switch (call->kind) {
    case HLR_TAPE_WRITE: return write_owed(handle, index, call);
    case HLR_TAPE_ZEROS: return write_zeros(call->fd, call->from, call->to);
    default: return fdatasync(call->fd) == 0;
    }
}

/* Makes all calls that the file of the journal is owed, in order. */
static uint8_t make_owed(hlr *handle) {
    uint8_t none;
    hlr_call call;
    for (uint64_t index = 0;; index++) {
        uint8_t code = hlr_tape_owed(handle, index, 0, &none, 0, &call);
        if (code != HLR_DONE) return code;
        if (call.kind == HLR_TAPE_NOTHING) return hlr_tape_made(handle, 1);
        if (!make_call(handle, index, &call)) return hlr_tape_made(handle, 0);
    }
}

/* Reads a file from its front to its end, so that a page which the disk can't read is found here, and returns whether
 * it could. */
static int read_through(int file, uint64_t length) {
    uint8_t piece[PIECE];
    uint64_t at = 0;
    while (at < length) {
        ssize_t got = pread(file, piece, PIECE, (off_t)at);
        if (got < 0 && errno == EINTR) continue;
        if (got == 0) errno = EIO;
        if (got <= 0) return 0;
        at += (uint64_t)got;
    }
    return 1;
}

/* Opens a register with the rows of a journal of this length. The file is mapped, and not copied into memory. */
static uint8_t open_mapped(hlr *handle, int fd, uint64_t length, uint64_t parts, uint64_t width) {
    static const uint8_t none;
    if (length == 0) return hlr_tape_open(handle, fd, &none, 0, parts, width);
    void *bytes = mmap(NULL, length, PROT_READ, MAP_PRIVATE, fd, 0);
    if (bytes == MAP_FAILED) return fault();
    uint8_t code = hlr_tape_open(handle, fd, bytes, length, parts, width);
    munmap(bytes, length);
    return code;
}

uint8_t hlr_journal(hlr *handle, int32_t fd, uint64_t parts, uint64_t width) {
    uint64_t is_wide = 0;
    struct stat about;
    if (hlr_width(handle, &is_wide) != HLR_NOT_OPEN) return HLR_STILL_OPEN;
    if (parts < 1 || parts > HLR_MAX_PARTS || width < 1 || width > HLR_MAX_WIDTH) return HLR_FIELD;
    if (fdatasync(fd) != 0 || fstat(fd, &about) != 0 || !read_through(fd, (uint64_t)about.st_size)) return fault();
    uint8_t code = open_mapped(handle, fd, (uint64_t)about.st_size, parts, width);
    if (code != HLR_DONE) return code;
    code = make_owed(handle);
    if (code != HLR_DONE) hlr_close(handle);
    return code;
}

/* Returns the code for a snapshot of a register that isn't open, or of which a part is lent. A page with room for no
 * row has the same. */
static uint8_t check_home(hlr *handle) {
    hlr_subscriber row = {0};
    uint64_t count = 0;
    return hlr_next_subscribers(handle, 0, &row, 0, &count);
}

uint8_t hlr_snapshot(hlr *handle, int32_t fd) {
    struct stat about;
    uint8_t code = check_home(handle);
    if (code != HLR_DONE) return code;
    if (fstat(fd, &about) != 0) return fault();
    if (about.st_size > 0) return HLR_BAD_JOURNAL;
    if (!fill(fd) || fdatasync(fd) != 0) return fault();
    code = hlr_tape_snapshot(handle, fd);
    if (code != HLR_DONE) return code;
    return make_owed(handle);
}

uint8_t hlr_sync(hlr *handle) {
    uint64_t bytes = 0;
    uint8_t code = hlr_unsynced(handle, &bytes);
    if (code == HLR_DONE && bytes == 0) return make_owed(handle);
    if (code == HLR_DONE) code = hlr_tape_reserve(handle);
    if (code == HLR_DONE) code = hlr_tape_sync(handle);
    if (code == HLR_DONE) code = make_owed(handle);
    return code;
}

uint8_t hlr_journal_end(hlr *handle) {
    uint8_t code = hlr_sync(handle);
    if (code != HLR_DONE) return code;
    return hlr_tape_end(handle);
}

/* Makes a journal without rows at new_path, and gives it its name. Another process may have made it meanwhile. */
static uint8_t make_as(const char *new_path, const char *path) {
    struct stat about;
    int file = open(new_path, O_RDWR | O_CREAT | O_NOFOLLOW | O_CLOEXEC, 0666);
    if (file < 0) return fault();
    uint8_t code = lock_file(file);
    if (code == HLR_DONE) {
        int is_made = stat(path, &about) == 0;
        if (!is_made && !(fill(file) && fsync(file) == 0 && rename(new_path, path) == 0)) code = fault();
        if (is_made || code != HLR_DONE) unlink(new_path);
    }
    close(file);
    return code;
}

/* Makes a journal without rows. */
static uint8_t make(const char *path) {
    char *new_path = joined(path, ".new");
    if (new_path == NULL) return HLR_MEMORY;
    uint8_t code = make_as(new_path, path);
    free(new_path);
    return code;
}

/* Finds the journal, or makes it. Writes its path with no link in it, in memory of its own. */
static uint8_t find_or_make(const char *path, char **found) {
    *found = realpath(path, NULL);
    if (*found != NULL) return HLR_DONE;
    if (errno != ENOENT) return fault();
    uint8_t code = make(path);
    if (code != HLR_DONE) return code;
    *found = realpath(path, NULL);
    if (*found == NULL) return fault();
    return HLR_DONE;
}

/* Opens the folder of a path that begins at the root, and keeps the name of its file there. It cuts the path. */
static uint8_t open_folder(hlr_file *file, char *path) {
    char *slash = strrchr(path, '/');
    file->name = joined(slash + 1, "");
    if (file->name == NULL) return HLR_MEMORY;
    /* The folder / has its slash behind it, and no other one has. */
    if (slash == path) slash++;
    *slash = 0;
    file->folder = open(path, O_RDONLY | O_DIRECTORY | O_CLOEXEC);
    if (file->folder < 0) return fault();
    return HLR_DONE;
}

/* Opens and locks the file that has the name by then. */
static uint8_t open_locked(hlr_file *file) {
    struct stat opened, named;
    if (fstatat(file->folder, file->name, &named, 0) != 0) return fault();
    if (!S_ISREG(named.st_mode)) return HLR_BAD_JOURNAL;
    file->journal = openat(file->folder, file->name, O_RDWR | O_CLOEXEC);
    if (file->journal < 0) return fault();
    uint8_t code = lock_file(file->journal);
    if (code != HLR_DONE) return code;
    if (fstat(file->journal, &opened) != 0 || fstatat(file->folder, file->name, &named, 0) != 0) return fault();
    if (opened.st_dev != named.st_dev || opened.st_ino != named.st_ino) return HLR_LOCKED;
    return HLR_DONE;
}

/* Removes a snapshot that a crash has cut short, and puts the names of the folder on the disk. */
static uint8_t tidy(const hlr_file *file) {
    char *next = joined(file->name, ".next");
    if (next == NULL) return HLR_MEMORY;
    unlinkat(file->folder, next, 0);
    free(next);
    if (fsync(file->folder) != 0) return fault();
    return HLR_DONE;
}

/* Opens the file of a journal. After a refusal, some of it may be open. */
static uint8_t open_file(hlr_file *file, const char *path) {
    char *found = NULL;
    uint8_t code = find_or_make(path, &found);
    if (code == HLR_DONE) code = open_folder(file, found);
    free(found);
    if (code == HLR_DONE) code = open_locked(file);
    if (code == HLR_DONE) code = tidy(file);
    return code;
}

/* Closes everything that is open of a file. */
static void shut(hlr_file *file) {
    if (file->journal >= 0) close(file->journal);
    if (file->folder >= 0) close(file->folder);
    free(file->name);
    *file = (hlr_file)HLR_FILE_CLOSED;
}

uint8_t hlr_file_open(hlr_file *file, const char *path, hlr *handle, uint64_t parts, uint64_t width) {
    uint64_t is_wide = 0;
    if (file->name != NULL || hlr_width(handle, &is_wide) != HLR_NOT_OPEN) return HLR_STILL_OPEN;
    if (parts < 1 || parts > HLR_MAX_PARTS || width < 1 || width > HLR_MAX_WIDTH) return HLR_FIELD;
    hlr_file opened = {NULL, -1, -1};
    uint8_t code = open_file(&opened, path);
    if (code == HLR_DONE) code = hlr_journal(handle, opened.journal, parts, width);
    if (code == HLR_DONE) {
        *file = opened;
    } else {
        shut(&opened);
    }
    return code;
}

/* Makes an empty file for a snapshot, with the rights of the journal, and locks it. Nobody else uses this name, because
 * the journal is locked. */
static uint8_t make_next(const hlr_file *file, const char *name, int *next) {
    struct stat about;
    unlinkat(file->folder, name, 0);
    *next = openat(file->folder, name, O_RDWR | O_CREAT | O_EXCL | O_CLOEXEC, 0600);
    if (*next < 0) return fault();
    if (fstat(file->journal, &about) != 0 || fchmod(*next, about.st_mode & 07777) != 0) return fault();
    return lock_file(*next);
}

/* Gives the name of the journal to the snapshot, which is the register's journal by now. If a restart might not find it
 * there, the register is left without a journal, so that no sync is done. A journal that can't be written wouldn't be
 * enough: a sync with nothing to write doesn't touch it. All calls of the snapshot are made by now, so that the
 * register can always be left without it. */
static uint8_t replace(hlr_file *file, hlr *handle, const char *name, int next) {
    if (renameat(file->folder, name, file->folder, file->name) != 0) {
        unlinkat(file->folder, name, 0);
        hlr_tape_end(handle);
        close(next);
        return HLR_FAILED;
    }
    close(file->journal);
    file->journal = next;
    if (fsync(file->folder) == 0) return HLR_DONE;
    hlr_tape_end(handle);
    return HLR_FAILED;
}

/* Makes a snapshot under this name, and puts it in the place of the journal. */
static uint8_t snapshot_as(hlr_file *file, hlr *handle, const char *name) {
    int next = -1;
    uint8_t code = make_next(file, name, &next);
    if (code == HLR_DONE) code = hlr_snapshot(handle, next);
    if (code == HLR_DONE) return replace(file, handle, name, next);
    if (next >= 0) {
        unlinkat(file->folder, name, 0);
        close(next);
    }
    /* Somebody else has locked the new file, or written to it. */
    if (code == HLR_LOCKED || code == HLR_BAD_JOURNAL) return HLR_FAILED;
    return code;
}

uint8_t hlr_file_snapshot(hlr_file *file, hlr *handle) {
    if (file->name == NULL) return HLR_NOT_OPEN;
    uint8_t code = check_home(handle);
    if (code != HLR_DONE) return code;
    char *name = joined(file->name, ".next");
    if (name == NULL) return HLR_MEMORY;
    code = snapshot_as(file, handle, name);
    free(name);
    return code;
}

uint8_t hlr_file_close(hlr_file *file, hlr *handle) {
    if (file->name == NULL) return HLR_NOT_OPEN;
    uint8_t code = hlr_journal_end(handle);
    hlr_close(handle);
    shut(file);
    return code;
}

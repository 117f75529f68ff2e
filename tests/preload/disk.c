/* Stands between a program and its disk. It is loaded in front of the C library (LD_PRELOAD). What is written by pwrite
 * belongs to a journal; fdatasync and fsync put it on the disk. These variables say what it does:
 *
 *   DISK_LATE   a file that gets a byte for each write to standard output while bytes of the journal aren't synced
 *   DISK_MUTE   1 if syncs don't count for DISK_LATE, which shows that both kinds of writes are seen
 *   DISK_COPY   the name of files that have what was on the disk: NAME.INODE has the bytes of a file as of its last
 *               sync. NAME.named is the file whose name another one has taken, until a folder is synced, since a crash
 *               may take the renaming back
 *   DISK_SLOW   so many microseconds pass before each sync
 *   DISK_ROOM   so many bytes can be written, and then the disk is full
 *   DISK_SYNCS  so many syncs can be done, and then the disk fails
 *   DISK_ENDS   the process is killed in the call of this number, of which a write has put the first half by then
 *   DISK_NAME   the renaming of this number fails
 *   DISK_FSYNC  the fsync of this number fails, as a sync of a folder may */
#define _GNU_SOURCE
#include <dlfcn.h>
#include <errno.h>
#include <fcntl.h>
#include <limits.h>
#include <signal.h>
#include <stdint.h>
#include <stdio.h>
#include <stdlib.h>
#include <string.h>
#include <sys/stat.h>
#include <unistd.h>

static ssize_t (*true_pwrite)(int, const void *, size_t, off_t);
static ssize_t (*true_write)(int, const void *, size_t);
static int (*true_fdatasync)(int), (*true_fsync)(int);
static int (*true_rename)(const char *, const char *), (*true_renameat)(int, const char *, int, const char *);
static const char *late, *copy;
static long slow, room, syncs, ends, calls, bad_name, names, bad_fsync, fsyncs;
static int is_unsynced, is_mute;

static long number(const char *name, long otherwise) {
    const char *text = getenv(name);
    return text ? atol(text) : otherwise;
}

static void *named(const char *name) {
    void *found = dlsym(RTLD_NEXT, name);
    if (!found) abort();
    return found;
}

__attribute__((constructor)) static void begin(void) {
    *(void **)&true_pwrite = named("pwrite");
    *(void **)&true_write = named("write");
    *(void **)&true_fdatasync = named("fdatasync");
    *(void **)&true_fsync = named("fsync");
    *(void **)&true_rename = named("rename");
    *(void **)&true_renameat = named("renameat");
    late = getenv("DISK_LATE");
    is_mute = number("DISK_MUTE", 0) != 0;
    copy = getenv("DISK_COPY");
    slow = number("DISK_SLOW", 0);
    room = number("DISK_ROOM", LONG_MAX);
    syncs = number("DISK_SYNCS", LONG_MAX);
    ends = number("DISK_ENDS", 0);
    bad_name = number("DISK_NAME", 0);
    bad_fsync = number("DISK_FSYNC", 0);
}

static int is_last(void) { return ++calls == ends; }

static void end(void) {
    kill(getpid(), SIGKILL);
    for (;;) pause();
}

ssize_t pwrite(int file, const void *bytes, size_t size, off_t at) {
    is_unsynced = 1;
    if (is_last()) {
        (void)!true_pwrite(file, bytes, size / 2, at);
        end();
    }
    if (room <= 0) {
        errno = ENOSPC;
        return -1;
    }
    ssize_t put = true_pwrite(file, bytes, size < (size_t)room ? size : (size_t)room, at);
    if (put > 0) room -= put;
    return put;
}

ssize_t pwrite64(int file, const void *bytes, size_t size, off_t at) { return pwrite(file, bytes, size, at); }

ssize_t write(int file, const void *bytes, size_t size) {
    if (late && file == 1 && is_unsynced) {
        int noted = open(late, O_CREAT | O_WRONLY | O_APPEND, 0600);
        if (noted < 0 || true_write(noted, "x", 1) != 1) abort();
        close(noted);
    }
    return true_write(file, bytes, size);
}

/* Copies a file to the one that has what is on the disk of it, which has its name once it is whole. */
static void keep_copy(int file) {
    static char page[1 << 16];
    char whole[PATH_MAX], part[PATH_MAX + 8];
    struct stat about;
    off_t at = 0;
    ssize_t size;
    if (fstat(file, &about)) abort();
    snprintf(whole, sizeof whole, "%s.%ju", copy, (uintmax_t)about.st_ino);
    snprintf(part, sizeof part, "%s.part", whole);
    int made = open(part, O_CREAT | O_TRUNC | O_WRONLY, 0600);
    if (made < 0) abort();
    while ((size = pread(file, page, sizeof page, at)) > 0) {
        if (true_write(made, page, (size_t)size) != size) abort();
        at += size;
    }
    close(made);
    if (true_rename(part, whole)) abort();
}

static int is_folder(int file) {
    struct stat about;
    return fstat(file, &about) == 0 && S_ISDIR(about.st_mode);
}

/* Writes the name of the file whose name another one has taken. */
static void put_named(char name[PATH_MAX]) { snprintf(name, PATH_MAX, "%s.named", copy); }

/* Forgets the file whose name another one has taken, if there is one. */
static void forget_named(void) {
    char name[PATH_MAX];
    if (!copy) return;
    put_named(name);
    unlink(name);
}

/* Keeps the file whose name another one is about to take, if there is such a file. */
static void keep_named(int folder, const char *to) {
    char name[PATH_MAX];
    if (!copy) return;
    put_named(name);
    unlink(name);
    if (linkat(folder, to, AT_FDCWD, name, 0) && errno != ENOENT) abort();
}

static int synced(int file, int (*sync)(int)) {
    if (slow) usleep((useconds_t)slow);
    if (is_last()) end();
    if (syncs <= 0) {
        errno = EIO;
        return -1;
    }
    syncs--;
    if (sync(file)) return -1;
    if (is_folder(file)) {
        forget_named();
    } else if (!is_mute) {
        is_unsynced = 0;
    }
    return 0;
}

int fdatasync(int file) {
    if (synced(file, true_fdatasync)) return -1;
    if (copy) keep_copy(file);
    return 0;
}

int fsync(int file) {
    if (++fsyncs != bad_fsync) return synced(file, true_fsync);
    errno = EIO;
    return -1;
}

/* Whether this renaming fails. */
static int is_unnamed(void) {
    if (++names != bad_name) return 0;
    errno = EIO;
    return 1;
}

int rename(const char *from, const char *to) {
    if (is_unnamed()) return -1;
    keep_named(AT_FDCWD, to);
    return true_rename(from, to);
}

int renameat(int folder, const char *from, int other, const char *to) {
    if (is_unnamed()) return -1;
    keep_named(other, to);
    return true_renameat(folder, from, other, to);
}

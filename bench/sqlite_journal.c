/* What bench/journal writes, kept by SQLite in a file with a write-ahead log, one transaction a group:
 *
 *     sqlite_journal FILE full|normal insert|update SUBSCRIBERS GROUP GROUPS
 *
 * FILE is made anew. `insert` adds rows of the 15 bytes that a line of the journal has, and `update` sets the locations
 * of drawn subscribers, of which so many are there. The pragma synchronous is the second word. Both have prepared
 * statements. The program prints nanoseconds an event by the clock. Build it with -lsqlite3. */
#define _POSIX_C_SOURCE 200809L
#include "shared.h"
#include <sqlite3.h>
#include <stdio.h>
#include <stdlib.h>
#include <string.h>

#define LOCATIONS 4294967295u

enum { LINE = 15 };

static sqlite3 *db;
static uint64_t seed = FIRST_SEED;

/* Ends the program unless a call of SQLite has returned `wanted`. */
static void want(int code, int wanted) {
    if (code == wanted) return;
    fprintf(stderr, "sqlite_journal: %s\n", db ? sqlite3_errmsg(db) : "no memory");
    exit(1);
}

static void done(const char *text) { want(sqlite3_exec(db, text, NULL, NULL, NULL), SQLITE_OK); }

static sqlite3_stmt *prepared(const char *text) {
    sqlite3_stmt *statement;
    want(sqlite3_prepare_v2(db, text, -1, &statement, NULL), SQLITE_OK);
    return statement;
}

static void step(sqlite3_stmt *statement) {
    want(sqlite3_step(statement), SQLITE_DONE);
    want(sqlite3_reset(statement), SQLITE_OK);
}

/* Opens a new file. */
static void open_file(const char *path, const char *synchronous) {
    char text[64];
    remove(path);
    want(sqlite3_open(path, &db), SQLITE_OK);
    snprintf(text, sizeof text, "PRAGMA synchronous=%s", synchronous);
    done("PRAGMA journal_mode=WAL");
    done(text);
    done("PRAGMA locking_mode=EXCLUSIVE");
    done("CREATE TABLE line (bytes BLOB)");
    done("CREATE TABLE subscriber (s INTEGER PRIMARY KEY, nbr INTEGER UNIQUE, bits BLOB, hexes BLOB, bytes BLOB,"
         " msc INTEGER, vlr INTEGER)");
}

/* Adds the subscribers, and puts all of them into the file itself. */
static void fill(uint64_t subscribers) {
    sqlite3_stmt *put = prepared(
        "INSERT INTO subscriber VALUES (?, ?, x'00010100010100010001', x'0123456789', x'0123456789abcdef0123', 1, 1)");
    done("BEGIN");
    for (uint64_t s_id = 1; s_id <= subscribers; s_id++) {
        sqlite3_bind_int64(put, 1, (sqlite3_int64)s_id);
        sqlite3_bind_int64(put, 2, (sqlite3_int64)number(s_id));
        step(put);
    }
    done("COMMIT");
    done("PRAGMA wal_checkpoint(TRUNCATE)");
    sqlite3_finalize(put);
}

/* Binds a drawn row of 15 bytes. */
static void bind_line(sqlite3_stmt *put) {
    unsigned char bytes[LINE];
    uint64_t first = drawn_from(&seed), second = drawn_from(&seed);
    memcpy(bytes, &first, 8);
    memcpy(bytes + 8, &second, LINE - 8);
    sqlite3_bind_blob(put, 1, bytes, LINE, SQLITE_TRANSIENT);
}

/* Binds a drawn location, and the number of a drawn subscriber. */
static void bind_location(sqlite3_stmt *set, uint64_t subscribers) {
    sqlite3_bind_int64(set, 1, (sqlite3_int64)(drawn_from(&seed) % LOCATIONS + 1));
    sqlite3_bind_int64(set, 2, (sqlite3_int64)number(drawn_from(&seed) % subscribers + 1));
}

int main(int argc, char **argv) {
    if (argc != 7) return 2;
    uint64_t subscribers = strtoull(argv[4], NULL, 10);
    uint64_t group = strtoull(argv[5], NULL, 10), groups = strtoull(argv[6], NULL, 10);
    int is_update = !strcmp(argv[3], "update");
    open_file(argv[1], argv[2]);
    if (is_update) fill(subscribers);
    sqlite3_stmt *begin = prepared("BEGIN"), *commit = prepared("COMMIT");
    sqlite3_stmt *put = prepared("INSERT INTO line VALUES (?)");
    sqlite3_stmt *set = prepared("UPDATE subscriber SET vlr = ? WHERE nbr = ?");
    double begun = seconds_of(CLOCK_MONOTONIC);
    for (uint64_t turn = 0; turn < groups; turn++) {
        step(begin);
        for (uint64_t event = 0; event < group; event++) {
            if (is_update) bind_location(set, subscribers);
            else bind_line(put);
            step(is_update ? set : put);
        }
        step(commit);
    }
    printf("%.0f\n", (seconds_of(CLOCK_MONOTONIC) - begun) * 1e9 / (double)(group * groups));
    sqlite3_stmt *const statements[] = {begin, commit, put, set};
    for (int i = 0; i < 4; i++) sqlite3_finalize(statements[i]);
    want(sqlite3_close(db), SQLITE_OK);
    return 0;
}

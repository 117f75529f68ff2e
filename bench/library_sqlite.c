/* The calls of hlr.h that bench/library.c makes, over SQLite in memory: prepared statements, tables without rowid, one
 * transaction, counts that every change keeps. Ranges aren't looked at. The library is sqlite3 (-lsqlite3). */
#include "hlr.h"
#include <sqlite3.h>
#include <stdlib.h>
#include <string.h>

static sqlite3 *db;
static uint64_t width;
static int64_t counts[HLR_CELLS], published_counts[HLR_CELLS];

static const char *SCHEMA =
    "PRAGMA synchronous=OFF; PRAGMA journal_mode=OFF; PRAGMA locking_mode=EXCLUSIVE;"
    "CREATE TABLE subscriber (s INTEGER PRIMARY KEY, nbr INTEGER UNIQUE, bits BLOB, hexes BLOB, bytes BLOB, msc INTEGER, vlr INTEGER);"
    "CREATE TABLE access (s INTEGER, t INTEGER, d1 INTEGER, d2 INTEGER, d3 BLOB, d4 BLOB, PRIMARY KEY (s, t)) WITHOUT ROWID;"
    "CREATE TABLE facility (s INTEGER, t INTEGER, active INTEGER, err INTEGER, a INTEGER, b BLOB, PRIMARY KEY (s, t)) WITHOUT ROWID;"
    "CREATE TABLE forwarding (s INTEGER, t INTEGER, u INTEGER, e INTEGER, x INTEGER, PRIMARY KEY (s, t, u)) WITHOUT ROWID;"
    "BEGIN;";

enum {
    GET_SUBSCRIBER, BEARER, PUT_SUBSCRIBER, GET_ACCESS, PUT_ACCESS, GET_ACTIVE, PUT_FACILITY, DESTINATIONS, SET_BIT, SET_DATA,
    SET_LOCATION, PUT_FORWARDING, DROP_FORWARDING, SET_ACTIVE, SPANS, SET_NUMBER,
    GET_FACILITY, GET_FORWARDING, NEXT_SUBSCRIBER, STATEMENTS
};

static const char *TEXT[STATEMENTS] = {
    "SELECT nbr, bits, hexes, bytes, msc, vlr, s FROM subscriber WHERE s = ?",
    "SELECT s, vlr FROM subscriber WHERE nbr = ?",
    "INSERT OR IGNORE INTO subscriber VALUES (?, ?, ?, ?, ?, ?, ?)",
    "SELECT d1, d2, d3, d4 FROM access WHERE s = ? AND t = ?",
    "INSERT OR IGNORE INTO access VALUES (?, ?, ?, ?, ?, ?)",
    "SELECT active FROM facility WHERE s = ? AND t = ?",
    "INSERT OR IGNORE INTO facility VALUES (?, ?, ?, ?, ?, ?)",
    "SELECT x FROM forwarding WHERE s = ? AND t = ? AND u <= ? AND e > ? ORDER BY u",
    "UPDATE subscriber SET bits = ?2 || substr(bits, 2) WHERE s = ?1",
    "UPDATE facility SET a = ?3 WHERE s = ?1 AND t = ?2",
    "UPDATE subscriber SET vlr = ?2 WHERE s = ?1",
    "INSERT OR IGNORE INTO forwarding VALUES (?, ?, ?, ?, ?)",
    "DELETE FROM forwarding WHERE s = ? AND t = ? AND u = ? RETURNING e",
    "UPDATE facility SET active = ?3 WHERE s = ?1 AND t = ?2",
    "SELECT u, e FROM forwarding WHERE s = ? AND t = ?",
    "UPDATE OR IGNORE subscriber SET nbr = ?2 WHERE s = ?1",
    "SELECT active, err, a, b FROM facility WHERE s = ? AND t = ?",
    "SELECT e, x FROM forwarding WHERE s = ? AND t = ? AND u = ?",
    "SELECT nbr, bits, hexes, bytes, msc, vlr, s FROM subscriber WHERE s >= ? ORDER BY s LIMIT 1",
};

static sqlite3_stmt *prepared[STATEMENTS];

/* A statement with its first numbers bound. */
static sqlite3_stmt *bound(int which, int count, const uint64_t *numbers) {
    sqlite3_stmt *statement = prepared[which];
    sqlite3_reset(statement);
    for (int i = 0; i < count; i++) sqlite3_bind_int64(statement, i + 1, (sqlite3_int64)numbers[i]);
    return statement;
}
#define BOUND(which, ...) bound(which, sizeof((uint64_t[]){__VA_ARGS__}) / sizeof(uint64_t), (const uint64_t[]){__VA_ARGS__})

static int is_row(sqlite3_stmt *statement) { return sqlite3_step(statement) == SQLITE_ROW; }
static uint64_t number_in(sqlite3_stmt *statement, int column) { return (uint64_t)sqlite3_column_int64(statement, column); }
static void bytes_in(sqlite3_stmt *statement, int column, uint8_t *bytes, int count) {
    memcpy(bytes, sqlite3_column_blob(statement, column), (size_t)count);
}
static void bind_bytes(sqlite3_stmt *statement, int place, const uint8_t *bytes, int count) {
    sqlite3_bind_blob(statement, place, bytes, count, SQLITE_STATIC);
}
/* Whether a statement changed a row. */
static int is_changed(sqlite3_stmt *statement) {
    sqlite3_step(statement);
    return sqlite3_changes(db) > 0;
}

static int64_t *zone(uint64_t s_id) {
    uint64_t at = (s_id - 1) / width;
    return &counts[40 + (at < 31 ? at : 31)];
}
static void forward(uint64_t start, uint64_t end, int64_t by) {
    for (; start < end; start++) counts[start] += by;
}

uint8_t hlr_open(uint64_t parts, uint64_t zones_width, hlr *handle) {
    (void)parts, (void)handle;
    width = zones_width;
    if (sqlite3_open(":memory:", &db) || sqlite3_exec(db, SCHEMA, 0, 0, 0)) abort();
    for (int i = 0; i < STATEMENTS; i++)
        if (sqlite3_prepare_v2(db, TEXT[i], -1, &prepared[i], 0)) abort();
    return HLR_DONE;
}

uint8_t hlr_close(hlr *handle) {
    (void)handle;
    return HLR_DONE;
}

uint8_t hlr_add_subscriber(hlr *handle, const hlr_subscriber *row) {
    (void)handle;
    sqlite3_stmt *put = BOUND(PUT_SUBSCRIBER, row->s_id, row->sub_nbr);
    bind_bytes(put, 3, row->bits, 10), bind_bytes(put, 4, row->hexes, 10), bind_bytes(put, 5, row->bytes, 10);
    sqlite3_bind_int64(put, 6, (sqlite3_int64)row->msc_location), sqlite3_bind_int64(put, 7, (sqlite3_int64)row->vlr_location);
    if (!is_changed(put)) return HLR_EXISTS;
    ++*zone(row->s_id), counts[24 + (row->vlr_location >> 28)]++;
    return HLR_DONE;
}

uint8_t hlr_add_access(hlr *handle, const hlr_access *row) {
    (void)handle;
    sqlite3_stmt *put = BOUND(PUT_ACCESS, row->s_id, row->ai_type, row->data1, row->data2);
    bind_bytes(put, 5, row->data3, 3), bind_bytes(put, 6, row->data4, 5);
    if (!is_changed(put)) return HLR_EXISTS;
    ++*zone(row->s_id);
    return HLR_DONE;
}

uint8_t hlr_add_facility(hlr *handle, const hlr_facility *row) {
    (void)handle;
    sqlite3_stmt *put = BOUND(PUT_FACILITY, row->s_id, row->sf_type, row->is_active, row->error_cntrl, row->data_a);
    bind_bytes(put, 6, row->data_b, 5);
    if (!is_changed(put)) return HLR_EXISTS;
    ++*zone(row->s_id);
    return HLR_DONE;
}

/* The row that a statement finds, if it finds one. */
static uint8_t subscriber_in(sqlite3_stmt *get, hlr_subscriber *row) {
    if (!is_row(get)) return HLR_NO_SUBSCRIBER;
    row->sub_nbr = number_in(get, 0);
    bytes_in(get, 1, row->bits, 10), bytes_in(get, 2, row->hexes, 10), bytes_in(get, 3, row->bytes, 10);
    row->msc_location = number_in(get, 4), row->vlr_location = number_in(get, 5), row->s_id = number_in(get, 6);
    return HLR_DONE;
}

uint8_t hlr_subscriber_data(hlr *handle, uint64_t s_id, hlr_subscriber *row) {
    (void)handle;
    return subscriber_in(BOUND(GET_SUBSCRIBER, s_id), row);
}

uint8_t hlr_next_subscriber(hlr *handle, uint64_t from, hlr_subscriber *row) {
    (void)handle;
    return subscriber_in(BOUND(NEXT_SUBSCRIBER, from), row);
}

uint8_t hlr_find(hlr *handle, uint64_t number, uint64_t *s_id) {
    (void)handle;
    sqlite3_stmt *bearer = BOUND(BEARER, number);
    if (!is_row(bearer)) return HLR_NO_NUMBER;
    *s_id = number_in(bearer, 0);
    return HLR_DONE;
}

uint8_t hlr_facility_data(hlr *handle, uint64_t s_id, uint64_t sf_type, hlr_facility *row) {
    (void)handle;
    sqlite3_stmt *get = BOUND(GET_FACILITY, s_id, sf_type);
    if (!is_row(get)) return HLR_NO_FACILITY;
    row->s_id = s_id, row->sf_type = sf_type, row->is_active = number_in(get, 0);
    row->error_cntrl = number_in(get, 1), row->data_a = number_in(get, 2);
    bytes_in(get, 3, row->data_b, 5);
    return HLR_DONE;
}

uint8_t hlr_forwarding(hlr *handle, uint64_t s_id, uint64_t sf_type, uint64_t start, uint64_t *end, uint64_t *numberx) {
    (void)handle;
    sqlite3_stmt *get = BOUND(GET_FORWARDING, s_id, sf_type, start);
    if (!is_row(get)) return HLR_NO_FORWARDING;
    *end = number_in(get, 0), *numberx = number_in(get, 1);
    return HLR_DONE;
}

uint8_t hlr_access_data(hlr *handle, uint64_t s_id, uint64_t ai_type, hlr_access *row) {
    (void)handle;
    sqlite3_stmt *get = BOUND(GET_ACCESS, s_id, ai_type);
    if (!is_row(get)) return HLR_NO_ACCESS;
    row->s_id = s_id, row->ai_type = ai_type, row->data1 = number_in(get, 0), row->data2 = number_in(get, 1);
    bytes_in(get, 2, row->data3, 3), bytes_in(get, 3, row->data4, 5);
    return HLR_DONE;
}

uint8_t hlr_new_destination(hlr *handle, uint64_t s_id, uint64_t sf_type, uint64_t start, uint64_t end, hlr_numbers *told) {
    (void)handle;
    sqlite3_stmt *active = BOUND(GET_ACTIVE, s_id, sf_type);
    if (!is_row(active) || !number_in(active, 0)) return HLR_NO_DESTINATION;
    hlr_numbers found = {0, {0, 0, 0}};
    sqlite3_stmt *get = BOUND(DESTINATIONS, s_id, sf_type, start, end);
    while (is_row(get)) found.numbers[found.count++] = number_in(get, 0);
    if (!found.count) return HLR_NO_DESTINATION;
    *told = found;
    return HLR_DONE;
}

uint8_t hlr_update_subscriber(hlr *handle, uint64_t s_id, uint64_t sf_type, uint64_t bit_1, uint64_t data_a) {
    (void)handle;
    uint8_t bit = (uint8_t)bit_1;
    if (!is_changed(BOUND(SET_DATA, s_id, sf_type, data_a))) return HLR_NO_FACILITY;
    sqlite3_stmt *set = BOUND(SET_BIT, s_id);
    bind_bytes(set, 2, &bit, 1);
    return is_changed(set) ? HLR_DONE : HLR_NO_SUBSCRIBER;
}

uint8_t hlr_update_location(hlr *handle, uint64_t number, uint64_t vlr) {
    (void)handle;
    sqlite3_stmt *bearer = BOUND(BEARER, number);
    if (!is_row(bearer)) return HLR_NO_NUMBER;
    counts[24 + (number_in(bearer, 1) >> 28)]--, counts[24 + (vlr >> 28)]++;
    sqlite3_step(BOUND(SET_LOCATION, number_in(bearer, 0), vlr));
    return HLR_DONE;
}

uint8_t hlr_insert_forwarding(hlr *handle, uint64_t number, uint64_t sf_type, uint64_t start, uint64_t end, uint64_t numberx) {
    (void)handle;
    sqlite3_stmt *bearer = BOUND(BEARER, number);
    if (!is_row(bearer)) return HLR_NO_NUMBER;
    uint64_t s_id = number_in(bearer, 0);
    sqlite3_stmt *active = BOUND(GET_ACTIVE, s_id, sf_type);
    if (!is_row(active)) return HLR_NO_FACILITY;
    if (!is_changed(BOUND(PUT_FORWARDING, s_id, sf_type, start, end, numberx))) return HLR_EXISTS;
    ++*zone(s_id);
    if (number_in(active, 0)) forward(start, end, 1);
    return HLR_DONE;
}

uint8_t hlr_delete_forwarding(hlr *handle, uint64_t number, uint64_t sf_type, uint64_t start) {
    (void)handle;
    sqlite3_stmt *bearer = BOUND(BEARER, number);
    if (!is_row(bearer)) return HLR_NO_NUMBER;
    uint64_t s_id = number_in(bearer, 0);
    sqlite3_stmt *drop = BOUND(DROP_FORWARDING, s_id, sf_type, start), *active = BOUND(GET_ACTIVE, s_id, sf_type);
    if (!is_row(drop)) return HLR_NO_FORWARDING;
    --*zone(s_id);
    if (is_row(active) && number_in(active, 0)) forward(start, number_in(drop, 0), -1);
    return HLR_DONE;
}

uint8_t hlr_set_active(hlr *handle, uint64_t s_id, uint64_t sf_type, uint64_t is_active) {
    (void)handle;
    sqlite3_stmt *active = BOUND(GET_ACTIVE, s_id, sf_type);
    if (!is_row(active)) return HLR_NO_FACILITY;
    if (number_in(active, 0) == is_active) return HLR_DONE;
    sqlite3_step(BOUND(SET_ACTIVE, s_id, sf_type, is_active));
    sqlite3_stmt *spans = BOUND(SPANS, s_id, sf_type);
    while (is_row(spans)) forward(number_in(spans, 0), number_in(spans, 1), is_active ? 1 : -1);
    return HLR_DONE;
}

uint8_t hlr_set_number(hlr *handle, uint64_t s_id, uint64_t number) {
    (void)handle;
    return is_changed(BOUND(SET_NUMBER, s_id, number)) ? HLR_DONE : HLR_NUMBER_TAKEN;
}

uint8_t hlr_post(hlr *handle, uint64_t part, uint64_t limit, uint64_t *posted) {
    (void)handle, (void)part, (void)limit;
    *posted = 0;
    for (int cell = 0; cell < HLR_CELLS; cell++) *posted += published_counts[cell] != counts[cell];
    memcpy(published_counts, counts, sizeof counts);
    return HLR_DONE;
}

uint8_t hlr_views(hlr *handle, int64_t published[HLR_CELLS], int64_t unposted[HLR_CELLS]) {
    (void)handle;
    for (int cell = 0; cell < HLR_CELLS; cell++) {
        published[cell] = published_counts[cell];
        unposted[cell] = counts[cell] - published[cell];
    }
    return HLR_DONE;
}

uint8_t hlr_subscriber_data_many(hlr *handle, const uint64_t *s_ids, size_t count, hlr_subscriber *rows, size_t rows_count,
                                 uint8_t *codes, size_t codes_count) {
    (void)rows_count, (void)codes_count;
    for (size_t i = 0; i < count; i++) codes[i] = hlr_subscriber_data(handle, s_ids[i], &rows[i]);
    return HLR_DONE;
}

uint8_t hlr_access_data_many(hlr *handle, const hlr_access_asked *asked, size_t count, hlr_access *rows, size_t rows_count,
                             uint8_t *codes, size_t codes_count) {
    (void)rows_count, (void)codes_count;
    for (size_t i = 0; i < count; i++) codes[i] = hlr_access_data(handle, asked[i].s_id, asked[i].ai_type, &rows[i]);
    return HLR_DONE;
}

uint8_t hlr_new_destination_many(hlr *handle, const hlr_destination_asked *asked, size_t count, hlr_numbers *told, size_t told_count,
                                 uint8_t *codes, size_t codes_count) {
    (void)told_count, (void)codes_count;
    for (size_t i = 0; i < count; i++) {
        codes[i] = hlr_new_destination(handle, asked[i].s_id, asked[i].sf_type, asked[i].start_time, asked[i].end_time, &told[i]);
    }
    return HLR_DONE;
}

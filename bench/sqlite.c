/* The commands of hlr on rows over SQLite in memory, to measure against: prepared statements, tables without rowid, one
 * transaction for the whole run, nothing synchronous. Fields are taken as they stand: ranges aren't looked at.
 *
 *   cc -O2 bench/sqlite.c -lsqlite3 -o /tmp/bench/sqlite; sqlite --zone W < in.csv > out.txt
 *
 * Commands: sub acc fac active number gsd gnd gad usd ul icf dcf views scan give take; views and scan count all rows by
 * queries, and give and take move those of one loose piece into tables of their own and back, of which nothing is refused.
 */
#include <sqlite3.h>
#include <stdio.h>
#include <stdlib.h>
#include <string.h>

static sqlite3 *db;

#define TABLES(NAME) \
    "CREATE TABLE " NAME "subscriber (s INTEGER PRIMARY KEY, nbr INTEGER UNIQUE, bits TEXT, hexes TEXT, bytes TEXT, msc INTEGER, vlr INTEGER) WITHOUT ROWID;" \
    "CREATE TABLE " NAME "access (s INTEGER, t INTEGER, d1 INTEGER, d2 INTEGER, d3 TEXT, d4 TEXT, PRIMARY KEY (s, t)) WITHOUT ROWID;" \
    "CREATE TABLE " NAME "facility (s INTEGER, t INTEGER, active INTEGER, err INTEGER, a INTEGER, b TEXT, PRIMARY KEY (s, t)) WITHOUT ROWID;" \
    "CREATE TABLE " NAME "forwarding (s INTEGER, t INTEGER, u INTEGER, e INTEGER, x INTEGER, PRIMARY KEY (s, t, u)) WITHOUT ROWID;"

static const char *SCHEMA =
    "PRAGMA synchronous=OFF; PRAGMA journal_mode=OFF; PRAGMA locking_mode=EXCLUSIVE;"
    TABLES("")
    TABLES("piece_")
    "BEGIN;";

enum statement {
  GET_SUBSCRIBER, OWNER, HAS_SUBSCRIBER, PUT_SUBSCRIBER, GET_ACCESS, PUT_ACCESS, GET_FACILITY, PUT_FACILITY, DESTINATIONS,
  SET_BIT, SET_DATA, SET_LOCATION, PUT_FORWARDING, DROP_FORWARDING, SET_ACTIVE, SET_NUMBER, CALLS, AREAS, ZONES, STATEMENTS
};

static const char *TEXT[STATEMENTS] = {
  "SELECT s, nbr, bits, hexes, bytes, msc, vlr FROM subscriber WHERE s = ?",
  "SELECT s FROM subscriber WHERE nbr = ?",
  "SELECT 1 FROM subscriber WHERE s = ?",
  "INSERT INTO subscriber VALUES (?, ?, ?, ?, ?, ?, ?)",
  "SELECT d1, d2, d3, d4 FROM access WHERE s = ? AND t = ?",
  "INSERT INTO access VALUES (?, ?, ?, ?, ?, ?)",
  "SELECT active FROM facility WHERE s = ? AND t = ?",
  "INSERT INTO facility VALUES (?, ?, ?, ?, ?, ?)",
  "SELECT x FROM forwarding WHERE s = ? AND t = ? AND u <= ? AND e > ? ORDER BY u",
  "UPDATE subscriber SET bits = ?2 || substr(bits, 2) WHERE s = ?1",
  "UPDATE facility SET a = ?3 WHERE s = ?1 AND t = ?2",
  "UPDATE subscriber SET vlr = ?2 WHERE nbr = ?1",
  "INSERT INTO forwarding VALUES (?, ?, ?, ?, ?)",
  "DELETE FROM forwarding WHERE s = ? AND t = ? AND u = ?",
  "UPDATE facility SET active = ?3 WHERE s = ?1 AND t = ?2",
  "UPDATE subscriber SET nbr = ?2 WHERE s = ?1",
  "SELECT c, count(*) FROM (WITH RECURSIVE hours(c) AS (VALUES (0) UNION ALL SELECT c + 1 FROM hours WHERE c < 23) SELECT c FROM hours),"
  " forwarding NATURAL JOIN (SELECT s, t FROM facility WHERE active = 1) WHERE u <= c AND c < e GROUP BY c",
  "SELECT 24 + (vlr >> 28), count(*) FROM subscriber GROUP BY 1",
  "SELECT 40 + min(31, (s - 1) / ?), count(*) FROM (SELECT s FROM subscriber UNION ALL SELECT s FROM access"
  " UNION ALL SELECT s FROM facility UNION ALL SELECT s FROM forwarding) GROUP BY 1",
};

enum { CELLS = 72 };

static sqlite3_stmt *prepared[STATEMENTS];

/* A statement with these fields for its parameters: numbers where the field begins with a digit and is a number of its table. */
static sqlite3_stmt *with(enum statement which, const char *kinds, char **fields) {
  sqlite3_stmt *statement = prepared[which];
  sqlite3_reset(statement);
  for (int i = 0; kinds[i]; i++) {
    if (kinds[i] == 'n') sqlite3_bind_int64(statement, i + 1, strtoll(fields[i], NULL, 10));
    else sqlite3_bind_text(statement, i + 1, fields[i], -1, SQLITE_STATIC);
  }
  return statement;
}

static int found(enum statement which, const char *kinds, char **fields) {
  return sqlite3_step(with(which, kinds, fields)) == SQLITE_ROW;
}

static int changed(enum statement which, const char *kinds, char **fields) {
  return sqlite3_step(with(which, kinds, fields)) == SQLITE_DONE && sqlite3_changes(db) > 0;
}

static const char *text(enum statement which, int column) { return (const char *)sqlite3_column_text(prepared[which], column); }
static long long number(enum statement which, int column) { return sqlite3_column_int64(prepared[which], column); }

static const char *ok_or(int done, const char *refusal) { return done ? "ok\n" : refusal; }

static const char NO_SUBSCRIBER[] = "refused,3,NoSubscriber\n", NO_NUMBER[] = "refused,4,NoNumber\n", NO_ACCESS[] = "refused,5,NoAccess\n",
                  NO_FACILITY[] = "refused,6,NoFacility\n", NO_FORWARDING[] = "refused,7,NoForwarding\n",
                  NO_DESTINATION[] = "refused,8,NoDestination\n", EXISTS[] = "refused,9,Exists\n", TAKEN[] = "refused,10,NumberTaken\n";

/* The subscriber with a number, as a field; NULL where there is none. */
static char *owner(char *nbr) {
  static char s[24];
  if (!found(OWNER, "n", &nbr)) return NULL;
  snprintf(s, sizeof s, "%lld", number(OWNER, 0));
  return s;
}

static const char *destinations(char **f) {
  int any = 0;
  char *asked[] = {f[1], f[2], f[3], f[4]};
  if (!found(GET_FACILITY, "nn", f + 1) || !number(GET_FACILITY, 0)) return NO_DESTINATION;
  sqlite3_stmt *statement = with(DESTINATIONS, "nnnn", asked);
  for (; sqlite3_step(statement) == SQLITE_ROW; any = 1) printf("%s,%015lld", any ? "" : "numbers", number(DESTINATIONS, 0));
  return any ? "\n" : NO_DESTINATION;
}

/* Each cell that counts some rows; of views with nothing published. */
static void count(const char *name, long long width) {
  long long cells[CELLS] = {0};
  int listed = 0;
  for (enum statement which = CALLS; which <= ZONES; which++) {
    sqlite3_reset(prepared[which]);
    if (which == ZONES) sqlite3_bind_int64(prepared[which], 1, width);
    while (sqlite3_step(prepared[which]) == SQLITE_ROW) cells[number(which, 0)] = number(which, 1);
  }
  for (int cell = 0; cell < CELLS; cell++)
    if (cells[cell]) listed++, printf(*name == 'v' ? "cell,%d,0,%lld\n" : "cell,%d,%lld\n", cell, cells[cell]);
  printf("%s,%d\n", name, listed);
}

/* The rows of subscribers from one on move from some tables into others. */
static void move_rows(const char *from, const char *to, long long first) {
  static const char *NAMES[] = {"subscriber", "access", "facility", "forwarding"};
  char text[256];
  for (int i = 0; i < 4; i++) {
    snprintf(text, sizeof text, "INSERT INTO %s%s SELECT * FROM %s%s WHERE s >= %lld; DELETE FROM %s%s WHERE s >= %lld;",
             to, NAMES[i], from, NAMES[i], first, from, NAMES[i], first);
    if (sqlite3_exec(db, text, NULL, NULL, NULL)) fprintf(stderr, "%s\n", sqlite3_errmsg(db)), exit(1);
  }
}

static const char *answer(char **f) {
  char *s;
  switch (f[0][0] << 8 | f[0][1]) {
    case 'g' << 8 | 's':
      if (!found(GET_SUBSCRIBER, "n", f + 1)) return NO_SUBSCRIBER;
      printf("subscriber,%lld,%015lld,%s,%s,%s,%lld,%lld", number(GET_SUBSCRIBER, 0), number(GET_SUBSCRIBER, 1), text(GET_SUBSCRIBER, 2),
             text(GET_SUBSCRIBER, 3), text(GET_SUBSCRIBER, 4), number(GET_SUBSCRIBER, 5), number(GET_SUBSCRIBER, 6));
      return "\n";
    case 'g' << 8 | 'n': return destinations(f);
    case 'g' << 8 | 'a':
      if (!found(GET_ACCESS, "nn", f + 1)) return NO_ACCESS;
      printf("access,%lld,%lld,%s,%s", number(GET_ACCESS, 0), number(GET_ACCESS, 1), text(GET_ACCESS, 2), text(GET_ACCESS, 3));
      return "\n";
    case 'u' << 8 | 's':
      if (!found(HAS_SUBSCRIBER, "n", f + 1)) return NO_SUBSCRIBER;
      if (!changed(SET_DATA, "nnn", (char *[]){f[1], f[2], f[4]})) return NO_FACILITY;
      return ok_or(changed(SET_BIT, "nt", (char *[]){f[1], f[3]}), NO_SUBSCRIBER);
    case 'u' << 8 | 'l': return ok_or(changed(SET_LOCATION, "nn", f + 1), NO_NUMBER);
    case 'i' << 8 | 'c':
      if (!(s = owner(f[1]))) return NO_NUMBER;
      if (!found(GET_FACILITY, "nn", (char *[]){s, f[2]})) return NO_FACILITY;
      return ok_or(changed(PUT_FORWARDING, "nnnnn", (char *[]){s, f[2], f[3], f[4], f[5]}), EXISTS);
    case 'd' << 8 | 'c':
      if (!(s = owner(f[1]))) return NO_NUMBER;
      return ok_or(changed(DROP_FORWARDING, "nnn", (char *[]){s, f[2], f[3]}), NO_FORWARDING);
    case 's' << 8 | 'u':
      if (found(HAS_SUBSCRIBER, "n", f + 1)) return EXISTS;
      return ok_or(changed(PUT_SUBSCRIBER, "nntttnn", f + 1), TAKEN);
    case 'a' << 8 | 'c':
      if (f[0][2] == 't') return ok_or(changed(SET_ACTIVE, "nnn", f + 1), NO_FACILITY);
      if (!found(HAS_SUBSCRIBER, "n", f + 1)) return NO_SUBSCRIBER;
      return ok_or(changed(PUT_ACCESS, "nnnntt", f + 1), EXISTS);
    case 'f' << 8 | 'a':
      if (!found(HAS_SUBSCRIBER, "n", f + 1)) return NO_SUBSCRIBER;
      return ok_or(changed(PUT_FACILITY, "nnnnnt", f + 1), EXISTS);
    case 'g' << 8 | 'i':
      move_rows("", "piece_", atoll(f[3]));
      printf("piece,1,%s,16777217", f[3]);
      return "\n";
    case 't' << 8 | 'a':
      move_rows("piece_", "", 0);
      return "taken,1,0\n";
    case 'n' << 8 | 'u':
      if (!found(HAS_SUBSCRIBER, "n", f + 1)) return NO_SUBSCRIBER;
      return ok_or(changed(SET_NUMBER, "nn", f + 1), TAKEN);
    default: return "refused,19,Syntax\n";
  }
}

int main(int argc, char **argv) {
  static char line[65536];
  long long width = argc > 2 && !strcmp(argv[1], "--zone") ? atoll(argv[2]) : 524288;
  setvbuf(stdout, NULL, _IOFBF, 1 << 16);
  if (sqlite3_open(":memory:", &db) || sqlite3_exec(db, SCHEMA, NULL, NULL, NULL)) return fprintf(stderr, "%s\n", sqlite3_errmsg(db)), 1;
  for (int i = 0; i < STATEMENTS; i++)
    if (sqlite3_prepare_v2(db, TEXT[i], -1, &prepared[i], NULL)) return fprintf(stderr, "%s: %s\n", TEXT[i], sqlite3_errmsg(db)), 1;
  while (fgets(line, sizeof line, stdin)) {
    char *fields[9] = {0}, *rest = line;
    line[strcspn(line, "\r\n")] = 0;
    for (int i = 0; i < 9 && rest; i++) fields[i] = strsep(&rest, ",");
    if (!strcmp(fields[0], "views") || !strcmp(fields[0], "scan")) count(fields[0], width);
    else fputs(answer(fields), stdout);
  }
  return 0;
}

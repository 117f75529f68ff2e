/*
 * add.c: HLR.ADD key records [records ..], which adds many rows of any table.
 *
 * The records are sub, acc, fac and icf of docs/RECORDS.md without quotes, one on each line: what the program hlr
 * reads, and what examples/library/save.c writes. So you can send a file of rows as it is, with `redis-cli -x HLR.ADD
 * key`. A word of the command holds many rows, because Redis spends more time on each word than the register spends
 * on a row.
 *
 * The rows are added in order, and each one is added in whole or refused in whole, as by a command of its own. A
 * refused row doesn't keep the others out. The reply has the number of rows that were added, the number that were
 * refused, and a list of the first refused rows with their place and the reason.
 *
 * The command is replicated as it was typed. That is right because a refusal depends on the register's rows alone, so
 * every server that repeats the command refuses the same rows. The one exception is memory. So the first row for
 * which no memory is left ends the command: that row and all rows behind it count as refused, and only the text
 * before that row is replicated.
 */
#include "hlr_redis.h"
#include <string.h>

/* A code that hlr.h doesn't use: the line isn't a record of a row. */
#define NO_RECORD 200

/* How many refusals the reply lists at most. */
#define LISTED 16

#define MOST_FIELDS 8

struct refusal {
    uint64_t row;
    uint8_t code;
};

struct adding {
    hlr *handle;
    uint64_t rows, added;
    struct refusal refusals[LISTED];
    int is_out_of_memory;
    int word;          /* the word of the command in which memory was refused */
    const char *begin; /* the first byte of that word */
    size_t before;     /* how many bytes of it come before the refused row */
};

/* Divides a record at its commas. Returns the number of fields, or MOST_FIELDS + 1 if there are more than that. */
static int fields_of(struct text line, struct text fields[MOST_FIELDS]) {
    const char *end = line.at + line.length;
    for (int count = 0; count < MOST_FIELDS; count++) {
        const char *comma = memchr(line.at, ',', (size_t)(end - line.at));
        fields[count] = (struct text){line.at, (size_t)((comma ? comma : end) - line.at)};
        if (!comma) return count + 1;
        line.at = comma + 1;
    }
    return MOST_FIELDS + 1;
}

static uint8_t add_forwarding_of(hlr *handle, const struct text *fields) {
    uint64_t n[FORWARDING_FIELDS];
    for (int place = 0; place < FORWARDING_FIELDS; place++) n[place] = number_of(fields[place]);
    return hlr_insert_forwarding(handle, n[0], n[1], n[2], n[3], n[4]);
}

static uint8_t add_record(hlr *handle, struct text line) {
    struct text fields[MOST_FIELDS];
    int count = fields_of(line, fields) - 1;
    if (count > SUBSCRIBER_FIELDS || fields[0].length != 3) return NO_RECORD;
    if (count == SUBSCRIBER_FIELDS && memcmp(fields[0].at, "sub", 3) == 0) {
        hlr_subscriber row;
        return subscriber_of(fields + 1, &row) ? hlr_add_subscriber(handle, &row) : HLR_FIELD;
    }
    if (count == ACCESS_FIELDS && memcmp(fields[0].at, "acc", 3) == 0) {
        hlr_access row;
        return access_of(fields + 1, &row) ? hlr_add_access(handle, &row) : HLR_FIELD;
    }
    if (count == FACILITY_FIELDS && memcmp(fields[0].at, "fac", 3) == 0) {
        hlr_facility row;
        return facility_of(fields + 1, &row) ? hlr_add_facility(handle, &row) : HLR_FIELD;
    }
    if (count == FORWARDING_FIELDS && memcmp(fields[0].at, "icf", 3) == 0) return add_forwarding_of(handle, fields + 1);
    return NO_RECORD;
}

/* Adds the rows of one word, line by line. Once memory was refused, it only counts the rows. */
static void add_records(struct adding *adding, int word, struct text text) {
    const char *begin = text.at, *end = text.at + text.length;
    while (text.at < end) {
        const char *at = text.at, *newline = memchr(at, '\n', (size_t)(end - at));
        const char *behind = newline ? newline : end;
        text.at = newline ? newline + 1 : end;
        if (behind > at && behind[-1] == '\r') behind--;
        if (behind == at) continue;
        struct text line = {at, (size_t)(behind - at)};
        uint8_t code = adding->is_out_of_memory ? HLR_MEMORY : add_record(adding->handle, line);
        uint64_t refused = adding->rows++ - adding->added;
        if (code == HLR_DONE) adding->added++;
        else if (refused < LISTED) adding->refusals[refused] = (struct refusal){adding->rows, code};
        if (code != HLR_MEMORY || adding->is_out_of_memory) continue;
        adding->is_out_of_memory = 1;
        adding->word = word;
        adding->begin = begin;
        adding->before = (size_t)(at - begin);
    }
}

static void reply_adding(redis_context *ctx, const struct adding *adding) {
    uint64_t refused = adding->rows - adding->added, listed = refused < LISTED ? refused : LISTED;
    redis.ReplyWithMap(ctx, 3);
    reply_number(ctx, "added", adding->added);
    reply_number(ctx, "refused", refused);
    redis.ReplyWithStringBuffer(ctx, "refusals", 8);
    redis.ReplyWithArray(ctx, (long)listed);
    for (uint64_t place = 0; place < listed; place++) {
        const struct refusal *one = &adding->refusals[place];
        const char *no_record = "ERR no record sub, acc, fac or icf with its fields";
        const char *why = one->code == NO_RECORD ? no_record : refusal_text(one->code);
        redis.ReplyWithArray(ctx, 2);
        redis.ReplyWithLongLong(ctx, (long long)one->row);
        redis.ReplyWithStringBuffer(ctx, why, strlen(why));
    }
}

COMMAND(add) {
    struct opened opened;
    if (!is_opened(ctx, argv[1], REDIS_WRITE, &opened)) return REDIS_OK;
    struct adding adding = {.handle = &opened.store->handle};
    for (int word = 2; word < argc; word++) add_records(&adding, word, text_of(argv[word]));
    settled(opened.store, HLR_DONE);
    if (adding.is_out_of_memory && is_repeated(ctx)) end_server(ctx, "hlr.add", refusal_text(HLR_MEMORY));
    if (adding.added > 0) {
        size_t words = (size_t)adding.word - 2;
        if (!adding.is_out_of_memory) redis.ReplicateVerbatim(ctx);
        else redis.Replicate(ctx, "HLR.ADD", "svb", argv[1], argv + 2, words, adding.begin, adding.before);
        redis.SignalModifiedKey(ctx, argv[1]);
        redis.NotifyKeyspaceEvent(ctx, REDIS_NOTIFY_MODULE, "hlr.add", argv[1]);
    }
    redis.CloseKey(opened.key);
    reply_adding(ctx, &adding);
    return REDIS_OK;
}

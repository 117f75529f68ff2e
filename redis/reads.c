/* reads.c: the commands that read. */
#include "hlr_redis.h"
#include "rows.h"

int is_opened(redis_context *ctx, redis_string *name, int mode, struct opened *opened) {
    opened->key = redis.OpenKey(ctx, name, mode);
    if (redis.ModuleTypeGetType(opened->key) == store_type) {
        opened->store = redis.ModuleTypeGetValue(opened->key);
        return 1;
    }
    const char *why = redis.KeyType(opened->key) == REDIS_KEY_EMPTY
                          ? "NOREGISTER no register is at this key, HLR.CREATE makes one"
                          : "WRONGTYPE Operation against a key holding the wrong kind of value";
    redis.CloseKey(opened->key);
    if (mode == REDIS_WRITE && is_repeated(ctx)) end_server(ctx, "a write", why);
    redis.ReplyWithError(ctx, why);
    return 0;
}

/* ---- one row ---- */

/* HLR.GSD key s_id */
COMMAND(get_subscriber) {
    (void)argc;
    struct opened opened;
    hlr_subscriber row = {0};
    if (!is_opened(ctx, argv[1], REDIS_READ, &opened)) return REDIS_OK;
    uint8_t code = hlr_subscriber_data(&opened.store->handle, number_of(text_of(argv[2])), &row);
    redis.CloseKey(opened.key);
    return reply_subscriber(ctx, code, &row);
}

/* HLR.GAD key s_id ai_type */
COMMAND(get_access) {
    (void)argc;
    struct opened opened;
    uint64_t asked[2];
    hlr_access row = {0};
    if (!is_opened(ctx, argv[1], REDIS_READ, &opened)) return REDIS_OK;
    numbers_of(argv + 2, 2, asked);
    uint8_t code = hlr_access_data(&opened.store->handle, asked[0], asked[1], &row);
    redis.CloseKey(opened.key);
    return reply_access(ctx, code, &row);
}

/* HLR.GFD key s_id sf_type */
COMMAND(get_facility) {
    (void)argc;
    struct opened opened;
    uint64_t asked[2];
    hlr_facility row = {0};
    if (!is_opened(ctx, argv[1], REDIS_READ, &opened)) return REDIS_OK;
    numbers_of(argv + 2, 2, asked);
    uint8_t code = hlr_facility_data(&opened.store->handle, asked[0], asked[1], &row);
    redis.CloseKey(opened.key);
    return reply_facility(ctx, code, &row);
}

/* HLR.GCF key s_id sf_type start_time */
COMMAND(get_forwarding) {
    (void)argc;
    struct opened opened;
    uint64_t asked[3], end_time = 0, numberx = 0;
    if (!is_opened(ctx, argv[1], REDIS_READ, &opened)) return REDIS_OK;
    numbers_of(argv + 2, 3, asked);
    uint8_t code = hlr_forwarding(&opened.store->handle, asked[0], asked[1], asked[2], &end_time, &numberx);
    redis.CloseKey(opened.key);
    return reply_forwarding(ctx, code, end_time, numberx);
}

/* HLR.GND key s_id sf_type start_time end_time */
COMMAND(get_destination) {
    (void)argc;
    struct opened opened;
    uint64_t asked[4];
    hlr_numbers numbers = {0};
    if (!is_opened(ctx, argv[1], REDIS_READ, &opened)) return REDIS_OK;
    numbers_of(argv + 2, 4, asked);
    uint8_t code = hlr_new_destination(&opened.store->handle, asked[0], asked[1], asked[2], asked[3], &numbers);
    redis.CloseKey(opened.key);
    return reply_destinations(ctx, code, &numbers);
}

/* HLR.FIND key sub_nbr */
COMMAND(find) {
    (void)argc;
    struct opened opened;
    uint64_t s_id = 0;
    if (!is_opened(ctx, argv[1], REDIS_READ, &opened)) return REDIS_OK;
    uint8_t code = hlr_find(&opened.store->handle, number_of(text_of(argv[2])), &s_id);
    redis.CloseKey(opened.key);
    if (code == HLR_NO_NUMBER) return redis.ReplyWithNull(ctx);
    if (code != HLR_DONE) return redis.ReplyWithError(ctx, refusal_text(code));
    return redis.ReplyWithLongLong(ctx, (long long)s_id);
}

/* ---- many rows: the register looks 16 keys up at a time, and their memory accesses overlap ---- */

#define BATCH 16

static size_t batch_of(int left) { return left < BATCH ? (size_t)left : BATCH; }

/* HLR.MGSD key s_id [s_id ..] */
COMMAND(get_subscribers) {
    struct opened opened;
    if (!is_opened(ctx, argv[1], REDIS_READ, &opened)) return REDIS_OK;
    redis.ReplyWithArray(ctx, argc - 2);
    for (int at = 2; at < argc; at += BATCH) {
        size_t count = batch_of(argc - at);
        uint64_t asked[BATCH];
        hlr_subscriber rows[BATCH] = {{0}};
        uint8_t codes[BATCH] = {0};
        numbers_of(argv + at, (int)count, asked);
        hlr_subscriber_data_many(&opened.store->handle, asked, count, rows, count, codes, count);
        for (size_t place = 0; place < count; place++) reply_subscriber(ctx, codes[place], &rows[place]);
    }
    redis.CloseKey(opened.key);
    return REDIS_OK;
}

/* HLR.MGAD key s_id ai_type [s_id ai_type ..] */
COMMAND(get_accesses) {
    struct opened opened;
    if (argc % 2) return redis.ReplyWithError(ctx, SYNTAX);
    if (!is_opened(ctx, argv[1], REDIS_READ, &opened)) return REDIS_OK;
    redis.ReplyWithArray(ctx, (argc - 2) / 2);
    for (int at = 2; at < argc; at += 2 * BATCH) {
        size_t count = batch_of((argc - at) / 2);
        hlr_access_asked asked[BATCH];
        hlr_access rows[BATCH] = {{0}};
        uint8_t codes[BATCH] = {0};
        for (size_t place = 0; place < count; place++) {
            uint64_t words[2];
            numbers_of(argv + at + 2 * place, 2, words);
            asked[place] = (hlr_access_asked){words[0], words[1]};
        }
        hlr_access_data_many(&opened.store->handle, asked, count, rows, count, codes, count);
        for (size_t place = 0; place < count; place++) reply_access(ctx, codes[place], &rows[place]);
    }
    redis.CloseKey(opened.key);
    return REDIS_OK;
}

/* HLR.MGND key s_id sf_type start_time end_time [s_id sf_type start_time end_time ..] */
COMMAND(get_destinations) {
    struct opened opened;
    if ((argc - 2) % 4) return redis.ReplyWithError(ctx, SYNTAX);
    if (!is_opened(ctx, argv[1], REDIS_READ, &opened)) return REDIS_OK;
    redis.ReplyWithArray(ctx, (argc - 2) / 4);
    for (int at = 2; at < argc; at += 4 * BATCH) {
        size_t count = batch_of((argc - at) / 4);
        hlr_destination_asked asked[BATCH];
        hlr_numbers numbers[BATCH] = {{0}};
        uint8_t codes[BATCH] = {0};
        for (size_t place = 0; place < count; place++) {
            uint64_t words[4];
            numbers_of(argv + at + 4 * place, 4, words);
            asked[place] = (hlr_destination_asked){words[0], words[1], words[2], words[3]};
        }
        hlr_new_destination_many(&opened.store->handle, asked, count, numbers, count, codes, count);
        for (size_t place = 0; place < count; place++) reply_destinations(ctx, codes[place], &numbers[place]);
    }
    redis.CloseKey(opened.key);
    return REDIS_OK;
}

/* ---- counts ---- */

#define FIRST_AREA 24
#define FIRST_ZONE 40

static const struct kind {
    const char *word, *name;
    int from, to;
} kinds[] = {{"HOURS", "hours", 0, FIRST_AREA}, {"AREAS", "areas", FIRST_AREA, FIRST_ZONE}, {"ZONES", "zones", FIRST_ZONE, HLR_CELLS}};

static int64_t sum_of(const int64_t *cells, int from, int to) {
    int64_t sum = 0;
    while (from < to) sum += cells[from++];
    return sum;
}

static void reply_kind(redis_context *ctx, const struct kind *kind, const int64_t cells[HLR_CELLS]) {
    redis.ReplyWithArray(ctx, kind->to - kind->from);
    for (int cell = kind->from; cell < kind->to; cell++) redis.ReplyWithLongLong(ctx, cells[cell]);
}

/* Replies the counts of one kind if a word asks for it, and otherwise a map of all three kinds. */
static int reply_counts(redis_context *ctx, redis_string **argv, int argc, void (*count)(struct store *, int64_t cells[HLR_CELLS])) {
    const struct kind *asked = NULL;
    struct opened opened;
    int64_t cells[HLR_CELLS] = {0};
    for (int kind = 0; kind < 3 && argc == 3; kind++)
        if (is_word(argv[2], kinds[kind].word)) asked = &kinds[kind];
    if (argc > 3 || (argc == 3 && !asked)) return redis.ReplyWithError(ctx, SYNTAX);
    if (!is_opened(ctx, argv[1], REDIS_READ, &opened)) return REDIS_OK;
    count(opened.store, cells);
    redis.CloseKey(opened.key);
    if (asked) reply_kind(ctx, asked, cells);
    else redis.ReplyWithMap(ctx, 3);
    for (int kind = 0; kind < 3 && !asked; kind++) {
        redis.ReplyWithStringBuffer(ctx, kinds[kind].name, 5);
        reply_kind(ctx, &kinds[kind], cells);
    }
    return REDIS_OK;
}

static void walked_counts(struct store *store, int64_t cells[HLR_CELLS]) {
    uint64_t counted[HLR_CELLS] = {0};
    hlr_scan(&store->handle, counted);
    for (int cell = 0; cell < HLR_CELLS; cell++) cells[cell] = (int64_t)counted[cell];
}

/* HLR.COUNTS key [HOURS | AREAS | ZONES]: the live counts. No row is read for them. */
COMMAND(counts) { return reply_counts(ctx, argv, argc, store_counts); }

/* HLR.RECOUNT key [HOURS | AREAS | ZONES]: the same counts, made anew by reading all rows. */
COMMAND(recount) { return reply_counts(ctx, argv, argc, walked_counts); }

/* HLR.INFO key */
COMMAND(info) {
    (void)argc;
    struct opened opened;
    int64_t cells[HLR_CELLS] = {0};
    uint64_t width = 0;
    if (!is_opened(ctx, argv[1], REDIS_READ, &opened)) return REDIS_OK;
    store_counts(opened.store, cells);
    hlr_width(&opened.store->handle, &width);
    redis.ReplyWithMap(ctx, 4);
    reply_number(ctx, "subscribers", (uint64_t)sum_of(cells, FIRST_AREA, FIRST_ZONE));
    reply_number(ctx, "rows", (uint64_t)sum_of(cells, FIRST_ZONE, HLR_CELLS));
    reply_number(ctx, "zone", width);
    reply_number(ctx, "memory", store_memory(opened.store));
    redis.CloseKey(opened.key);
    return REDIS_OK;
}

/* ---- all rows ---- */

#define SCAN_DEFAULT 10
#define SCAN_MOST 10000

/* Counts the subscribers from an s_id on, up to `most` of them. `behind` is the s_id of the next one, or 0 if there
 * is none. */
static uint64_t count_from(hlr *handle, uint64_t from, uint64_t most, uint64_t *behind) {
    hlr_subscriber rows[PAGE_ROWS];
    uint64_t found = 0, count = 0, room = 0;
    *behind = 0;
    do {
        room = most + 1 - found < PAGE_ROWS ? most + 1 - found : PAGE_ROWS;
        hlr_next_subscribers(handle, from, rows, room, &count);
        found += count;
        if (count > 0) from = rows[count - 1].s_id + 1;
    } while (count == room && found <= most);
    if (found <= most) return found;
    *behind = from - 1;
    return most;
}

/* Replies a subscriber and all its rows as a map of the four tables. Rows are gathered first, because the length of
 * a list is replied before its elements. */
static void reply_rows(redis_context *ctx, struct walk *walk, const hlr_subscriber *subscriber) {
    uint64_t s_id = subscriber->s_id;
    const hlr_access *access;
    const hlr_facility *facility;
    const hlr_forwarding_row *forwarding;
    hlr_access accesses[4];
    hlr_facility facilities[4];
    hlr_forwarding_row forwardings[12];
    long count = 0;
    redis.ReplyWithMap(ctx, 4);
    redis.ReplyWithStringBuffer(ctx, "subscriber", 10);
    reply_subscriber(ctx, HLR_DONE, subscriber);
    while (count < 4 && (access = walk_access(walk, s_id))) accesses[count++] = *access;
    redis.ReplyWithStringBuffer(ctx, "accesses", 8);
    redis.ReplyWithArray(ctx, count);
    for (long place = 0; place < count; place++) reply_access_row(ctx, &accesses[place]);
    for (count = 0; count < 4 && (facility = walk_facility(walk, s_id));) facilities[count++] = *facility;
    redis.ReplyWithStringBuffer(ctx, "facilities", 10);
    redis.ReplyWithArray(ctx, count);
    for (long place = 0; place < count; place++) reply_facility_row(ctx, &facilities[place]);
    for (count = 0; count < 12 && (forwarding = walk_forwarding(walk, s_id));) forwardings[count++] = *forwarding;
    redis.ReplyWithStringBuffer(ctx, "forwardings", 11);
    redis.ReplyWithArray(ctx, count);
    for (long place = 0; place < count; place++) reply_forwarding_row(ctx, &forwardings[place]);
}

/* HLR.SCAN key cursor [COUNT count]: replies the next cursor, which is 0 at the end, and all rows of up to count
 * subscribers. A cursor is an s_id, so it stays valid however long a client waits and whatever is added meanwhile. */
COMMAND(scan) {
    struct opened opened;
    struct walk walk;
    uint64_t behind, from = number_of(text_of(argv[2])), most = argc == 5 ? number_of(text_of(argv[4])) : SCAN_DEFAULT;
    if ((argc != 3 && argc != 5) || (argc == 5 && !is_word(argv[3], "COUNT"))) return redis.ReplyWithError(ctx, SYNTAX);
    if (from == UINT64_MAX) return redis.ReplyWithError(ctx, "ERR invalid cursor");
    if (most == 0 || most > SCAN_MOST) return redis.ReplyWithError(ctx, "ERR COUNT is 1 to 10000");
    if (!is_opened(ctx, argv[1], REDIS_READ, &opened)) return REDIS_OK;
    uint64_t count = count_from(&opened.store->handle, from, most, &behind);
    redis.ReplyWithArray(ctx, 2);
    redis.ReplyWithLongLong(ctx, (long long)behind);
    redis.ReplyWithArray(ctx, (long)count);
    walk_begin(&walk, &opened.store->handle, from, count < PAGE_ROWS / 4 ? 4 * (size_t)count + 4 : PAGE_ROWS);
    for (; count > 0; count--) reply_rows(ctx, &walk, walk_subscriber(&walk));
    redis.CloseKey(opened.key);
    return REDIS_OK;
}

/* HLR.HELP */
COMMAND(help) {
    (void)argv, (void)argc;
    static const char *const lines[] = {
        "s_id 1..16777216; sub_nbr, numberx: numbers to call, below 10^15; msc_location, vlr_location 1..4294967295",
        "ai_type, sf_type 1..4; data1, data2, error_cntrl, data_a 0..255; is_active, bit_1 0 or 1",
        "bits: 10 digits 0 or 1; hexes: 10, bytes: 20 hexadecimal digits; data3: 3, data4, data_b: 5 letters A to Z",
        "start_time 0, 8 or 16; end_time 1..24; width of a zone 1..524288",
    };
    redis.ReplyWithArray(ctx, sizeof lines / sizeof *lines);
    for (size_t line = 0; line < sizeof lines / sizeof *lines; line++) redis.ReplyWithSimpleString(ctx, lines[line]);
    return REDIS_OK;
}

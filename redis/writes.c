/*
 * writes.c: the commands that write one row, HLR.CREATE and HLR.LOAD.
 *
 * A write that is done is replicated as it was typed, to replicas and into the AOF file. That is right because its
 * effect depends on the register's rows and the command's words only, and not on a clock, on chance or on an order of
 * hashing. A write that is refused changes nothing. So it isn't replicated, it doesn't disturb clients that WATCH the
 * key, and it sends no keyspace event.
 *
 * Memory is the one thing in which servers can differ. If a server refuses a write that its master has done, or that
 * it did itself before a restart, it ends with a line in its log. Otherwise it would continue with other rows than
 * its master.
 */
#include "hlr_redis.h"
#include "rows.h"

int is_repeated(redis_context *ctx) {
    int flags = redis.GetContextFlags(ctx);
    return flags & REDIS_FROM_MASTER || ((flags & REDIS_IS_LOADING) && !(flags & REDIS_IS_LOADING_ASIDE));
}

int written(redis_context *ctx, redis_string **argv, struct opened *opened, uint8_t code, const char *event) {
    if (code == HLR_DONE) {
        redis.ReplicateVerbatim(ctx);
        redis.SignalModifiedKey(ctx, argv[1]);
        redis.NotifyKeyspaceEvent(ctx, REDIS_NOTIFY_MODULE, event, argv[1]);
    } else if (is_repeated(ctx)) {
        end_server(ctx, event, refusal_text(code));
    }
    redis.CloseKey(opened->key);
    return code == HLR_DONE ? redis.ReplyWithSimpleString(ctx, "OK") : redis.ReplyWithError(ctx, refusal_text(code));
}

/* HLR.CREATE key [ZONE width] */
COMMAND(create) {
    uint64_t width = argc == 4 ? number_of(text_of(argv[3])) : 524288;
    if ((argc != 2 && argc != 4) || (argc == 4 && !is_word(argv[2], "ZONE"))) return redis.ReplyWithError(ctx, SYNTAX);
    struct opened opened = {redis.OpenKey(ctx, argv[1], REDIS_WRITE), NULL};
    if (redis.KeyType(opened.key) != REDIS_KEY_EMPTY) {
        redis.CloseKey(opened.key);
        if (is_repeated(ctx)) end_server(ctx, "hlr.create", "the key is there");
        return redis.ReplyWithError(ctx, "BUSYKEY Target key name already exists.");
    }
    uint8_t code;
    opened.store = store_new(width, &code);
    if (opened.store) redis.ModuleTypeSetValue(opened.key, store_type, opened.store);
    return written(ctx, argv, &opened, code, "hlr.create");
}

/* ---- commands whose fields are numbers ---- */

/* Reads the numbers after the key, and opens the key. */
static int is_begun(redis_context *ctx, redis_string **argv, int count, uint64_t *numbers, struct opened *opened) {
    numbers_of(argv + 2, count, numbers);
    return is_opened(ctx, argv[1], REDIS_WRITE, opened);
}

/* HLR.USD key s_id sf_type bit_1 data_a */
COMMAND(update_subscriber) {
    (void)argc;
    struct opened opened;
    uint64_t n[4];
    if (!is_begun(ctx, argv, 4, n, &opened)) return REDIS_OK;
    uint8_t code = hlr_update_subscriber(&opened.store->handle, n[0], n[1], n[2], n[3]);
    return written(ctx, argv, &opened, code, "hlr.usd");
}

/* HLR.UL key sub_nbr vlr_location */
COMMAND(update_location) {
    (void)argc;
    struct opened opened;
    uint64_t n[2];
    if (!is_begun(ctx, argv, 2, n, &opened)) return REDIS_OK;
    return written(ctx, argv, &opened, hlr_update_location(&opened.store->handle, n[0], n[1]), "hlr.ul");
}

/* HLR.ICF key sub_nbr sf_type start_time end_time numberx */
COMMAND(insert_forwarding) {
    (void)argc;
    struct opened opened;
    uint64_t n[5];
    if (!is_begun(ctx, argv, 5, n, &opened)) return REDIS_OK;
    uint8_t code = hlr_insert_forwarding(&opened.store->handle, n[0], n[1], n[2], n[3], n[4]);
    return written(ctx, argv, &opened, settled(opened.store, code), "hlr.icf");
}

/* HLR.DCF key sub_nbr sf_type start_time */
COMMAND(delete_forwarding) {
    (void)argc;
    struct opened opened;
    uint64_t n[3];
    if (!is_begun(ctx, argv, 3, n, &opened)) return REDIS_OK;
    uint8_t code = hlr_delete_forwarding(&opened.store->handle, n[0], n[1], n[2]);
    return written(ctx, argv, &opened, settled(opened.store, code), "hlr.dcf");
}

/* HLR.ACTIVE key s_id sf_type is_active */
COMMAND(set_active) {
    (void)argc;
    struct opened opened;
    uint64_t n[3];
    if (!is_begun(ctx, argv, 3, n, &opened)) return REDIS_OK;
    return written(ctx, argv, &opened, hlr_set_active(&opened.store->handle, n[0], n[1], n[2]), "hlr.active");
}

/* HLR.NUMBER key s_id sub_nbr */
COMMAND(set_number) {
    (void)argc;
    struct opened opened;
    uint64_t n[2];
    if (!is_begun(ctx, argv, 2, n, &opened)) return REDIS_OK;
    uint8_t code = hlr_set_number(&opened.store->handle, n[0], n[1]);
    return written(ctx, argv, &opened, settled(opened.store, code), "hlr.number");
}

/* ---- commands that add a row ---- */

/* Reads the texts after the key, and opens the key. */
static int is_row(redis_context *ctx, redis_string **argv, int count, struct text *fields, struct opened *opened) {
    for (int place = 0; place < count; place++) fields[place] = text_of(argv[2 + place]);
    return is_opened(ctx, argv[1], REDIS_WRITE, opened);
}

/* HLR.ADDSUB key s_id sub_nbr bits hexes bytes msc_location vlr_location */
COMMAND(add_subscriber) {
    (void)argc;
    struct opened opened;
    struct text fields[SUBSCRIBER_FIELDS];
    hlr_subscriber row;
    if (!is_row(ctx, argv, SUBSCRIBER_FIELDS, fields, &opened)) return REDIS_OK;
    uint8_t code = subscriber_of(fields, &row) ? hlr_add_subscriber(&opened.store->handle, &row) : HLR_FIELD;
    return written(ctx, argv, &opened, settled(opened.store, code), "hlr.addsub");
}

/* HLR.ADDACC key s_id ai_type data1 data2 data3 data4 */
COMMAND(add_access) {
    (void)argc;
    struct opened opened;
    struct text fields[ACCESS_FIELDS];
    hlr_access row;
    if (!is_row(ctx, argv, ACCESS_FIELDS, fields, &opened)) return REDIS_OK;
    uint8_t code = access_of(fields, &row) ? hlr_add_access(&opened.store->handle, &row) : HLR_FIELD;
    return written(ctx, argv, &opened, settled(opened.store, code), "hlr.addacc");
}

/* HLR.ADDFAC key s_id sf_type is_active error_cntrl data_a data_b */
COMMAND(add_facility) {
    (void)argc;
    struct opened opened;
    struct text fields[FACILITY_FIELDS];
    hlr_facility row;
    if (!is_row(ctx, argv, FACILITY_FIELDS, fields, &opened)) return REDIS_OK;
    uint8_t code = facility_of(fields, &row) ? hlr_add_facility(&opened.store->handle, &row) : HLR_FIELD;
    return written(ctx, argv, &opened, settled(opened.store, code), "hlr.addfac");
}

/*
 * HLR.LOAD key block: adds the rows of a block. AOF files have this command if they were rewritten without an RDB
 * preamble, and only the server itself may run it, while it loads such a file. Clients may not, because a block can
 * be refused halfway, and the rows before that point can't be removed again. Replication would then have to repeat a
 * part of a block.
 */
COMMAND(load) {
    (void)argc;
    struct opened opened;
    struct text block = text_of(argv[2]);
    if (!is_repeated(ctx)) return redis.ReplyWithError(ctx, "ERR HLR.LOAD is for AOF files, HLR.ADD adds many rows");
    if (!is_opened(ctx, argv[1], REDIS_WRITE, &opened)) return REDIS_OK;
    uint8_t code = settled(opened.store, rows_of_block(&opened.store->handle, (const uint8_t *)block.at, block.length));
    return written(ctx, argv, &opened, code, "hlr.load");
}

/*
 * type.c: the data type, hlrregist: how a register is made, saved, loaded, copied, measured and freed.
 *
 * In an RDB file and in the reply of DUMP, a register is the width of its zones, then blocks of rows (rows.c), then
 * an empty block. That is version 0 of the type. When it is loaded, the register checks each row and counts it anew.
 * So damaged bytes are either refused or give rows in range, and the counts are those of the rows in both cases.
 */
#include "hlr_redis.h"
#include "rows.h"
#include <stdlib.h>

#define ENCODING_VERSION 0

static unsigned long long stores;

struct store *store_new(uint64_t width, uint8_t *code) {
    struct store *store = try_alloc(sizeof *store);
    *code = HLR_MEMORY;
    if (!store) return NULL;
    *store = (struct store){.handle = HLR_CLOSED, .bytes = 0};
    *code = settled(store, hlr_open(1, width, &store->handle));
    if (*code != HLR_DONE) {
        redis.Free(store);
        return NULL;
    }
    __atomic_add_fetch(&stores, 1, __ATOMIC_RELAXED);
    return store;
}

/* Redis calls it from its main thread, or from the thread that frees unlinked values. */
void store_free(void *value) {
    struct store *store = value;
    settled(store, hlr_close(&store->handle));
    redis.Free(store);
    __atomic_sub_fetch(&stores, 1, __ATOMIC_RELAXED);
}

size_t store_memory(const void *value) { return sizeof(struct store) + ((const struct store *)value)->bytes; }

unsigned long long stores_in_all(void) { return __atomic_load_n(&stores, __ATOMIC_RELAXED); }

void store_counts(struct store *store, int64_t counts[HLR_CELLS]) {
    int64_t unposted[HLR_CELLS] = {0};
    hlr_views(&store->handle, counts, unposted);
    for (int cell = 0; cell < HLR_CELLS; cell++) counts[cell] += unposted[cell];
}

/* Ends the server with a line in its log: what can't be done again, and why. */
static _Noreturn void end_for(redis_context *ctx, const char *what, const char *outcome, const char *why) {
    redis.Log(ctx, "warning", "%s %s, so this server ends rather than continue with other rows: %s", what, outcome,
              why);
    exit(1);
}

_Noreturn void end_server(redis_context *ctx, const char *command, const char *why) {
    end_for(ctx, command, "was done before and can't be repeated", why);
}

/* ---- saving: BGSAVE, full syncs and rewrites do it in a forked child, where hlr.h allows calls that read ---- */

static uint64_t width_of(struct store *store) {
    uint64_t width = 0;
    hlr_width(&store->handle, &width);
    return width;
}

static void type_save(redis_io *io, void *value) {
    struct store *store = value;
    struct walk walk;
    size_t length;
    uint8_t *block = redis.Alloc(BLOCK_BYTES);
    redis.SaveUnsigned(io, width_of(store));
    walk_begin(&walk, &store->handle, 0, PAGE_ROWS);
    do {
        length = block_of_rows(&walk, block);
        redis.SaveStringBuffer(io, (const char *)block, length);
    } while (length > 0);
    redis.Free(block);
}

/* If aof-use-rdb-preamble is no, a rewritten AOF file has the same blocks as words of HLR.LOAD. */
static void type_rewrite(redis_io *io, redis_string *key, void *value) {
    struct store *store = value;
    struct walk walk;
    size_t length;
    uint8_t *block = redis.Alloc(BLOCK_BYTES);
    redis.EmitAOF(io, "HLR.CREATE", "scl", key, "ZONE", (long long)width_of(store));
    walk_begin(&walk, &store->handle, 0, PAGE_ROWS);
    while ((length = block_of_rows(&walk, block)) > 0) redis.EmitAOF(io, "HLR.LOAD", "sb", key, (const char *)block, length);
    redis.Free(block);
}

static void type_digest(redis_digest *digest, void *value) {
    struct store *store = value;
    struct walk walk;
    uint64_t width = width_of(store);
    size_t length;
    uint8_t *block = redis.Alloc(BLOCK_BYTES);
    redis.DigestAddStringBuffer(digest, (const char *)&width, sizeof width);
    walk_begin(&walk, &store->handle, 0, PAGE_ROWS);
    while ((length = block_of_rows(&walk, block)) > 0) redis.DigestAddStringBuffer(digest, (const char *)block, length);
    redis.DigestEndSequence(digest);
    redis.Free(block);
}

/* ---- loading and copying ---- */

/*
 * Ends the server if it refuses a value that its master or its own earlier run had. There are two such cases:
 *
 *   - The server loads its data and runs out of memory. Redis would skip the value if it came from a RESTORE in an
 *     AOF file.
 *   - A replica refuses a value while it isn't loading. RESTORE and COPY reach a replica only from its master, which
 *     has the value.
 *
 * In all other cases it is enough that the caller returns null: RESTORE and COPY then reply an error, and a server
 * doesn't start on a damaged file.
 */
static void end_if_kept(redis_context *ctx, uint8_t code) {
    int flags = redis.GetContextFlags(ctx), is_loading = flags & REDIS_IS_LOADING;
    if (is_loading ? code == HLR_MEMORY : flags & REDIS_IS_REPLICA)
        end_for(ctx, "a register", "that was stored before can't be loaded", refusal_text(code));
}

static int load_threads;

void store_loads_with(int threads) { load_threads = threads; }

/* Loads blocks up to the empty one. */
static uint8_t load_blocks(redis_io *io, struct store *store) {
    struct loading loading;
    uint8_t code = HLR_DONE;
    int is_end = 0;
    loading_begin(&loading, &store->handle, load_threads, bytes_taken_here);
    while (!is_end && code == HLR_DONE) {
        size_t length = 0;
        char *block = redis.LoadStringBuffer(io, &length);
        int is_block = block && !redis.IsIOError(io) && length <= BLOCK_BYTES;
        code = is_block ? settled(store, loading_block(&loading, (const uint8_t *)block, length)) : HLR_FIELD;
        is_end = length == 0;
        redis.Free(block);
    }
    uint8_t ended = settled(store, loading_end(&loading));
    store->bytes += loading.taken;
    return code == HLR_DONE ? ended : code;
}

static void *type_load(redis_io *io, int version) {
    uint8_t code = HLR_FIELD;
    if (version != ENCODING_VERSION) {
        redis.LogIOError(io, "warning", "a register was saved by a later version of hlr.so: version %d of its rows", version);
        return NULL;
    }
    uint64_t width = redis.LoadUnsigned(io);
    struct store *store = redis.IsIOError(io) ? NULL : store_new(width, &code);
    if (store) code = load_blocks(io, store);
    if (store && code == HLR_DONE) return store;
    if (store) store_free(store);
    if (redis.IsIOError(io)) return NULL;
    redis.LogIOError(io, "warning", "a register is not loaded: %s", refusal_text(code));
    end_if_kept(redis.GetContextFromIO(io), code);
    return NULL;
}

/* A register is copied block by block, so that COPY uses the same code as saving and loading. */
static uint8_t copy_blocks(struct store *from, struct store *to) {
    struct walk walk;
    struct loading loading;
    size_t length;
    uint8_t code = HLR_DONE, *block = redis.Alloc(BLOCK_BYTES);
    walk_begin(&walk, &from->handle, 0, PAGE_ROWS);
    loading_begin(&loading, &to->handle, load_threads, bytes_taken_here);
    while (code == HLR_DONE && (length = block_of_rows(&walk, block)) > 0)
        code = settled(to, loading_block(&loading, block, length));
    code = settled(to, loading_end(&loading));
    to->bytes += loading.taken;
    redis.Free(block);
    return code;
}

static void *type_copy(redis_string *from_key, redis_string *to_key, const void *value) {
    (void)from_key, (void)to_key;
    struct store *from = (struct store *)(uintptr_t)value;
    uint8_t code;
    struct store *to = store_new(width_of(from), &code);
    if (to) code = copy_blocks(from, to);
    if (code == HLR_DONE) return to;
    if (to) store_free(to);
    end_if_kept(NULL, code);
    return NULL;
}

/* The work of freeing a register, which is about one for each piece of memory. UNLINK and FLUSHALL ASYNC hand a
 * value with more than 64 to a thread. */
static size_t type_effort(redis_string *key, const void *value) {
    (void)key;
    return 1 + ((const struct store *)value)->bytes / 1024;
}

redis_type *store_type_made(redis_context *ctx) {
    redis_type_methods methods = {
        .version = 4,
        .rdb_load = type_load,
        .rdb_save = type_save,
        .aof_rewrite = type_rewrite,
        .mem_usage = store_memory,
        .digest = type_digest,
        .free = store_free,
        .free_effort = type_effort,
        .copy = type_copy,
    };
    return redis.CreateDataType(ctx, "hlrregist", ENCODING_VERSION, &methods);
}

/*
 * refuse.c: makes of hlr.so one for tests, which has two commands more. It is built with
 * -DTRY_ALLOC=refusing_alloc -DRedisModule_OnLoad=load_module, so the module's memory is asked for here.
 *
 *     HLR.REFUSE n           refuses the allocation behind the next n ones, once, or none if n is -1. Replies how many were
 *                            still to come before the one of the last HLR.REFUSE, -1 if that one was refused or none was set
 *     HLR.BLOCK key block    adds the rows of a block, as HLR.LOAD does from AOF files
 *
 * A number in the environment, HLR_REFUSE, is that of a HLR.REFUSE before the server loads its data.
 */
#include "hlr_redis.h"
#include "rows.h"
#include <stdlib.h>

#undef RedisModule_OnLoad

int load_module(redis_context *ctx, redis_string **argv, int argc);
void *refusing_alloc(size_t bytes);

static long long left = -1;

void *refusing_alloc(size_t bytes) {
    if (left < 0) return redis.TryAlloc(bytes);
    return left-- == 0 ? NULL : redis.TryAlloc(bytes);
}

static int refuse(redis_context *ctx, redis_string **argv, int argc) {
    long long was = left;
    if (argc != 2) return redis.ReplyWithError(ctx, SYNTAX);
    left = strtoll(text_of(argv[1]).at, NULL, 10);
    return redis.ReplyWithLongLong(ctx, was);
}

static int block(redis_context *ctx, redis_string **argv, int argc) {
    struct opened opened;
    if (argc != 3) return redis.ReplyWithError(ctx, SYNTAX);
    struct text text = text_of(argv[2]);
    if (!is_opened(ctx, argv[1], REDIS_READ, &opened)) return REDIS_OK;
    uint8_t code = settled(opened.store, rows_of_block(&opened.store->handle, (const uint8_t *)text.at, text.length));
    redis.CloseKey(opened.key);
    return code == HLR_DONE ? redis.ReplyWithSimpleString(ctx, "OK") : redis.ReplyWithError(ctx, refusal_text(code));
}

__attribute__((visibility("default"))) int RedisModule_OnLoad(redis_context *ctx, redis_string **argv, int argc);

__attribute__((visibility("default"))) int RedisModule_OnLoad(redis_context *ctx, redis_string **argv, int argc) {
    const char *first = getenv("HLR_REFUSE");
    if (first) left = strtoll(first, NULL, 10);
    if (load_module(ctx, argv, argc) != REDIS_OK) return REDIS_ERR;
    if (redis.CreateCommand(ctx, "hlr.refuse", refuse, "fast", 0, 0, 0) != REDIS_OK) return REDIS_ERR;
    return redis.CreateCommand(ctx, "hlr.block", block, "write", 1, 1, 1);
}

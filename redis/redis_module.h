/*
 * redis_module.h: the part of Redis's module interface that hlr.so uses.
 *
 * No Debian package has Redis's own header, so this file declares the part that is needed. It is the interface of
 * Redis 7.0, which later versions of Redis and Valkey still offer.
 *
 * A module is a shared object with one entry, RedisModule_OnLoad, and isn't linked with the server. The server passes
 * a context to the entry. The first word of the context is the address of a function that looks up the server's other
 * functions by name. redis_begin looks up each call of REDIS_CALLS once. If the server lacks one of them, it doesn't
 * load the module. No compiler can compare these declarations with the server, so the tests in tests/outside/redis
 * make each of these calls.
 */
#ifndef REDIS_MODULE_H
#define REDIS_MODULE_H

#include <stddef.h>
#include <stdint.h>

#define REDIS_OK 0
#define REDIS_ERR 1
#define REDIS_API_VERSION 1

/* Types whose content only the server knows. */
typedef struct redis_context redis_context;
typedef struct redis_string redis_string;
typedef struct redis_key redis_key;
typedef struct redis_io redis_io;
typedef struct redis_digest redis_digest;
typedef struct redis_type redis_type;
typedef struct redis_command redis_command;
typedef struct redis_info redis_info;
typedef struct redis_key_options redis_key_options;

typedef int (*redis_function)(redis_context *ctx, redis_string **argv, int argc);

/* Modes of OpenKey, and an answer of KeyType. */
#define REDIS_READ 1
#define REDIS_WRITE 2
#define REDIS_KEY_EMPTY 0

/* Flags that GetContextFlags returns: the server is a replica; the command came from the master; the server is
 * loading data; and it loads a master's data aside, while it still serves its own old data. */
#define REDIS_IS_REPLICA (1 << 3)
#define REDIS_FROM_MASTER (1 << 12)
#define REDIS_IS_LOADING (1 << 13)
#define REDIS_IS_LOADING_ASIDE (1 << 23)

/* Options of SetModuleOptions: the type handles files that end early; a key counts as changed after
 * SignalModifiedKey only, and not after each CloseKey; commands may run while a replica loads its master's data
 * aside. */
#define REDIS_HANDLES_IO_ERRORS 1
#define REDIS_SIGNALS_CHANGES 2
#define REDIS_HANDLES_LOADING_ASIDE 4

/* The kind of keyspace event that modules send, which has the letter d in notify-keyspace-events. */
#define REDIS_NOTIFY_MODULE (1 << 13)

/* What a data type does. The server leaves out what a null member would do. */
typedef struct {
    uint64_t version; /* 4, which has the members below */
    void *(*rdb_load)(redis_io *io, int version);
    void (*rdb_save)(redis_io *io, void *value);
    void (*aof_rewrite)(redis_io *io, redis_string *key, void *value);
    size_t (*mem_usage)(const void *value);
    void (*digest)(redis_digest *digest, void *value);
    void (*free)(void *value);
    int (*aux_load)(redis_io *io, int version, int when);
    void (*aux_save)(redis_io *io, int when);
    int aux_save_triggers;
    size_t (*free_effort)(redis_string *key, const void *value);
    void (*unlink)(redis_string *key, const void *value);
    void *(*copy)(redis_string *from, redis_string *to, const void *value);
    int (*defrag)(void *ctx, redis_string *key, void **value);
    size_t (*mem_usage2)(redis_key_options *ctx, const void *value, size_t samples);
    size_t (*free_effort2)(redis_key_options *ctx, const void *value);
    void (*unlink2)(redis_key_options *ctx, const void *value);
    void *(*copy2)(redis_key_options *ctx, const void *value);
} redis_type_methods;

/* An argument of a command, as COMMAND DOCS shows it. A list of arguments ends with one of zeros. */
typedef struct redis_argument {
    const char *name;
    int type;
    int key_spec;      /* the index of the key's specification, -1 if it isn't a key */
    const char *token; /* a word that is typed before the argument, or that is the argument */
    const char *summary;
    const char *since;
    int flags;
    const char *deprecated_since;
    struct redis_argument *arguments; /* those of a block, or those of which one is chosen */
    const char *display_text;         /* Redis 7.2 and later read it; the sizes below let 7.0 step over it */
} redis_argument;

#define REDIS_TEXT 0
#define REDIS_INTEGER 1
#define REDIS_KEY 3
#define REDIS_WORD 6
#define REDIS_ONE_OF 7
#define REDIS_BLOCK 8

#define REDIS_OPTIONAL 1
#define REDIS_MULTIPLE 2

typedef struct {
    const char *since, *changes;
} redis_history;

/* Where a command's keys are, and what it does to them. Both kinds of search count from 1, since 0 means unknown. */
typedef struct {
    const char *notes;
    uint64_t flags;
    int begin;
    union {
        struct {
            int position;
        } index;
        struct {
            const char *word;
            int from;
        } keyword;
    } begin_by;
    int find;
    union {
        struct {
            int last, step, limit;
        } range;
        struct {
            int index, first, step;
        } counted;
    } find_by;
} redis_key_spec;

#define REDIS_BEGIN_INDEX 2
#define REDIS_FIND_RANGE 2

#define REDIS_KEY_RO 1
#define REDIS_KEY_RW 2
#define REDIS_KEY_ACCESS 16
#define REDIS_KEY_UPDATE 32
#define REDIS_KEY_INSERT 64
#define REDIS_KEY_DELETE 128

/* The sizes of the structs that redis_command_info points to, so that a server can step through them. */
typedef struct {
    int version;
    size_t history, key_spec, argument;
} redis_info_sizes;

typedef struct {
    const redis_info_sizes *sizes;
    const char *summary, *complexity, *since;
    redis_history *history;
    const char *tips;
    int arity;
    redis_key_spec *key_specs;
    redis_argument *arguments;
} redis_command_info;

/* The calls: for each one what it returns, its name, and what it takes. */
#define REDIS_CALLS(CALL) \
    CALL(void, SetModuleAttribs, (redis_context *, const char *name, int version, int api)) \
    CALL(int, IsModuleNameBusy, (const char *name)) \
    CALL(void, SetModuleOptions, (redis_context *, int options)) \
    CALL(void *, TryAlloc, (size_t bytes)) \
    CALL(void *, Alloc, (size_t bytes)) \
    CALL(void, Free, (void *block)) \
    CALL(size_t, MallocSize, (void *block)) \
    CALL(int, CreateCommand, (redis_context *, const char *name, redis_function, const char *flags, int first, int last, int step)) \
    CALL(redis_command *, GetCommand, (redis_context *, const char *name)) \
    CALL(int, SetCommandInfo, (redis_command *, const redis_command_info *)) \
    CALL(redis_type *, CreateDataType, (redis_context *, const char *name, int version, redis_type_methods *)) \
    CALL(int, RegisterInfoFunc, (redis_context *, void (*report)(redis_info *, int for_crash_report))) \
    CALL(int, InfoAddSection, (redis_info *, const char *name)) \
    CALL(int, InfoAddFieldULongLong, (redis_info *, const char *name, unsigned long long)) \
    CALL(int, GetContextFlags, (redis_context *)) \
    CALL(redis_context *, GetContextFromIO, (redis_io *)) \
    CALL(void, Log, (redis_context *, const char *level, const char *format, ...)) \
    CALL(const char *, StringPtrLen, (const redis_string *, size_t *bytes)) \
    CALL(void *, OpenKey, (redis_context *, redis_string *name, int mode)) \
    CALL(void, CloseKey, (redis_key *)) \
    CALL(int, KeyType, (redis_key *)) \
    CALL(redis_type *, ModuleTypeGetType, (redis_key *)) \
    CALL(void *, ModuleTypeGetValue, (redis_key *)) \
    CALL(int, ModuleTypeSetValue, (redis_key *, redis_type *, void *value)) \
    CALL(int, ReplyWithError, (redis_context *, const char *)) \
    CALL(int, ReplyWithSimpleString, (redis_context *, const char *)) \
    CALL(int, ReplyWithLongLong, (redis_context *, long long)) \
    CALL(int, ReplyWithNull, (redis_context *)) \
    CALL(int, ReplyWithArray, (redis_context *, long)) \
    CALL(int, ReplyWithMap, (redis_context *, long)) \
    CALL(int, ReplyWithStringBuffer, (redis_context *, const char *, size_t)) \
    CALL(int, Replicate, (redis_context *, const char *command, const char *kinds, ...)) \
    CALL(int, ReplicateVerbatim, (redis_context *)) \
    CALL(int, SignalModifiedKey, (redis_context *, redis_string *key)) \
    CALL(int, NotifyKeyspaceEvent, (redis_context *, int kind, const char *event, redis_string *key)) \
    CALL(void, SaveUnsigned, (redis_io *, uint64_t)) \
    CALL(uint64_t, LoadUnsigned, (redis_io *)) \
    CALL(void, SaveStringBuffer, (redis_io *, const char *, size_t)) \
    CALL(char *, LoadStringBuffer, (redis_io *, size_t *)) \
    CALL(int, IsIOError, (redis_io *)) \
    CALL(void, LogIOError, (redis_io *, const char *level, const char *format, ...)) \
    CALL(void, EmitAOF, (redis_io *, const char *command, const char *kinds, ...)) \
    CALL(void, DigestAddStringBuffer, (redis_digest *, const char *, size_t)) \
    CALL(void, DigestEndSequence, (redis_digest *))

struct redis_calls {
#define REDIS_MEMBER(result, name, takes) result(*name) takes;
    REDIS_CALLS(REDIS_MEMBER)
#undef REDIS_MEMBER
};

/* The calls of the server that loaded the module; hlr_redis.c defines them. */
extern struct redis_calls redis;

/* Looks all calls up and gives the module its name. REDIS_ERR if the server lacks a call or has a module of that
 * name. */
static inline int redis_begin(redis_context *ctx, const char *name, int version) {
    int (*look_up)(const char *, void *) = *(int (**)(const char *, void *))ctx;
#define REDIS_LOOK_UP(result, call, takes) \
    if (look_up("RedisModule_" #call, (void *)&redis.call) != REDIS_OK) return REDIS_ERR;
    REDIS_CALLS(REDIS_LOOK_UP)
#undef REDIS_LOOK_UP
    if (redis.IsModuleNameBusy(name)) return REDIS_ERR;
    redis.SetModuleAttribs(ctx, name, version, REDIS_API_VERSION);
    return REDIS_OK;
}

#endif

/*
 * hlr.so: a module for Redis 7.0 and later and for Valkey, whose data type is a home location register of libhlr.
 *
 *     redis-server --loadmodule ./hlr.so
 *     redis-cli HLR.CREATE hlr
 *     redis-cli HLR.ADDSUB hlr 7 000000000000007 0000000000 0000000000 00000000000000000000 1 268435456
 *     redis-cli HLR.GSD hlr 7
 *
 * A register is the value of a key. Redis brings the network, rights, persistence, replicas, failover and the
 * cluster. The register decides everything about rows. The module only translates between the two: words into
 * numbers, and codes into replies. A read of a row that doesn't exist replies null. A write that is refused replies
 * an error whose first word is the code.
 *
 * A register has one part, because parts are for threads and Redis runs all commands in one thread. It has several
 * only while threads load or copy it. Its counts are the sums of the published and the unposted counts of hlr_views.
 *
 * The rules of hlr.h for callers are kept in this way:
 *
 *   - One call at a time works on a register, because Redis runs commands in its main thread. The thread that frees
 *     an unlinked register receives it through a queue with a lock.
 *   - A forked child makes only calls that read, and Redis forks between two commands, when no call is at work.
 *   - A call has 64 KB of stack, because Redis gives its threads 4 MB or more, and the threads that load have the
 *     system's usual size.
 *
 * The files: memory.c counts the memory of registers, type.c has the data type, walk.c reads all rows in order,
 * rows.c turns rows into bytes and back, loading.c loads them with several threads, fields.c reads words, replies.c
 * writes replies, and reads.c, writes.c and add.c have the commands. This file describes the commands to Redis.
 */
#define _GNU_SOURCE /* for sched_getaffinity */
#include "hlr_redis.h"
#include "rows.h"
#include <sched.h>
#include <string.h>

#define MODULE_VERSION (HLR_VERSION_MAJOR * 10000 + HLR_VERSION_MINOR * 100 + HLR_VERSION_PATCH)

struct redis_calls redis;
redis_type *store_type;

/* ---- the commands, as COMMAND INFO and COMMAND DOCS show them ---- */

#define NUMBER(called) \
    { .name = called, .type = REDIS_INTEGER, .key_spec = -1 }
#define TEXT(called) \
    { .name = called, .type = REDIS_TEXT, .key_spec = -1 }
#define NUMBERS(called) \
    { .name = called, .type = REDIS_INTEGER, .key_spec = -1, .flags = REDIS_MULTIPLE }
#define TEXTS(called) \
    { .name = called, .type = REDIS_TEXT, .key_spec = -1, .flags = REDIS_MULTIPLE }
#define WORD(called, typed) \
    { .name = called, .type = REDIS_WORD, .key_spec = -1, .token = typed }
#define OPTION(called, typed) \
    { .name = called, .type = REDIS_INTEGER, .key_spec = -1, .token = typed, .flags = REDIS_OPTIONAL }
#define GROUPS(called, list) \
    { .name = called, .type = REDIS_BLOCK, .key_spec = -1, .flags = REDIS_MULTIPLE, .arguments = list }
#define END \
    { 0 }
/* The arguments of a command with a key: the key, and then these. */
#define KEY_AND(...) (redis_argument[]){{.name = "key", .type = REDIS_KEY}, __VA_ARGS__, END}
#define KEY_ALONE (redis_argument[]){{.name = "key", .type = REDIS_KEY}, END}

static redis_argument access_asked[] = {NUMBER("s_id"), NUMBER("ai_type"), END};
static redis_argument destination_asked[] = {NUMBER("s_id"), NUMBER("sf_type"), NUMBER("start_time"), NUMBER("end_time"), END};
static redis_argument count_kinds[] = {WORD("hours", "HOURS"), WORD("areas", "AREAS"), WORD("zones", "ZONES"), END};
#define COUNT_KIND \
    { .name = "kind", .type = REDIS_ONE_OF, .key_spec = -1, .flags = REDIS_OPTIONAL, .arguments = count_kinds }

/* What a command may do. Commands that may need memory have deny-oom, so Redis refuses them once maxmemory is
 * reached. Location updates and other changes in place need no memory and keep working. */
#define READS "readonly fast"
#define READS_ALL "readonly"
#define CHANGES "write fast"
#define GROWS "write deny-oom fast"
#define GROWS_MUCH "write deny-oom"

#define READ_KEY (REDIS_KEY_RO | REDIS_KEY_ACCESS)
#define UPDATE_KEY (REDIS_KEY_RW | REDIS_KEY_UPDATE)
#define INSERT_KEY (REDIS_KEY_RW | REDIS_KEY_INSERT)
#define DELETE_KEY (REDIS_KEY_RW | REDIS_KEY_DELETE)

#define ONE_ROW "O(log N)"
#define ROWS "O(K log N), where K is how many rows are asked for"

static const struct command {
    const char *name;
    redis_function function;
    const char *flags;
    uint64_t key; /* what the command does to its key, 0 where it has none */
    int arity;
    redis_argument *arguments;
    const char *summary, *complexity;
} commands[] = {
    {"hlr.create", create, GROWS, INSERT_KEY, -2, KEY_AND(OPTION("width", "ZONE")),
     "Makes an empty register", "O(1)"},
    {"hlr.addsub", add_subscriber, GROWS, INSERT_KEY, 9,
     KEY_AND(NUMBER("s_id"), TEXT("sub_nbr"), TEXT("bits"), TEXT("hexes"), TEXT("bytes"), NUMBER("msc_location"),
             NUMBER("vlr_location")),
     "Adds a subscriber", ONE_ROW},
    {"hlr.addacc", add_access, GROWS, INSERT_KEY, 8,
     KEY_AND(NUMBER("s_id"), NUMBER("ai_type"), NUMBER("data1"), NUMBER("data2"), TEXT("data3"), TEXT("data4")),
     "Adds an access of a subscriber", ONE_ROW},
    {"hlr.addfac", add_facility, GROWS, INSERT_KEY, 8,
     KEY_AND(NUMBER("s_id"), NUMBER("sf_type"), NUMBER("is_active"), NUMBER("error_cntrl"), NUMBER("data_a"),
             TEXT("data_b")),
     "Adds a facility of a subscriber", ONE_ROW},
    {"hlr.add", add, GROWS_MUCH, INSERT_KEY, -3, KEY_AND(TEXTS("records")),
     "Adds many rows, each in whole or not at all", "O(K log N), where K is how many rows are added"},
    {"hlr.gsd", get_subscriber, READS, READ_KEY, 3, KEY_AND(NUMBER("s_id")), "Reads a subscriber", ONE_ROW},
    {"hlr.gnd", get_destination, READS, READ_KEY, 6,
     KEY_AND(NUMBER("s_id"), NUMBER("sf_type"), NUMBER("start_time"), NUMBER("end_time")),
     "Reads the numbers that an active facility forwards to", ONE_ROW},
    {"hlr.gad", get_access, READS, READ_KEY, 4, KEY_AND(NUMBER("s_id"), NUMBER("ai_type")),
     "Reads an access", ONE_ROW},
    {"hlr.gfd", get_facility, READS, READ_KEY, 4, KEY_AND(NUMBER("s_id"), NUMBER("sf_type")),
     "Reads a facility", ONE_ROW},
    {"hlr.gcf", get_forwarding, READS, READ_KEY, 5, KEY_AND(NUMBER("s_id"), NUMBER("sf_type"), NUMBER("start_time")),
     "Reads a forwarding", ONE_ROW},
    {"hlr.find", find, READS, READ_KEY, 3, KEY_AND(TEXT("sub_nbr")),
     "Finds the subscriber who has a number", ONE_ROW},
    {"hlr.usd", update_subscriber, CHANGES, UPDATE_KEY, 6,
     KEY_AND(NUMBER("s_id"), NUMBER("sf_type"), NUMBER("bit_1"), NUMBER("data_a")),
     "Sets bit_1 of a subscriber and data_a of a facility, or neither", ONE_ROW},
    {"hlr.ul", update_location, CHANGES, UPDATE_KEY, 4, KEY_AND(TEXT("sub_nbr"), NUMBER("vlr_location")),
     "Sets the location of the subscriber who has a number", ONE_ROW},
    {"hlr.icf", insert_forwarding, GROWS, INSERT_KEY, 7,
     KEY_AND(TEXT("sub_nbr"), NUMBER("sf_type"), NUMBER("start_time"), NUMBER("end_time"), TEXT("numberx")),
     "Adds a forwarding", ONE_ROW},
    {"hlr.dcf", delete_forwarding, CHANGES, DELETE_KEY, 5,
     KEY_AND(TEXT("sub_nbr"), NUMBER("sf_type"), NUMBER("start_time")),
     "Removes a forwarding", ONE_ROW},
    {"hlr.active", set_active, CHANGES, UPDATE_KEY, 5,
     KEY_AND(NUMBER("s_id"), NUMBER("sf_type"), NUMBER("is_active")),
     "Switches a facility on or off, with its forwardings", ONE_ROW},
    {"hlr.number", set_number, GROWS, UPDATE_KEY, 4, KEY_AND(NUMBER("s_id"), TEXT("sub_nbr")),
     "Gives a subscriber another number", ONE_ROW},
    {"hlr.load", load, GROWS_MUCH, INSERT_KEY, 3, KEY_AND(TEXT("block")),
     "Adds a block of rows of an AOF file", "O(K log N), where K is how many rows the block has"},
    {"hlr.mgsd", get_subscribers, READS, READ_KEY, -3, KEY_AND(NUMBERS("s_id")), "Reads subscribers", ROWS},
    {"hlr.mgad", get_accesses, READS, READ_KEY, -4, KEY_AND(GROUPS("access", access_asked)), "Reads accesses", ROWS},
    {"hlr.mgnd", get_destinations, READS, READ_KEY, -6, KEY_AND(GROUPS("call", destination_asked)),
     "Reads the numbers that several facilities forward to", ROWS},
    {"hlr.counts", counts, READS, READ_KEY, -2, KEY_AND(COUNT_KIND),
     "Returns the live counts of hours, areas and zones", "O(1)"},
    {"hlr.recount", recount, READS_ALL, READ_KEY, -2, KEY_AND(COUNT_KIND), "Counts all rows anew", "O(N)"},
    {"hlr.info", info, READS, READ_KEY, 2, KEY_ALONE, "Returns the numbers of rows and bytes of a register", "O(1)"},
    {"hlr.scan", scan, READS_ALL, READ_KEY, -3, KEY_AND(NUMBER("cursor"), OPTION("count", "COUNT")),
     "Reads all rows of several subscribers", "O(K log N), where K is count"},
    {"hlr.help", help, "fast", 0, 1, NULL, "Shows the ranges of fields", "O(1)"},
};

/* ---- loading the module ---- */

static int is_made(redis_context *ctx, const struct command *command) {
    static const redis_info_sizes sizes = {1, sizeof(redis_history), sizeof(redis_key_spec), sizeof(redis_argument)};
    int key = command->key != 0;
    redis_key_spec specs[2] = {
        {
            .flags = command->key,
            .begin = REDIS_BEGIN_INDEX,
            .begin_by.index.position = 1,
            .find = REDIS_FIND_RANGE,
            .find_by.range = {0, 1, 0},
        },
        {0},
    };
    redis_command_info info_of_command = {
        .sizes = &sizes,
        .summary = command->summary,
        .complexity = command->complexity,
        .arity = command->arity,
        .key_specs = key ? specs : NULL,
        .arguments = command->arguments,
    };
    return redis.CreateCommand(ctx, command->name, command->function, command->flags, key, key, key) == REDIS_OK &&
           redis.SetCommandInfo(redis.GetCommand(ctx, command->name), &info_of_command) == REDIS_OK;
}

/* The section of INFO MODULES. */
static void tell_info(redis_info *to, int for_crash_report) {
    (void)for_crash_report;
    if (redis.InfoAddSection(to, "registers") == REDIS_ERR) return;
    redis.InfoAddFieldULongLong(to, "count", stores_in_all());
    redis.InfoAddFieldULongLong(to, "memory", bytes_of_all());
}

/* How many threads load a register if nothing is said: one for each processor that the server may use, up to LOADERS,
 * but none if there is only one. */
static int usual_threads(void) {
    cpu_set_t processors;
    if (sched_getaffinity(0, sizeof processors, &processors) != 0) return 0;
    int count = CPU_COUNT(&processors);
    return count == 1 ? 0 : count < LOADERS ? count : LOADERS;
}

/* The number of threads that the words behind the module's path ask for. They are LOAD-THREADS and a number, or none.
 * Other words give UINT64_MAX. */
static uint64_t wanted_threads(redis_string **argv, int argc) {
    if (argc == 0) return (uint64_t)usual_threads();
    return argc == 2 && is_word(argv[0], "LOAD-THREADS") ? number_of(text_of(argv[1])) : UINT64_MAX;
}

static int is_configured(redis_context *ctx, redis_string **argv, int argc) {
    uint64_t threads = wanted_threads(argv, argc);
    if (threads <= LOADERS)
        store_loads_with((int)threads);
    else
        redis.Log(ctx, "warning", "hlr.so takes LOAD-THREADS and a number from 0 to %d, and nothing else", LOADERS);
    return threads <= LOADERS;
}

__attribute__((visibility("default"))) int RedisModule_OnLoad(redis_context *ctx, redis_string **argv, int argc);

int RedisModule_OnLoad(redis_context *ctx, redis_string **argv, int argc) {
    if (redis_begin(ctx, "hlr", MODULE_VERSION) != REDIS_OK) return REDIS_ERR;
    if (!is_configured(ctx, argv, argc)) return REDIS_ERR;
    redis.SetModuleOptions(ctx, REDIS_HANDLES_IO_ERRORS | REDIS_SIGNALS_CHANGES | REDIS_HANDLES_LOADING_ASIDE);
    store_type = store_type_made(ctx);
    if (!store_type) return REDIS_ERR;
    for (size_t place = 0; place < sizeof commands / sizeof *commands; place++)
        if (!is_made(ctx, &commands[place])) return REDIS_ERR;
    return redis.RegisterInfoFunc(ctx, tell_info);
}

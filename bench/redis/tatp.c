/*
 * tatp.c: TATP over a Redis server, either with the module hlr.so or with hashes and Lua scripts.
 *
 *     tatp hlr|hashes PORT SUBSCRIBERS load
 *     tatp hlr|hashes PORT SUBSCRIBERS run TRANSACTIONS CONNECTIONS PIPELINE SEED [NAME]
 *
 * Both stores get the same rows and, with the same seed, the same transactions. NAME chooses one kind of them. `load`
 * fills an empty server on loopback. `run` prints transactions a second, the microseconds in which half and 99 in 100
 * of the pipelines were answered, and the share of errors. bench/redis/run.py starts the servers and calls this program.
 *
 * Over hashes, a subscriber is a hash at s:S_ID, with its number (n), bits, hexes and bytes (d), locations (m, v),
 * accesses (a1 to a4), facilities (f1 to f4) and forwardings (c10 to c416, by type and start). Its number is a key
 * n:NUMBER, and the counts are a hash. Transactions that read are HGET or HMGET, and those that write are the scripts
 * of this folder.
 */
#include <arpa/inet.h>
#include <errno.h>
#include <fcntl.h>
#include <inttypes.h>
#include <netinet/tcp.h>
#include <stdarg.h>
#include <stdio.h>
#include <stdlib.h>
#include <string.h>
#include <sys/epoll.h>
#include <sys/socket.h>
#include <time.h>
#include <unistd.h>

#define HOURS 24
#define AREAS 16
#define ZONES 32
#define AREA 268435456u
#define MOST_LOCATION 4294967295u
#define NUMBERS 1000000000000000u
#define BATCH 50

static int is_hlr;
static uint64_t subscribers, width;

static void stop(const char *why) {
    fprintf(stderr, "tatp: %s%s%s\n", why, errno ? ": " : "", errno ? strerror(errno) : "");
    exit(1);
}

static double now(void) {
    struct timespec time;
    clock_gettime(CLOCK_MONOTONIC, &time);
    return (double)time.tv_sec + (double)time.tv_nsec * 1e-9;
}

/* ---- what is drawn ---- */

static uint64_t seed;

static uint64_t drawn(void) {
    uint64_t mixed = (seed += 0x9e3779b97f4a7c15u);
    mixed = (mixed ^ mixed >> 30) * 0xbf58476d1ce4e5b9u;
    mixed = (mixed ^ mixed >> 27) * 0x94d049bb133111ebu;
    return mixed ^ mixed >> 31;
}

static unsigned below(uint64_t limit) { return (unsigned)(drawn() % limit); }

static uint64_t number_drawn(void) { return drawn() % NUMBERS; }

/* One to four of four types, or none to three of three starts: a bit for each. */
static unsigned some(unsigned of, unsigned least, unsigned most) {
    unsigned bits = 0;
    for (unsigned left = least + below(most - least + 1); left > 0;) {
        unsigned bit = 1u << below(of);
        if (!(bits & bit)) left--;
        bits |= bit;
    }
    return bits;
}

static void letters(char *to, unsigned count, const char *from) {
    size_t choice = strlen(from);
    for (unsigned place = 0; place < count; place++) to[place] = from[below(choice)];
    to[count] = 0;
}

#define CAPITALS "ABCDEFGHIJKLMNOPQRSTUVWXYZ"

/* A subscriber as TATP draws it: some are asked for more often than others. */
static uint64_t subscriber_drawn(void) {
    uint64_t mask = subscribers <= 1000000 ? 65535 : 1048575;
    return ((drawn() % (mask + 1)) | (1 + drawn() % subscribers)) % subscribers + 1;
}

/* ---- a connection: commands that wait to be sent, and bytes that were received ---- */

struct connection {
    int socket, owed; /* owed: replies that are missing of a pipeline */
    size_t used, sent, room, have;
    char *out, in[1 << 16];
    double begin;
};

static uint64_t errors;

static struct connection *connected(int port) {
    struct connection *one = calloc(1, sizeof *one);
    struct sockaddr_in address = {.sin_family = AF_INET, .sin_port = htons((uint16_t)port)};
    int yes = 1;
    if (!one) stop("no memory");
    address.sin_addr.s_addr = htonl(INADDR_LOOPBACK);
    one->socket = socket(AF_INET, SOCK_STREAM, 0);
    if (connect(one->socket, (struct sockaddr *)&address, sizeof address)) stop("there is no server");
    setsockopt(one->socket, IPPROTO_TCP, TCP_NODELAY, &yes, sizeof yes);
    return one;
}

static void bytes(struct connection *one, const char *from, size_t count) {
    if (one->used + count > one->room) {
        one->room = 2 * (one->used + count);
        one->out = realloc(one->out, one->room);
        if (!one->out) stop("no memory");
    }
    memcpy(one->out + one->used, from, count);
    one->used += count;
}

static void word(struct connection *one, const char *text) {
    char head[32];
    size_t length = strlen(text);
    bytes(one, head, (size_t)sprintf(head, "$%zu\r\n", length));
    bytes(one, text, length);
    bytes(one, "\r\n", 2);
}

/* Appends a command, whose words are parted by spaces. */
__attribute__((format(printf, 2, 3))) static void command(struct connection *one, const char *form, ...) {
    char text[1024], head[16];
    va_list more;
    int words = 1;
    va_start(more, form);
    vsnprintf(text, sizeof text, form, more);
    va_end(more);
    for (const char *at = text; *at; at++) words += *at == ' ';
    bytes(one, head, (size_t)sprintf(head, "*%d\r\n", words));
    for (char *at = text, *behind; at; at = behind) {
        behind = strchr(at, ' ');
        if (behind) *behind++ = 0;
        word(one, at);
    }
}

/* Where the reply at some bytes ends, or null if it isn't whole. */
static const char *reply_end(const char *at, const char *end) {
    for (long left = 1; left > 0; left--) {
        const char *line = memchr(at, '\n', (size_t)(end - at));
        if (!line) return NULL;
        char kind = *at;
        long count = kind == '$' || kind == '*' ? strtol(at + 1, NULL, 10) : 0;
        at = line + 1;
        if (kind == '*' && count > 0) left += count;
        if (kind == '$' && count >= 0) at += count + 2;
        if (at > end) return NULL;
    }
    return at;
}

/* Takes the replies that are whole, up to those that are owed. */
static void take_replies(struct connection *one) {
    const char *at = one->in, *end = one->in + one->have, *behind;
    for (; one->owed > 0 && (behind = reply_end(at, end)); one->owed--, at = behind) errors += *at == '-';
    one->have = (size_t)(end - at);
    memmove(one->in, at, one->have);
}

/* Sends what the socket takes. */
static void send_some(struct connection *one) {
    while (one->sent < one->used) {
        ssize_t count = write(one->socket, one->out + one->sent, one->used - one->sent);
        if (count < 0 && errno == EAGAIN) return;
        if (count < 0) stop("the server closed the connection");
        one->sent += (size_t)count;
    }
    one->used = one->sent = 0;
}

static void receive(struct connection *one) {
    ssize_t count = read(one->socket, one->in + one->have, sizeof one->in - one->have);
    if (count < 0 && errno == EAGAIN) return;
    if (count <= 0) stop("the server closed the connection");
    one->have += (size_t)count;
    take_replies(one);
}

/* Sends the commands and waits for so many replies. */
static void round_trip(struct connection *one, int replies) {
    one->owed = replies;
    send_some(one);
    while (one->owed > 0) receive(one);
}

/* ---- the scripts ---- */

enum script { USD, UL, ICF, DCF, SCRIPTS };
static char digests[SCRIPTS][41];

/* Loads a script of this program's folder, in which WIDTH stands for the width of a zone. */
static void load_script(struct connection *one, const char *folder, enum script script) {
    static const char *const names[] = {"usd", "ul", "icf", "dcf"};
    char path[1024], text[4096], whole[4096];
    snprintf(path, sizeof path, "%s/%s.lua", folder, names[script]);
    FILE *file = fopen(path, "r");
    if (!file) stop(path);
    text[fread(text, 1, sizeof text - 1, file)] = 0;
    fclose(file);
    char *mark = strstr(text, "WIDTH");
    if (mark) snprintf(whole, sizeof whole, "%.*s%" PRIu64 "%s", (int)(mark - text), text, width, mark + 5);
    else strcpy(whole, text);
    bytes(one, "*3\r\n", 4);
    word(one, "SCRIPT");
    word(one, "LOAD");
    word(one, whole);
    send_some(one);
    while (!reply_end(one->in, one->in + one->have)) {
        ssize_t count = read(one->socket, one->in + one->have, sizeof one->in - one->have);
        if (count <= 0) stop("the server closed the connection");
        one->have += (size_t)count;
    }
    if (*one->in != '$') stop("a script is refused");
    memcpy(digests[script], strchr(one->in, '\n') + 1, 40);
    one->have = 0;
}

/* ---- rows ---- */

static int64_t counts[HOURS + AREAS + ZONES];

static void count_row(uint64_t s_id) {
    uint64_t zone = (s_id - 1) / width;
    counts[HOURS + AREAS + (zone < ZONES ? zone : ZONES - 1)]++;
}

/* Adds the forwardings of a facility, and returns how many commands that took. */
static int add_forwardings(struct connection *one, uint64_t s_id, unsigned type, int is_active) {
    int commands = 0;
    unsigned starts = some(3, 0, 3);
    for (unsigned place = 0; place < 3; place++) {
        if (!(starts >> place & 1)) continue;
        unsigned start = 8 * place, end = start + 1 + below(8);
        uint64_t number = number_drawn();
        count_row(s_id);
        for (unsigned hour = start; is_active && hour < end; hour++) counts[hour]++;
        if (is_hlr) command(one, "HLR.ICF hlr %015" PRIu64 " %u %u %u %015" PRIu64, s_id, type, start, end, number);
        else command(one, "HSET s:%" PRIu64 " c%u%u %u,%015" PRIu64, s_id, type, start, end, number);
        commands++;
    }
    return commands;
}

static int add_accesses(struct connection *one, uint64_t s_id) {
    int commands = 0;
    unsigned types = some(4, 1, 4);
    for (unsigned type = 1; type <= 4; type++) {
        char three[4], five[6];
        if (!(types >> (type - 1) & 1)) continue;
        unsigned data1 = below(256), data2 = below(256);
        letters(three, 3, CAPITALS);
        letters(five, 5, CAPITALS);
        count_row(s_id);
        if (is_hlr) command(one, "HLR.ADDACC hlr %" PRIu64 " %u %u %u %s %s", s_id, type, data1, data2, three, five);
        else command(one, "HSET s:%" PRIu64 " a%u %u,%u,%s,%s", s_id, type, data1, data2, three, five);
        commands++;
    }
    return commands;
}

static int add_facilities(struct connection *one, uint64_t s_id) {
    int commands = 0;
    unsigned types = some(4, 1, 4);
    for (unsigned type = 1; type <= 4; type++) {
        char five[6];
        if (!(types >> (type - 1) & 1)) continue;
        int is_active = below(100) < 85;
        unsigned control = below(256), data_a = below(256);
        letters(five, 5, CAPITALS);
        count_row(s_id);
        if (is_hlr)
            command(one, "HLR.ADDFAC hlr %" PRIu64 " %u %d %u %u %s", s_id, type, is_active, control, data_a, five);
        else command(one, "HSET s:%" PRIu64 " f%u %d,%u,%u,%s", s_id, type, is_active, control, data_a, five);
        commands += 1 + add_forwardings(one, s_id, type, is_active);
    }
    return commands;
}

/* Adds a subscriber with its rows. The number is the s_id. */
static int add_subscriber(struct connection *one, uint64_t s_id) {
    char bits[11], hexes[11], octets[21];
    int commands = 1;
    letters(bits, 10, "01");
    letters(hexes, 10, "0123456789abcdef");
    letters(octets, 20, "0123456789abcdef");
    unsigned msc = 1 + below(MOST_LOCATION), vlr = 1 + below(MOST_LOCATION);
    counts[HOURS + vlr / AREA]++;
    count_row(s_id);
    if (is_hlr) {
        command(one, "HLR.ADDSUB hlr %" PRIu64 " %015" PRIu64 " %s %s %s %u %u", s_id, s_id, bits, hexes, octets, msc,
                vlr);
    } else {
        command(one, "SET n:%015" PRIu64 " %" PRIu64, s_id, s_id);
        command(one, "HSET s:%" PRIu64 " n %015" PRIu64 " d %s%s%s m %u v %u", s_id, s_id, bits, hexes, octets, msc,
                vlr);
        commands++;
    }
    return commands + add_accesses(one, s_id) + add_facilities(one, s_id);
}

static void load(int port) {
    struct connection *one = connected(port);
    double begin = now();
    seed = 0;
    if (is_hlr) {
        command(one, "HLR.CREATE hlr ZONE %" PRIu64, width);
        round_trip(one, 1);
    }
    for (uint64_t s_id = 1; s_id <= subscribers;) {
        int commands = 0;
        for (int place = 0; place < BATCH && s_id <= subscribers; place++) commands += add_subscriber(one, s_id++);
        round_trip(one, commands);
    }
    for (int cell = 0; !is_hlr && cell < HOURS + AREAS + ZONES; cell++) {
        char kind = cell < HOURS ? 'h' : cell < HOURS + AREAS ? 'a' : 'z';
        int number = cell < HOURS ? cell : cell < HOURS + AREAS ? cell - HOURS : cell - HOURS - AREAS;
        command(one, "HSET counts %c%d %" PRId64, kind, number, counts[cell]);
        round_trip(one, 1);
    }
    printf("seconds=%.2f errors=%" PRIu64 "\n", now() - begin, errors);
    if (errors) stop("rows were refused");
}

/* ---- transactions ---- */

enum transaction {
    READ_SUBSCRIBER,
    READ_DESTINATION,
    READ_ACCESS,
    WRITE_SUBSCRIBER,
    WRITE_LOCATION,
    INSERT,
    DELETE,
    KINDS
};
static const char *const kinds[KINDS] = {"gsd", "gnd", "gad", "usd", "ul", "icf", "dcf"};

/* TATP's mix. */
static enum transaction kind_drawn(void) {
    static const unsigned bounds[] = {35, 45, 80, 82, 96, 98, 100};
    unsigned roll = below(100);
    int kind = 0;
    while (roll >= bounds[kind]) kind++;
    return kind;
}

static void ask_hlr(struct connection *one, enum transaction kind) {
    uint64_t s_id = subscriber_drawn();
    unsigned type = 1 + below(4), start = 8 * below(3), end = 1 + below(24), bit = below(2), data = below(256);
    unsigned vlr = 1 + below(MOST_LOCATION);
    uint64_t number = number_drawn();
    switch (kind) {
    case READ_SUBSCRIBER: command(one, "HLR.GSD hlr %" PRIu64, s_id); break;
    case READ_DESTINATION: command(one, "HLR.GND hlr %" PRIu64 " %u %u %u", s_id, type, start, end); break;
    case READ_ACCESS: command(one, "HLR.GAD hlr %" PRIu64 " %u", s_id, type); break;
    case WRITE_SUBSCRIBER: command(one, "HLR.USD hlr %" PRIu64 " %u %u %u", s_id, type, bit, data); break;
    case WRITE_LOCATION: command(one, "HLR.UL hlr %015" PRIu64 " %u", s_id, vlr); break;
    case INSERT: command(one, "HLR.ICF hlr %015" PRIu64 " %u %u %u %015" PRIu64, s_id, type, start, end, number); break;
    default: command(one, "HLR.DCF hlr %015" PRIu64 " %u %u", s_id, type, start); break;
    }
}

static void ask_hashes(struct connection *one, enum transaction kind) {
    uint64_t s_id = subscriber_drawn();
    unsigned type = 1 + below(4), start = 8 * below(3), end = 1 + below(24), bit = below(2), data = below(256);
    unsigned vlr = 1 + below(MOST_LOCATION);
    uint64_t number = number_drawn();
    switch (kind) {
    case READ_SUBSCRIBER: command(one, "HMGET s:%" PRIu64 " n d m v", s_id); break;
    case READ_DESTINATION: command(one, "HMGET s:%" PRIu64 " f%u c%u0 c%u8 c%u16", s_id, type, type, type, type); break;
    case READ_ACCESS: command(one, "HGET s:%" PRIu64 " a%u", s_id, type); break;
    case WRITE_SUBSCRIBER:
        command(one, "EVALSHA %s 1 s:%" PRIu64 " %u %u %u", digests[USD], s_id, type, bit, data);
        break;
    case WRITE_LOCATION: command(one, "EVALSHA %s 1 n:%015" PRIu64 " %u", digests[UL], s_id, vlr); break;
    case INSERT:
        command(one, "EVALSHA %s 1 n:%015" PRIu64 " %u %u %u %015" PRIu64, digests[ICF], s_id, type, start, end,
                number);
        break;
    default: command(one, "EVALSHA %s 1 n:%015" PRIu64 " %u %u", digests[DCF], s_id, type, start); break;
    }
}

#define MOST_WAIT 1000000
static uint32_t waits[MOST_WAIT + 1]; /* how many pipelines took so many microseconds */

/* The microseconds in which this share of all pipelines was answered. */
static int wait_of(double share, uint64_t pipelines) {
    uint64_t sum = 0;
    int wait = 0;
    while (wait < MOST_WAIT && (double)(sum += waits[wait]) < share * (double)pipelines) wait++;
    return wait;
}

struct run {
    uint64_t transactions, begun, pipelines;
    int pipeline, only;
};

/* Begins the next pipeline of a connection, if there is one. */
static void begin_pipeline(struct run *run, struct connection *one) {
    if (run->begun >= run->transactions) return;
    for (int place = 0; place < run->pipeline; place++) {
        enum transaction kind = kind_drawn();
        if (run->only < KINDS) kind = run->only;
        if (is_hlr) ask_hlr(one, kind);
        else ask_hashes(one, kind);
    }
    run->begun += (uint64_t)run->pipeline;
    one->owed = run->pipeline;
    one->begin = now();
    send_some(one);
}

static void end_pipeline(struct run *run, struct connection *one) {
    double wait = (now() - one->begin) * 1e6;
    waits[wait < MOST_WAIT ? (int)wait : MOST_WAIT]++;
    run->pipelines++;
    begin_pipeline(run, one);
}

static void work(struct run *run, int port, int connections) {
    int waiting = epoll_create1(0);
    double begin = now();
    for (int place = 0; place < connections; place++) {
        struct connection *one = connected(port);
        struct epoll_event event = {.events = EPOLLIN | EPOLLOUT | EPOLLET, .data.ptr = one};
        fcntl(one->socket, F_SETFL, O_NONBLOCK);
        epoll_ctl(waiting, EPOLL_CTL_ADD, one->socket, &event);
        begin_pipeline(run, one);
    }
    while (run->pipelines * (uint64_t)run->pipeline < run->begun) {
        struct epoll_event events[64];
        int count = epoll_wait(waiting, events, 64, 10000);
        if (count <= 0) stop("the server doesn't answer");
        for (int place = 0; place < count; place++) {
            struct connection *one = events[place].data.ptr;
            int owed = one->owed;
            send_some(one);
            for (size_t had = SIZE_MAX; owed && one->owed && had != one->have + (size_t)one->owed;) {
                had = one->have + (size_t)one->owed;
                receive(one);
            }
            if (owed && !one->owed) end_pipeline(run, one);
        }
    }
    double seconds = now() - begin;
    printf("a_second=%.0f half_us=%d most_us=%d errors=%.3f\n", (double)run->begun / seconds,
           wait_of(0.5, run->pipelines), wait_of(0.99, run->pipelines), (double)errors / (double)run->begun);
}

int main(int argc, char **argv) {
    if (argc != 5 && argc != 9 && argc != 10) stop("see the comment at the top of bench/redis/tatp.c");
    int port = atoi(argv[2]);
    char *slash = strrchr(argv[0], '/'), *folder = getenv("SCRIPTS");
    is_hlr = strcmp(argv[1], "hlr") == 0;
    subscribers = strtoull(argv[3], NULL, 10);
    width = (subscribers + ZONES - 1) / ZONES;
    if (strcmp(argv[4], "load") == 0) {
        load(port);
        return 0;
    }
    if (!folder) folder = slash ? (*slash = 0, argv[0]) : ".";
    struct connection *one = connected(port);
    for (enum script script = 0; !is_hlr && script < SCRIPTS; script++) load_script(one, folder, script);
    struct run run = {.transactions = strtoull(argv[5], NULL, 10), .pipeline = atoi(argv[7]), .only = KINDS};
    for (int kind = 0; argc == 10 && kind < KINDS; kind++)
        if (strcmp(argv[9], kinds[kind]) == 0) run.only = kind;
    seed = strtoull(argv[8], NULL, 10);
    work(&run, port, atoi(argv[6]));
    return 0;
}

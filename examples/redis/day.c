/*
 * A day over the network: subscribers are added, forwarded, moved and counted in a register of a Redis server.
 *
 *     gcc day.c -lhiredis -o day && ./day
 *
 * The environment variable REDIS_URL names the server, as redis://HOST:PORT; without it, it is the one on this machine.
 * Commands go out in pipelines, so that the day waits for the server three times and not forty times.
 */
#include <hiredis/hiredis.h>
#include <stdio.h>
#include <stdlib.h>
#include <string.h>

#define SUBSCRIBERS 10
#define AREA 268435456u

static void stop(const char *why) {
    fprintf(stderr, "day: %s\n", why);
    exit(1);
}

/* Takes the next reply. The program ends if the connection is lost. */
static redisReply *next_reply(redisContext *server) {
    void *reply = NULL;
    if (redisGetReply(server, &reply) != REDIS_OK) stop(server->errstr);
    return reply;
}

/* Takes so many replies to writes. Returns how many were refused, and prints why the first one was. */
static int refusals_of(redisContext *server, int writes) {
    int refused = 0;
    while (writes-- > 0) {
        redisReply *reply = next_reply(server);
        if (reply->type == REDIS_REPLY_ERROR && refused++ == 0) printf("refused: %s\n", reply->str);
        freeReplyObject(reply);
    }
    return refused;
}

/* The integer at a name in a row, or -1 if the row has no such name. RESP2 sends a row as names and values in turn. */
static long long number_of(const redisReply *row, const char *name) {
    for (size_t place = 0; place + 1 < row->elements; place += 2)
        if (strcmp(row->element[place]->str, name) == 0) return row->element[place + 1]->integer;
    return -1;
}

/* Adds the subscribers, with a facility each that forwards calls from 8 to 16 o'clock. The last command is refused. */
static void morning(redisContext *server) {
    redisAppendCommand(server, "HLR.CREATE day ZONE 313");
    for (int s_id = 1; s_id <= SUBSCRIBERS; s_id++) {
        redisAppendCommand(server, "HLR.ADDSUB day %d %d 0000000000 0000000000 00000000000000000000 1 %u", s_id,
                           100 + s_id, AREA);
        redisAppendCommand(server, "HLR.ADDFAC day %d 2 1 0 0 ABCDE", s_id);
        redisAppendCommand(server, "HLR.ICF day %d 2 8 16 %d", 100 + s_id, 500 + s_id);
    }
    redisAppendCommand(server, "HLR.ICF day 101 2 8 16 501");
    printf("in the morning: %d refused\n", refusals_of(server, 1 + 3 * SUBSCRIBERS + 1));
}

/* Every other subscriber travels to area 2. */
static void noon(redisContext *server) {
    for (int s_id = 2; s_id <= SUBSCRIBERS; s_id += 2)
        redisAppendCommand(server, "HLR.UL day %d %u", 100 + s_id, 2 * AREA);
    printf("at noon: %d refused\n", refusals_of(server, SUBSCRIBERS / 2));
}

/* Reads a row, a destination and the counts. */
static void evening(redisContext *server) {
    redisAppendCommand(server, "HLR.GSD day 2");
    redisAppendCommand(server, "HLR.GND day 2 2 8 12");
    redisAppendCommand(server, "HLR.COUNTS day AREAS");
    redisAppendCommand(server, "UNLINK day");
    redisReply *row = next_reply(server), *numbers = next_reply(server), *areas = next_reply(server);
    printf("subscriber 2: area %lld\n", number_of(row, "vlr_location") / AREA);
    for (size_t place = 0; place < numbers->elements; place++)
        printf("calls at 8 go to %s\n", numbers->element[place]->str);
    for (size_t area = 0; area < areas->elements; area++)
        if (areas->element[area]->integer) printf("area %zu: %lld subscribers\n", area, areas->element[area]->integer);
    freeReplyObject(row);
    freeReplyObject(numbers);
    freeReplyObject(areas);
    refusals_of(server, 1);
}

static redisContext *connected(void) {
    const char *url = getenv("REDIS_URL");
    char host[256] = "127.0.0.1";
    int port = 6379;
    if (url && sscanf(url, "redis://%255[^:/]:%d", host, &port) != 2) stop("REDIS_URL isn't redis://HOST:PORT");
    redisContext *server = redisConnect(host, port);
    if (!server) stop("no memory");
    if (server->err) stop(server->errstr);
    return server;
}

int main(void) {
    redisContext *server = connected();
    morning(server);
    noon(server);
    evening(server);
    redisFree(server);
    return 0;
}

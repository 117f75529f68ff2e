/*
 * replies.c: what commands reply. A row is a map, which RESP2 clients get as a flat list of names and values, like
 * the reply of HGETALL. A number to call is text of 15 digits, because its leading zeros count. All other numbers are
 * integers.
 */
#include "hlr_redis.h"
#include <string.h>

const char *refusal_text(uint8_t code) {
    switch (code) {
    case HLR_MEMORY: return "OOM no memory was left";
    case HLR_FIELD: return "ERR a field is out of its range, HLR.HELP shows the ranges";
    case HLR_NO_SUBSCRIBER: return "NOSUBSCRIBER no subscriber has this s_id";
    case HLR_NO_NUMBER: return "NONUMBER no subscriber has this number";
    case HLR_NO_ACCESS: return "NOACCESS no access has this key";
    case HLR_NO_FACILITY: return "NOFACILITY no facility has this key";
    case HLR_NO_FORWARDING: return "NOFORWARDING no forwarding has this key";
    case HLR_NO_DESTINATION: return "NODESTINATION no forwarding takes the call";
    case HLR_EXISTS: return "EXISTS a row with this key is there";
    case HLR_NUMBER_TAKEN: return "NUMBERTAKEN another subscriber has the number";
    default: return "ERR the register refused for a reason that is not expected here";
    }
}

static void reply_name(redis_context *ctx, const char *name) { redis.ReplyWithStringBuffer(ctx, name, strlen(name)); }

int reply_number(redis_context *ctx, const char *name, uint64_t number) {
    reply_name(ctx, name);
    return redis.ReplyWithLongLong(ctx, (long long)number);
}

static int reply_letters(redis_context *ctx, const char *name, const uint8_t *letters, size_t count) {
    reply_name(ctx, name);
    return redis.ReplyWithStringBuffer(ctx, (const char *)letters, count);
}

int reply_digits(redis_context *ctx, uint64_t number) {
    char digits[15];
    for (int place = 14; place >= 0; place--, number /= 10) digits[place] = (char)('0' + number % 10);
    return redis.ReplyWithStringBuffer(ctx, digits, sizeof digits);
}

/* Ten numbers as hexadecimal digits, `each` digits for one number. */
static void reply_hexadecimal(redis_context *ctx, const char *name, const uint8_t numbers[10], size_t each) {
    static const char digits[] = "0123456789abcdef";
    char text[20], *to = text;
    for (int place = 0; place < 10; place++) {
        if (each == 2) *to++ = digits[numbers[place] >> 4];
        *to++ = digits[numbers[place] & 15];
    }
    reply_name(ctx, name);
    redis.ReplyWithStringBuffer(ctx, text, 10 * each);
}

int reply_subscriber(redis_context *ctx, uint8_t code, const hlr_subscriber *row) {
    if (code == HLR_NO_SUBSCRIBER) return redis.ReplyWithNull(ctx);
    if (code != HLR_DONE) return redis.ReplyWithError(ctx, refusal_text(code));
    redis.ReplyWithMap(ctx, 7);
    reply_number(ctx, "s_id", row->s_id);
    reply_name(ctx, "sub_nbr");
    reply_digits(ctx, row->sub_nbr);
    reply_hexadecimal(ctx, "bits", row->bits, 1);
    reply_hexadecimal(ctx, "hexes", row->hexes, 1);
    reply_hexadecimal(ctx, "bytes", row->bytes, 2);
    reply_number(ctx, "msc_location", row->msc_location);
    return reply_number(ctx, "vlr_location", row->vlr_location);
}

static int reply_access_fields(redis_context *ctx, const hlr_access *row) {
    reply_number(ctx, "data1", row->data1);
    reply_number(ctx, "data2", row->data2);
    reply_letters(ctx, "data3", row->data3, sizeof row->data3);
    return reply_letters(ctx, "data4", row->data4, sizeof row->data4);
}

static int reply_facility_fields(redis_context *ctx, const hlr_facility *row) {
    reply_number(ctx, "is_active", row->is_active);
    reply_number(ctx, "error_cntrl", row->error_cntrl);
    reply_number(ctx, "data_a", row->data_a);
    return reply_letters(ctx, "data_b", row->data_b, sizeof row->data_b);
}

static int reply_forwarding_fields(redis_context *ctx, uint64_t end_time, uint64_t numberx) {
    reply_number(ctx, "end_time", end_time);
    reply_name(ctx, "numberx");
    return reply_digits(ctx, numberx);
}

int reply_access(redis_context *ctx, uint8_t code, const hlr_access *row) {
    if (code == HLR_NO_ACCESS) return redis.ReplyWithNull(ctx);
    if (code != HLR_DONE) return redis.ReplyWithError(ctx, refusal_text(code));
    redis.ReplyWithMap(ctx, 4);
    return reply_access_fields(ctx, row);
}

int reply_facility(redis_context *ctx, uint8_t code, const hlr_facility *row) {
    if (code == HLR_NO_FACILITY) return redis.ReplyWithNull(ctx);
    if (code != HLR_DONE) return redis.ReplyWithError(ctx, refusal_text(code));
    redis.ReplyWithMap(ctx, 4);
    return reply_facility_fields(ctx, row);
}

int reply_forwarding(redis_context *ctx, uint8_t code, uint64_t end_time, uint64_t numberx) {
    if (code == HLR_NO_FORWARDING) return redis.ReplyWithNull(ctx);
    if (code != HLR_DONE) return redis.ReplyWithError(ctx, refusal_text(code));
    redis.ReplyWithMap(ctx, 2);
    return reply_forwarding_fields(ctx, end_time, numberx);
}

int reply_destinations(redis_context *ctx, uint8_t code, const hlr_numbers *numbers) {
    if (code == HLR_NO_DESTINATION) return redis.ReplyWithArray(ctx, 0);
    if (code != HLR_DONE) return redis.ReplyWithError(ctx, refusal_text(code));
    redis.ReplyWithArray(ctx, (long)numbers->count);
    for (uint64_t place = 0; place < numbers->count; place++) reply_digits(ctx, numbers->numbers[place]);
    return REDIS_OK;
}

void reply_access_row(redis_context *ctx, const hlr_access *row) {
    redis.ReplyWithMap(ctx, 5);
    reply_number(ctx, "ai_type", row->ai_type);
    reply_access_fields(ctx, row);
}

void reply_facility_row(redis_context *ctx, const hlr_facility *row) {
    redis.ReplyWithMap(ctx, 5);
    reply_number(ctx, "sf_type", row->sf_type);
    reply_facility_fields(ctx, row);
}

void reply_forwarding_row(redis_context *ctx, const hlr_forwarding_row *row) {
    redis.ReplyWithMap(ctx, 4);
    reply_number(ctx, "sf_type", row->sf_type);
    reply_number(ctx, "start_time", row->start_time);
    reply_forwarding_fields(ctx, row->end_time, row->numberx);
}

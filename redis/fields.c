/* fields.c: reads the numbers, digits and letters of commands and records, in the forms of docs/RECORDS.md. */
#include "hlr_redis.h"
#include <string.h>

struct text text_of(const redis_string *word) {
    struct text text;
    text.at = redis.StringPtrLen(word, &text.length);
    return text;
}

uint64_t number_of(struct text text) {
    uint64_t number = 0;
    if (text.length == 0) return UINT64_MAX;
    for (size_t place = 0; place < text.length; place++) {
        uint64_t digit = (uint64_t)(unsigned char)text.at[place] - '0';
        if (digit > 9 || number > (UINT64_MAX - 9) / 10) return UINT64_MAX;
        number = number * 10 + digit;
    }
    return number;
}

void numbers_of(redis_string **words, int count, uint64_t *numbers) {
    for (int place = 0; place < count; place++) numbers[place] = number_of(text_of(words[place]));
}

/* The value of a hexadecimal digit of either case, or 16 for any other character. */
static unsigned digit_of(char letter) {
    if (letter >= '0' && letter <= '9') return (unsigned)(letter - '0');
    if (letter >= 'a' && letter <= 'f') return (unsigned)(letter - 'a') + 10;
    if (letter >= 'A' && letter <= 'F') return (unsigned)(letter - 'A') + 10;
    return 16;
}

/* Reads ten numbers of one or of two hexadecimal digits each. The register refuses bits that aren't 0 or 1. */
static int digits_of(struct text text, size_t each, uint8_t numbers[10]) {
    if (text.length != 10 * each) return 0;
    for (size_t place = 0; place < 10; place++) {
        unsigned high = each == 2 ? digit_of(text.at[2 * place]) : 0;
        unsigned low = digit_of(text.at[each * place + each - 1]);
        if (high == 16 || low == 16) return 0;
        numbers[place] = (uint8_t)(high << 4 | low);
    }
    return 1;
}

static int letters_of(struct text text, uint8_t *letters, size_t count) {
    if (text.length == count) memcpy(letters, text.at, count);
    return text.length == count;
}

int subscriber_of(const struct text *fields, hlr_subscriber *row) {
    *row = (hlr_subscriber){
        .s_id = number_of(fields[0]),
        .sub_nbr = number_of(fields[1]),
        .msc_location = number_of(fields[5]),
        .vlr_location = number_of(fields[6]),
    };
    return digits_of(fields[2], 1, row->bits) && digits_of(fields[3], 1, row->hexes) && digits_of(fields[4], 2, row->bytes);
}

int access_of(const struct text *fields, hlr_access *row) {
    *row = (hlr_access){
        .s_id = number_of(fields[0]),
        .ai_type = number_of(fields[1]),
        .data1 = number_of(fields[2]),
        .data2 = number_of(fields[3]),
    };
    return letters_of(fields[4], row->data3, sizeof row->data3) && letters_of(fields[5], row->data4, sizeof row->data4);
}

int facility_of(const struct text *fields, hlr_facility *row) {
    *row = (hlr_facility){
        .s_id = number_of(fields[0]),
        .sf_type = number_of(fields[1]),
        .is_active = number_of(fields[2]),
        .error_cntrl = number_of(fields[3]),
        .data_a = number_of(fields[4]),
    };
    return letters_of(fields[5], row->data_b, sizeof row->data_b);
}

int is_word(const redis_string *word, const char *wanted) {
    struct text text = text_of(word);
    if (text.length != strlen(wanted)) return 0;
    for (size_t place = 0; place < text.length; place++) {
        char letter = text.at[place];
        if (letter >= 'a' && letter <= 'z') letter = (char)(letter - 'a' + 'A');
        if (letter != wanted[place]) return 0;
    }
    return 1;
}

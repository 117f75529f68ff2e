/* Saves a register as records of the program hlr, and loads such records: copy save_file and load_rows, with the
 * functions above them, into your program. This one loads the records sub, acc, fac and icf from standard input, and
 * writes all rows to standard output, or to a file that it replaces:
 *
 *     save < RECORDS
 *     save FILE < RECORDS
 *
 * docs/BACKUP.md tells how it is built, and what such a file leaves out. */
#define _POSIX_C_SOURCE 200809L
#include <hlr.h>
#include <inttypes.h>
#include <stdbool.h>
#include <stdio.h>
#include <string.h>
#include <unistd.h>

#define PAGE 256 /* the rows that one call reads */
#define U "%" SCNu64

static void put_digits(FILE *file, int each, const uint8_t *numbers) {
    putc(',', file);
    for (int place = 0; place < 10; place++) fprintf(file, "%0*x", each, numbers[place]);
}

static void put_subscriber(FILE *file, const hlr_subscriber *row) {
    fprintf(file, "sub,%" PRIu64 ",%015" PRIu64, row->s_id, row->sub_nbr);
    put_digits(file, 1, row->bits);
    put_digits(file, 1, row->hexes);
    put_digits(file, 2, row->bytes);
    fprintf(file, ",%" PRIu64 ",%" PRIu64 "\n", row->msc_location, row->vlr_location);
}

static void put_access(FILE *file, const hlr_access *row) {
    fprintf(file, "acc,%" PRIu64 ",%" PRIu64 ",%" PRIu64 ",%" PRIu64 ",%.3s,%.5s\n", row->s_id, row->ai_type,
            row->data1, row->data2, (const char *)row->data3, (const char *)row->data4);
}

static void put_facility(FILE *file, const hlr_facility *row) {
    fprintf(file, "fac,%" PRIu64 ",%" PRIu64 ",%" PRIu64 ",%" PRIu64 ",%" PRIu64 ",%.5s\n", row->s_id, row->sf_type,
            row->is_active, row->error_cntrl, row->data_a, (const char *)row->data_b);
}

static uint8_t save_subscribers(hlr *handle, FILE *file) {
    hlr_subscriber rows[PAGE] = {0};
    uint64_t s_id = 0, count = 0;
    for (;;) {
        uint8_t code = hlr_next_subscribers(handle, s_id, rows, PAGE, &count);
        if (code != HLR_DONE || count == 0) return code;
        for (uint64_t place = 0; place < count; place++) put_subscriber(file, &rows[place]);
        s_id = rows[count - 1].s_id + 1;
    }
}

static uint8_t save_accesses(hlr *handle, FILE *file) {
    hlr_access rows[PAGE] = {0};
    uint64_t s_id = 0, ai_type = 0, count = 0;
    for (;;) {
        uint8_t code = hlr_next_accesses(handle, s_id, ai_type, rows, PAGE, &count);
        if (code != HLR_DONE || count == 0) return code;
        for (uint64_t place = 0; place < count; place++) put_access(file, &rows[place]);
        s_id = rows[count - 1].s_id;
        ai_type = rows[count - 1].ai_type + 1;
    }
}

static uint8_t save_facilities(hlr *handle, FILE *file) {
    hlr_facility rows[PAGE] = {0};
    uint64_t s_id = 0, sf_type = 0, count = 0;
    for (;;) {
        uint8_t code = hlr_next_facilities(handle, s_id, sf_type, rows, PAGE, &count);
        if (code != HLR_DONE || count == 0) return code;
        for (uint64_t place = 0; place < count; place++) put_facility(file, &rows[place]);
        s_id = rows[count - 1].s_id;
        sf_type = rows[count - 1].sf_type + 1;
    }
}

/* Writes the record of a forwarding, which has the number of its subscriber. */
static void put_forwarding(FILE *file, uint64_t sub_nbr, const hlr_forwarding_row *row) {
    fprintf(file, "icf,%015" PRIu64 ",%" PRIu64 ",%" PRIu64 ",%" PRIu64 ",%015" PRIu64 "\n", sub_nbr, row->sf_type,
            row->start_time, row->end_time, row->numberx);
}

static uint8_t save_forwardings(hlr *handle, FILE *file) {
    hlr_forwarding_row rows[PAGE] = {0};
    hlr_subscriber subscriber = {0};
    uint64_t s_id = 0, sf_type = 0, start_time = 0, count = 0;
    for (;;) {
        uint8_t code = hlr_next_forwardings(handle, s_id, sf_type, start_time, rows, PAGE, &count);
        if (code != HLR_DONE || count == 0) return code;
        for (uint64_t place = 0; place < count; place++) {
            s_id = rows[place].s_id;
            if (s_id != subscriber.s_id) code = hlr_next_subscriber(handle, s_id, &subscriber);
            if (code != HLR_DONE) return code;
            put_forwarding(file, subscriber.sub_nbr, &rows[place]);
        }
        sf_type = rows[count - 1].sf_type;
        start_time = rows[count - 1].start_time + 1;
    }
}

/* Writes all rows of a register to a file, also those in loose pieces, as records in an order in which they can be
 * loaded: subscribers, accesses, facilities, and then forwardings. If a part is lent it returns HLR_AWAY, and if the
 * handle isn't open HLR_NOT_OPEN, and writes nothing. Errors of the file are those that ferror reports. Let no other
 * thread use the handle meanwhile. */
static uint8_t save_rows(hlr *handle, FILE *file) {
    uint8_t code = save_subscribers(handle, file);
    if (code == HLR_DONE) code = save_accesses(handle, file);
    if (code == HLR_DONE) code = save_facilities(handle, file);
    if (code == HLR_DONE) code = save_forwardings(handle, file);
    return code;
}

/* Replaces the file at path by the rows of a register, so that a crash leaves the old file or the new one. If it fails,
 * it says why on standard error, leaves the old file as it was, and returns false. */
static bool save_file(hlr *handle, const char *path) {
    char new_path[4096] = "";
    int length = snprintf(new_path, sizeof new_path, "%s.new", path);
    FILE *file = length > 0 && (size_t)length < sizeof new_path ? fopen(new_path, "w") : NULL;
    if (file == NULL) {
        fprintf(stderr, "save: there can be no file %s.new\n", path);
        return false;
    }
    uint8_t code = save_rows(handle, file);
    bool is_written = fflush(file) == 0 && !ferror(file) && fsync(fileno(file)) == 0;
    if (fclose(file) == 0 && is_written && code == HLR_DONE && rename(new_path, path) == 0) return true;
    const char *reason = code == HLR_DONE ? "the new file can't be written" : hlr_code_name(code);
    fprintf(stderr, "save: %s isn't replaced: %s\n", path, reason);
    remove(new_path);
    return false;
}

/* Reads ten numbers of so many hexadecimal digits each. */
static void from_digits(const char *digits, size_t each, uint8_t numbers[10]) {
    for (size_t place = 0; place < 10; place++) {
        char one[3] = "";
        unsigned number = 0;
        memcpy(one, digits + place * each, each);
        sscanf(one, "%x", &number);
        numbers[place] = (uint8_t)number;
    }
}

/* The next four functions add the row of a record, and return HLR_FIELD if its fields aren't of their form. */

static uint8_t load_subscriber(hlr *handle, const char *line) {
    char bits[11] = "", hexes[11] = "", bytes[21] = "";
    int end = 0;
    hlr_subscriber row = {0};
    sscanf(line, "sub," U "," U ",%10[01],%10[0-9A-Fa-f],%20[0-9A-Fa-f]," U "," U "%n", &row.s_id, &row.sub_nbr, bits,
           hexes, bytes, &row.msc_location, &row.vlr_location, &end);
    if (line[end] != '\n' || strlen(bits) != 10 || strlen(hexes) != 10 || strlen(bytes) != 20) return HLR_FIELD;
    from_digits(bits, 1, row.bits);
    from_digits(hexes, 1, row.hexes);
    from_digits(bytes, 2, row.bytes);
    return hlr_add_subscriber(handle, &row);
}

static uint8_t load_access(hlr *handle, const char *line) {
    char data3[4] = "", data4[6] = "";
    int end = 0;
    hlr_access row = {0};
    sscanf(line, "acc," U "," U "," U "," U ",%3[A-Z],%5[A-Z]%n", &row.s_id, &row.ai_type, &row.data1, &row.data2,
           data3, data4, &end);
    if (line[end] != '\n') return HLR_FIELD;
    memcpy(row.data3, data3, sizeof row.data3);
    memcpy(row.data4, data4, sizeof row.data4);
    return hlr_add_access(handle, &row);
}

static uint8_t load_facility(hlr *handle, const char *line) {
    char data_b[6] = "";
    int end = 0;
    hlr_facility row = {0};
    sscanf(line, "fac," U "," U "," U "," U "," U ",%5[A-Z]%n", &row.s_id, &row.sf_type, &row.is_active,
           &row.error_cntrl, &row.data_a, data_b, &end);
    if (line[end] != '\n') return HLR_FIELD;
    memcpy(row.data_b, data_b, sizeof row.data_b);
    return hlr_add_facility(handle, &row);
}

static uint8_t load_forwarding(hlr *handle, const char *line) {
    uint64_t sub_nbr = 0, sf_type = 0, start_time = 0, end_time = 0, numberx = 0;
    int end = 0;
    sscanf(line, "icf," U "," U "," U "," U "," U "%n", &sub_nbr, &sf_type, &start_time, &end_time, &numberx, &end);
    if (line[end] != '\n') return HLR_FIELD;
    return hlr_insert_forwarding(handle, sub_nbr, sf_type, start_time, end_time, numberx);
}

static uint8_t load_record(hlr *handle, const char *line) {
    if (strncmp(line, "sub,", 4) == 0) return load_subscriber(handle, line);
    if (strncmp(line, "acc,", 4) == 0) return load_access(handle, line);
    if (strncmp(line, "fac,", 4) == 0) return load_facility(handle, line);
    if (strncmp(line, "icf,", 4) == 0) return load_forwarding(handle, line);
    return HLR_FIELD;
}

/* Adds the rows of all records of a file. At the first one that isn't done it stops, says why on standard error, and
 * returns false. */
static bool load_rows(hlr *handle, FILE *file) {
    char line[256] = "";
    while (fgets(line, sizeof line, file)) {
        uint8_t code = load_record(handle, line);
        if (code == HLR_DONE) continue;
        fprintf(stderr, "save: this record isn't loaded, %s: %s", hlr_code_name(code), line);
        return false;
    }
    return !ferror(file);
}

int main(int argc, char **argv) {
    hlr handle = HLR_CLOSED;
    if (hlr_open(1, 524288, &handle) != HLR_DONE) return 1;
    bool is_done = load_rows(&handle, stdin);
    if (is_done && argc > 1) is_done = save_file(&handle, argv[1]);
    if (is_done && argc == 1) is_done = save_rows(&handle, stdout) == HLR_DONE && fflush(stdout) == 0;
    hlr_close(&handle);
    return !is_done;
}

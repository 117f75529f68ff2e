// The calls of hlr.h that bench/library.c makes, as an expert would write them without hlr: rows in maps by packed keys, and
// counts that every change keeps. One owner, no parts, no proofs; memory that is refused ends the program. MAP says which map:
//
//   g++ -std=c++17 -O3 -Icrates/hlr_c -DMAP=1 -c bench/library_plain.cc
//
//   1 std::map   2 absl::btree_map   3 std::unordered_map   4 absl::flat_hash_map; 3 and 4 keep no order
#include "hlr.h"
#include <cstring>
#if MAP == 1
#include <map>
template <class K, class V> using Map = std::map<K, V>;
#elif MAP == 2
#include <absl/container/btree_map.h>
template <class K, class V> using Map = absl::btree_map<K, V>;
#elif MAP == 3
#include <unordered_map>
template <class K, class V> using Map = std::unordered_map<K, V>;
#else
#include <absl/container/flat_hash_map.h>
template <class K, class V> using Map = absl::flat_hash_map<K, V>;
#endif

namespace {

struct Subscriber { uint64_t number; uint32_t msc, vlr; uint8_t bits[10], hexes[10], bytes[10]; };
struct Access { uint8_t data1, data2, data3[3], data4[5]; };
struct Facility { bool active; uint8_t error, data_a, data_b[5]; };
struct Forwarding { uint64_t number : 56, end : 8; };

bool is_sid(uint64_t s_id) { return s_id - 1 < 16777216; }
bool is_type(uint64_t type) { return type - 1 < 4; }
bool is_number(uint64_t number) { return number < 1000000000000000; }
bool is_location(uint64_t location) { return location - 1 < 4294967295; }
bool is_start(uint64_t start) { return start == 0 || start == 8 || start == 16; }
bool is_end(uint64_t end) { return end - 1 < 24; }
bool are_within(const uint8_t *from, int count, uint8_t least, uint8_t greatest) {
    for (int i = 0; i < count; i++) if (from[i] < least || from[i] > greatest) return false;
    return true;
}

// Keys of rows: the subscriber, and two bits of the type, and for a forwarding two bits of its start.
uint32_t typed(uint64_t s_id, uint64_t type) { return uint32_t(s_id << 2 | (type - 1)); }
uint32_t started(uint64_t s_id, uint64_t type, uint64_t start) { return uint32_t((s_id - 1) << 4 | (type - 1) << 2 | start >> 3); }

struct Store {
    uint64_t width;
    Map<uint32_t, Subscriber> subscribers;
    Map<uint32_t, Access> accesses;
    Map<uint32_t, Facility> facilities;
    Map<uint32_t, Forwarding> forwardings;
    Map<uint64_t, uint32_t> numbers;
    int64_t counts[HLR_CELLS] = {}, published[HLR_CELLS] = {};

    int64_t &zone(uint64_t s_id) { uint64_t z = (s_id - 1) / width; return counts[40 + (z < 31 ? z : 31)]; }
    int64_t &area(uint32_t vlr) { return counts[24 + (vlr >> 28)]; }
    void forward(uint64_t start, uint64_t end, int64_t by) { for (; start < end; start++) counts[start] += by; }

    uint8_t add(const hlr_subscriber &row) {
        if (!is_sid(row.s_id) || !is_number(row.sub_nbr) || !is_location(row.msc_location) || !is_location(row.vlr_location)
            || !are_within(row.bits, 10, 0, 1) || !are_within(row.hexes, 10, 0, 15)) return HLR_FIELD;
        auto [at, is_new] = subscribers.try_emplace(row.s_id);
        if (!is_new) return HLR_EXISTS;
        if (!numbers.try_emplace(row.sub_nbr, row.s_id).second) {
            subscribers.erase(at);
            return HLR_NUMBER_TAKEN;
        }
        Subscriber &made = at->second;
        made.number = row.sub_nbr, made.msc = row.msc_location, made.vlr = row.vlr_location;
        memcpy(made.bits, row.bits, 10), memcpy(made.hexes, row.hexes, 10), memcpy(made.bytes, row.bytes, 10);
        zone(row.s_id)++, area(made.vlr)++;
        return HLR_DONE;
    }
    uint8_t add(const hlr_access &row) {
        if (!is_sid(row.s_id) || !is_type(row.ai_type) || row.data1 > 255 || row.data2 > 255
            || !are_within(row.data3, 3, 'A', 'Z') || !are_within(row.data4, 5, 'A', 'Z')) return HLR_FIELD;
        if (!subscribers.count(row.s_id)) return HLR_NO_SUBSCRIBER;
        auto [at, is_new] = accesses.try_emplace(typed(row.s_id, row.ai_type));
        if (!is_new) return HLR_EXISTS;
        at->second.data1 = row.data1, at->second.data2 = row.data2;
        memcpy(at->second.data3, row.data3, 3), memcpy(at->second.data4, row.data4, 5);
        zone(row.s_id)++;
        return HLR_DONE;
    }
    uint8_t add(const hlr_facility &row) {
        if (!is_sid(row.s_id) || !is_type(row.sf_type) || row.is_active > 1 || row.error_cntrl > 255 || row.data_a > 255
            || !are_within(row.data_b, 5, 'A', 'Z')) return HLR_FIELD;
        if (!subscribers.count(row.s_id)) return HLR_NO_SUBSCRIBER;
        auto [at, is_new] = facilities.try_emplace(typed(row.s_id, row.sf_type));
        if (!is_new) return HLR_EXISTS;
        at->second.active = row.is_active, at->second.error = row.error_cntrl, at->second.data_a = row.data_a;
        memcpy(at->second.data_b, row.data_b, 5);
        zone(row.s_id)++;
        return HLR_DONE;
    }
    uint8_t subscriber(uint64_t s_id, hlr_subscriber &row) const {
        if (!is_sid(s_id)) return HLR_FIELD;
        auto at = subscribers.find(s_id);
        if (at == subscribers.end()) return HLR_NO_SUBSCRIBER;
        const Subscriber &found = at->second;
        row.s_id = s_id, row.sub_nbr = found.number, row.msc_location = found.msc, row.vlr_location = found.vlr;
        memcpy(row.bits, found.bits, 10), memcpy(row.hexes, found.hexes, 10), memcpy(row.bytes, found.bytes, 10);
        return HLR_DONE;
    }
    uint8_t access(uint64_t s_id, uint64_t type, hlr_access &row) const {
        if (!is_sid(s_id) || !is_type(type)) return HLR_FIELD;
        auto at = accesses.find(typed(s_id, type));
        if (at == accesses.end()) return HLR_NO_ACCESS;
        row.s_id = s_id, row.ai_type = type, row.data1 = at->second.data1, row.data2 = at->second.data2;
        memcpy(row.data3, at->second.data3, 3), memcpy(row.data4, at->second.data4, 5);
        return HLR_DONE;
    }
    uint8_t destination(uint64_t s_id, uint64_t type, uint64_t start, uint64_t end, hlr_numbers &told) const {
        if (!is_sid(s_id) || !is_type(type) || !is_start(start) || !is_end(end)) return HLR_FIELD;
        auto facility = facilities.find(typed(s_id, type));
        if (facility == facilities.end() || !facility->second.active) return HLR_NO_DESTINATION;
        hlr_numbers found = {0, {0, 0, 0}};
#if MAP <= 2
        auto at = forwardings.lower_bound(started(s_id, type, 0));
        for (; at != forwardings.end() && at->first <= started(s_id, type, start); ++at)
            if (end < at->second.end) found.numbers[found.count++] = at->second.number;
#else
        for (uint64_t from = 0; from <= start; from += 8) {
            auto at = forwardings.find(started(s_id, type, from));
            if (at != forwardings.end() && end < at->second.end) found.numbers[found.count++] = at->second.number;
        }
#endif
        if (!found.count) return HLR_NO_DESTINATION;
        told = found;
        return HLR_DONE;
    }
    uint8_t find(uint64_t number, uint64_t &s_id) const {
        if (!is_number(number)) return HLR_FIELD;
        auto at = numbers.find(number);
        if (at == numbers.end()) return HLR_NO_NUMBER;
        s_id = at->second;
        return HLR_DONE;
    }
    uint8_t facility(uint64_t s_id, uint64_t type, hlr_facility &row) const {
        if (!is_sid(s_id) || !is_type(type)) return HLR_FIELD;
        auto at = facilities.find(typed(s_id, type));
        if (at == facilities.end()) return HLR_NO_FACILITY;
        row.s_id = s_id, row.sf_type = type, row.is_active = at->second.active;
        row.error_cntrl = at->second.error, row.data_a = at->second.data_a;
        memcpy(row.data_b, at->second.data_b, 5);
        return HLR_DONE;
    }
    uint8_t forwarding(uint64_t s_id, uint64_t type, uint64_t start, uint64_t &end, uint64_t &number) const {
        if (!is_sid(s_id) || !is_type(type) || !is_start(start)) return HLR_FIELD;
        auto at = forwardings.find(started(s_id, type, start));
        if (at == forwardings.end()) return HLR_NO_FORWARDING;
        end = at->second.end, number = at->second.number;
        return HLR_DONE;
    }
    // Without an order each s_id is tried.
    uint8_t next(uint64_t from, hlr_subscriber &row) const {
#if MAP <= 2
        auto at = subscribers.lower_bound(from);
        return at == subscribers.end() ? HLR_NO_SUBSCRIBER : subscriber(at->first, row);
#else
        for (; from <= 16777216; from++) if (subscriber(from, row) == HLR_DONE) return HLR_DONE;
        return HLR_NO_SUBSCRIBER;
#endif
    }
    uint8_t update(uint64_t s_id, uint64_t type, uint64_t bit, uint64_t data) {
        if (!is_sid(s_id) || !is_type(type) || bit > 1 || data > 255) return HLR_FIELD;
        auto row = subscribers.find(s_id);
        if (row == subscribers.end()) return HLR_NO_SUBSCRIBER;
        auto facility = facilities.find(typed(s_id, type));
        if (facility == facilities.end()) return HLR_NO_FACILITY;
        row->second.bits[0] = bit, facility->second.data_a = data;
        return HLR_DONE;
    }
    uint8_t locate(uint64_t number, uint64_t vlr) {
        if (!is_number(number) || !is_location(vlr)) return HLR_FIELD;
        auto bearer = numbers.find(number);
        if (bearer == numbers.end()) return HLR_NO_NUMBER;
        Subscriber &row = subscribers.find(bearer->second)->second;
        area(row.vlr)--, area(vlr)++, row.vlr = vlr;
        return HLR_DONE;
    }
    uint8_t insert(uint64_t number, uint64_t type, uint64_t start, uint64_t end, uint64_t numberx) {
        if (!is_number(number) || !is_type(type) || !is_start(start) || !is_end(end) || !is_number(numberx)) return HLR_FIELD;
        auto bearer = numbers.find(number);
        if (bearer == numbers.end()) return HLR_NO_NUMBER;
        auto facility = facilities.find(typed(bearer->second, type));
        if (facility == facilities.end()) return HLR_NO_FACILITY;
        auto [at, is_new] = forwardings.try_emplace(started(bearer->second, type, start));
        if (!is_new) return HLR_EXISTS;
        at->second.number = numberx, at->second.end = end;
        zone(bearer->second)++;
        if (facility->second.active) forward(start, end, 1);
        return HLR_DONE;
    }
    uint8_t remove(uint64_t number, uint64_t type, uint64_t start) {
        if (!is_number(number) || !is_type(type) || !is_start(start)) return HLR_FIELD;
        auto bearer = numbers.find(number);
        if (bearer == numbers.end()) return HLR_NO_NUMBER;
        auto at = forwardings.find(started(bearer->second, type, start));
        if (at == forwardings.end()) return HLR_NO_FORWARDING;
        uint64_t end = at->second.end;
        forwardings.erase(at);
        zone(bearer->second)--;
        if (facilities.find(typed(bearer->second, type))->second.active) forward(start, end, -1);
        return HLR_DONE;
    }
    uint8_t activate(uint64_t s_id, uint64_t type, uint64_t is_active) {
        if (!is_sid(s_id) || !is_type(type) || is_active > 1) return HLR_FIELD;
        auto facility = facilities.find(typed(s_id, type));
        if (facility == facilities.end()) return HLR_NO_FACILITY;
        if (facility->second.active == bool(is_active)) return HLR_DONE;
        facility->second.active = is_active;
        for (uint64_t start = 0; start <= 16; start += 8) {
            auto at = forwardings.find(started(s_id, type, start));
            if (at != forwardings.end()) forward(start, at->second.end, is_active ? 1 : -1);
        }
        return HLR_DONE;
    }
    uint8_t renumber(uint64_t s_id, uint64_t number) {
        if (!is_sid(s_id) || !is_number(number)) return HLR_FIELD;
        auto row = subscribers.find(s_id);
        if (row == subscribers.end()) return HLR_NO_SUBSCRIBER;
        if (row->second.number == number) return HLR_DONE;
        if (!numbers.emplace(number, s_id).second) return HLR_NUMBER_TAKEN;
        numbers.erase(row->second.number);
        row->second.number = number;
        return HLR_DONE;
    }
};

Store *in(hlr *handle) { return static_cast<Store *>(handle->address); }

} // namespace

extern "C" {
uint8_t hlr_open(uint64_t, uint64_t width, hlr *handle) {
    handle->mark = 1, handle->address = new Store{};
    in(handle)->width = width;
    return HLR_DONE;
}
uint8_t hlr_close(hlr *handle) {
    delete in(handle);
    handle->mark = 0;
    return HLR_DONE;
}
uint8_t hlr_post(hlr *handle, uint64_t, uint64_t, uint64_t *posted) {
    *posted = 0;
    for (int cell = 0; cell < HLR_CELLS; cell++) *posted += in(handle)->published[cell] != in(handle)->counts[cell];
    memcpy(in(handle)->published, in(handle)->counts, sizeof in(handle)->counts);
    return HLR_DONE;
}
uint8_t hlr_views(hlr *handle, int64_t published[HLR_CELLS], int64_t unposted[HLR_CELLS]) {
    for (int cell = 0; cell < HLR_CELLS; cell++) {
        published[cell] = in(handle)->published[cell];
        unposted[cell] = in(handle)->counts[cell] - published[cell];
    }
    return HLR_DONE;
}
uint8_t hlr_add_subscriber(hlr *handle, const hlr_subscriber *row) { return in(handle)->add(*row); }
uint8_t hlr_add_access(hlr *handle, const hlr_access *row) { return in(handle)->add(*row); }
uint8_t hlr_add_facility(hlr *handle, const hlr_facility *row) { return in(handle)->add(*row); }
uint8_t hlr_subscriber_data(hlr *handle, uint64_t s_id, hlr_subscriber *row) { return in(handle)->subscriber(s_id, *row); }
uint8_t hlr_access_data(hlr *handle, uint64_t s_id, uint64_t type, hlr_access *row) { return in(handle)->access(s_id, type, *row); }
uint8_t hlr_new_destination(hlr *handle, uint64_t s_id, uint64_t type, uint64_t start, uint64_t end, hlr_numbers *told) {
    return in(handle)->destination(s_id, type, start, end, *told);
}
uint8_t hlr_find(hlr *handle, uint64_t number, uint64_t *s_id) { return in(handle)->find(number, *s_id); }
uint8_t hlr_facility_data(hlr *handle, uint64_t s_id, uint64_t type, hlr_facility *row) { return in(handle)->facility(s_id, type, *row); }
uint8_t hlr_forwarding(hlr *handle, uint64_t s_id, uint64_t type, uint64_t start, uint64_t *end, uint64_t *number) {
    return in(handle)->forwarding(s_id, type, start, *end, *number);
}
uint8_t hlr_next_subscriber(hlr *handle, uint64_t from, hlr_subscriber *row) { return in(handle)->next(from, *row); }
uint8_t hlr_update_subscriber(hlr *handle, uint64_t s_id, uint64_t type, uint64_t bit, uint64_t data) { return in(handle)->update(s_id, type, bit, data); }
uint8_t hlr_update_location(hlr *handle, uint64_t number, uint64_t vlr) { return in(handle)->locate(number, vlr); }
uint8_t hlr_insert_forwarding(hlr *handle, uint64_t number, uint64_t type, uint64_t start, uint64_t end, uint64_t numberx) {
    return in(handle)->insert(number, type, start, end, numberx);
}
uint8_t hlr_delete_forwarding(hlr *handle, uint64_t number, uint64_t type, uint64_t start) { return in(handle)->remove(number, type, start); }
uint8_t hlr_set_active(hlr *handle, uint64_t s_id, uint64_t type, uint64_t is_active) { return in(handle)->activate(s_id, type, is_active); }
uint8_t hlr_set_number(hlr *handle, uint64_t s_id, uint64_t number) { return in(handle)->renumber(s_id, number); }
uint8_t hlr_subscriber_data_many(hlr *handle, const uint64_t *s_ids, size_t count, hlr_subscriber *rows, size_t, uint8_t *codes, size_t) {
    for (size_t i = 0; i < count; i++) codes[i] = in(handle)->subscriber(s_ids[i], rows[i]);
    return HLR_DONE;
}
uint8_t hlr_access_data_many(hlr *handle, const hlr_access_asked *asked, size_t count, hlr_access *rows, size_t, uint8_t *codes, size_t) {
    for (size_t i = 0; i < count; i++) codes[i] = in(handle)->access(asked[i].s_id, asked[i].ai_type, rows[i]);
    return HLR_DONE;
}
uint8_t hlr_new_destination_many(hlr *handle, const hlr_destination_asked *asked, size_t count, hlr_numbers *told, size_t, uint8_t *codes, size_t) {
    for (size_t i = 0; i < count; i++) {
        codes[i] = in(handle)->destination(asked[i].s_id, asked[i].sf_type, asked[i].start_time, asked[i].end_time, told[i]);
    }
    return HLR_DONE;
}
}

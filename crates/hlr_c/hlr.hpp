/*
 * hlr.hpp: an embeddable home location register (HLR) for C++17, as a thin wrapper over hlr.h.
 *
 *     #include <cinttypes>
 *     #include <cstdio>
 *     #include <hlr.hpp>
 *
 *     int main() {
 *         hlrpp::store store;
 *         hlrpp::subscriber row{7, 49151000007, {}, {}, {}, 1, 1};
 *         if (store.open(1, 524288) != hlrpp::code::done) return 1;
 *         if (store.add_subscriber(row) != hlrpp::code::done) return 1;
 *         if (store.update_location(row.sub_nbr, 268435456) != hlrpp::code::done) return 1;
 *         hlrpp::code read = store.subscriber_data(7, row);
 *         std::printf("%s: the location is %" PRIu64 "\n", hlrpp::name(read), row.vlr_location);
 *     }
 *
 * It prints "Done: the location is 268435456", and the store closes itself as it goes out of scope. Compile it with
 * what `pkg-config --cflags --libs hlr` prints, or with hlr_file.c and the archives that hlr.h names.
 *
 * A store has a register, or is closed. A part is what a store lends: it has a part of the register, or is closed. Both
 * can be moved but not copied, and one that was moved from is closed. As they go out of scope, a store closes itself
 * and a part sends itself home.
 *
 * A store that is opened with the name of a file has a journal there, which keeps its rows:
 *
 *     hlrpp::store store;
 *     if (store.open("hlr.journal", 1, 524288) != hlrpp::code::done) return 1;
 *     if (store.update_location(49151000007, 268435456) != hlrpp::code::done) return 1;
 *     if (store.sync() == hlrpp::code::done) std::puts("no crash takes this change back");
 *
 * Such a store syncs as it goes out of scope, but can't tell you then whether the disk has failed. So call sync or
 * close before, and look at the code.
 *
 * Each call returns a code, and the compiler warns if you don't look at it. Nothing throws. hlr.h says what each call
 * does, which codes it returns and in what order, and which rules are up to its callers; a call has the same name
 * there, with hlr_, hlr_part_ or hlr_file_ in front. These rules are the ones that people break first:
 *
 *   1. Make one call at a time on a store, and one on a part, even if the calls only read. For this reason no call is
 *      const. Two calls at once are undefined behaviour, and code::not_open is no lock.
 *   2. Give each variable a value before you pass it, for example with hlrpp::subscriber row{}. A call writes its
 *      results only if it returns code::done.
 *   3. Don't pass the same object twice in one call.
 *
 * The namespace is called hlrpp because hlr is the type of a handle in hlr.h.
 */
#ifndef HLR_HPP
#define HLR_HPP

#include "hlr.h"

#include <array>
#include <cstddef>
#include <cstdint>

namespace hlrpp {

/* What a call returns: that it is done, or why it was refused. */
enum class [[nodiscard]] code : std::uint8_t {
    done = HLR_DONE,
    memory = HLR_MEMORY,
    field = HLR_FIELD,
    no_subscriber = HLR_NO_SUBSCRIBER,
    no_number = HLR_NO_NUMBER,
    no_access = HLR_NO_ACCESS,
    no_facility = HLR_NO_FACILITY,
    no_forwarding = HLR_NO_FORWARDING,
    no_destination = HLR_NO_DESTINATION,
    exists = HLR_EXISTS,
    number_taken = HLR_NUMBER_TAKEN,
    moving = HLR_MOVING,
    no_part = HLR_NO_PART,
    no_piece = HLR_NO_PIECE,
    out_of_range = HLR_OUT_OF_RANGE,
    not_adjacent = HLR_NOT_ADJACENT,
    many_pieces = HLR_MANY_PIECES,
    worn = HLR_WORN,
    many_parts = HLR_MANY_PARTS,
    locked = HLR_LOCKED,
    bad_journal = HLR_BAD_JOURNAL,
    failed = HLR_FAILED,
    journaled = HLR_JOURNALED,
    no_journal = HLR_NO_JOURNAL,
    elsewhere = HLR_ELSEWHERE,
    away = HLR_AWAY,
    not_open = HLR_NOT_OPEN,
    still_open = HLR_STILL_OPEN
};

/* Returns the name of a code, as the program hlr prints it in refusals. */
[[nodiscard]] constexpr const char *name(code answered) noexcept {
    switch (answered) {
    case code::done: return "Done";
    case code::memory: return "Memory";
    case code::field: return "Field";
    case code::no_subscriber: return "NoSubscriber";
    case code::no_number: return "NoNumber";
    case code::no_access: return "NoAccess";
    case code::no_facility: return "NoFacility";
    case code::no_forwarding: return "NoForwarding";
    case code::no_destination: return "NoDestination";
    case code::exists: return "Exists";
    case code::number_taken: return "NumberTaken";
    case code::moving: return "Moving";
    case code::no_part: return "NoPart";
    case code::no_piece: return "NoPiece";
    case code::out_of_range: return "OutOfRange";
    case code::not_adjacent: return "NotAdjacent";
    case code::many_pieces: return "ManyPieces";
    case code::worn: return "Worn";
    case code::many_parts: return "ManyParts";
    case code::locked: return "Locked";
    case code::bad_journal: return "BadJournal";
    case code::failed: return "Failed";
    case code::journaled: return "Journaled";
    case code::no_journal: return "NoJournal";
    case code::elsewhere: return "Elsewhere";
    case code::away: return "Away";
    case code::not_open: return "NotOpen";
    case code::still_open: return "StillOpen";
    }
    return "";
}

/* The rows and reports of hlr.h. */
using subscriber = hlr_subscriber;
using access = hlr_access;
using facility = hlr_facility;
using forwarding_row = hlr_forwarding_row;
using access_asked = hlr_access_asked;
using destination_asked = hlr_destination_asked;
using numbers = hlr_numbers;
using region = hlr_region;
using region_list = hlr_region_list;
using bounds = hlr_bounds;

/* The constants of hlr.h. */
inline constexpr std::uint64_t max_s_id = HLR_MAX_S_ID;
inline constexpr std::uint64_t max_width = HLR_MAX_WIDTH;
inline constexpr std::size_t max_parts = HLR_MAX_PARTS;
inline constexpr std::size_t max_pieces = HLR_MAX_PIECES;
inline constexpr std::size_t max_regions = HLR_MAX_REGIONS;
inline constexpr std::size_t cells = HLR_CELLS;
inline constexpr std::size_t hour_cell = HLR_HOUR_CELL;
inline constexpr std::size_t area_cell = HLR_AREA_CELL;
inline constexpr std::size_t zone_cell = HLR_ZONE_CELL;
inline constexpr std::size_t hours = HLR_HOURS;
inline constexpr std::size_t areas = HLR_AREAS;
inline constexpr std::size_t zones = HLR_ZONES;
inline constexpr std::uint64_t area_width = HLR_AREA_WIDTH;

/* The counts that store::scan makes, one for each cell. */
using counts = std::array<std::uint64_t, cells>;

/* What store::views reads: what is published and what is unposted of each cell. */
struct view {
    std::array<std::int64_t, cells> published;
    std::array<std::int64_t, cells> unposted;
};

/* Which end of a part store::give cuts off: the subscribers below a number, or those from it on. */
enum class side : std::uint64_t { low = HLR_LOW, high = HLR_HIGH };

namespace detail {
/* Returns codes as hlr.h has them, which is one byte each. */
inline std::uint8_t *bytes(code *codes) noexcept { return reinterpret_cast<std::uint8_t *>(codes); }
} // namespace detail

/* A lent part, or a closed handle. */
class part {
public:
    constexpr part() noexcept = default;
    ~part() { leave(); }

    part(const part &) = delete;
    part &operator=(const part &) = delete;

    part(part &&other) noexcept : handle_(other.handle_) { other.handle_ = HLR_CLOSED; }
    part &operator=(part &&other) noexcept {
        if (this != &other) {
            leave();
            handle_ = other.handle_;
            other.handle_ = HLR_CLOSED;
        }
        return *this;
    }

    /* Returns the handle, for calls of hlr.h. */
    [[nodiscard]] hlr_part *handle() noexcept { return &handle_; }

    code home() noexcept { return code{hlr_home(&handle_)}; }
    code range(std::uint64_t &lo, std::uint64_t &hi) noexcept { return code{hlr_part_range(&handle_, &lo, &hi)}; }

    /* Calls that read. */
    code subscriber_data(std::uint64_t s_id, subscriber &row) noexcept {
        return code{hlr_part_subscriber_data(&handle_, s_id, &row)};
    }
    code new_destination(std::uint64_t s_id, std::uint64_t sf_type, std::uint64_t start_time, std::uint64_t end_time,
                         numbers &found) noexcept {
        return code{hlr_part_new_destination(&handle_, s_id, sf_type, start_time, end_time, &found)};
    }
    code access_data(std::uint64_t s_id, std::uint64_t ai_type, access &row) noexcept {
        return code{hlr_part_access_data(&handle_, s_id, ai_type, &row)};
    }

    /* Calls that read many rows: they use the first count elements of each array. */
    code subscriber_data_many(const std::uint64_t *s_ids, subscriber *rows, code *codes, std::size_t count) noexcept {
        return code{hlr_part_subscriber_data_many(&handle_, s_ids, count, rows, count, detail::bytes(codes), count)};
    }
    code new_destination_many(const destination_asked *asked, numbers *found, code *codes, std::size_t count) noexcept {
        return code{hlr_part_new_destination_many(&handle_, asked, count, found, count, detail::bytes(codes), count)};
    }
    code access_data_many(const access_asked *asked, access *rows, code *codes, std::size_t count) noexcept {
        return code{hlr_part_access_data_many(&handle_, asked, count, rows, count, detail::bytes(codes), count)};
    }

    /* Calls that change rows. */
    code update_subscriber(std::uint64_t s_id, std::uint64_t sf_type, std::uint64_t bit_1, std::uint64_t data_a) noexcept {
        return code{hlr_part_update_subscriber(&handle_, s_id, sf_type, bit_1, data_a)};
    }
    code update_location(std::uint64_t s_id, std::uint64_t vlr_location) noexcept {
        return code{hlr_part_update_location(&handle_, s_id, vlr_location)};
    }
    code insert_forwarding(std::uint64_t s_id, std::uint64_t sf_type, std::uint64_t start_time, std::uint64_t end_time,
                           std::uint64_t numberx) noexcept {
        return code{hlr_part_insert_forwarding(&handle_, s_id, sf_type, start_time, end_time, numberx)};
    }
    code delete_forwarding(std::uint64_t s_id, std::uint64_t sf_type, std::uint64_t start_time) noexcept {
        return code{hlr_part_delete_forwarding(&handle_, s_id, sf_type, start_time)};
    }
    code set_active(std::uint64_t s_id, std::uint64_t sf_type, std::uint64_t is_active) noexcept {
        return code{hlr_part_set_active(&handle_, s_id, sf_type, is_active)};
    }
    code add_access(const access &row) noexcept { return code{hlr_part_add_access(&handle_, &row)}; }
    code add_facility(const facility &row) noexcept { return code{hlr_part_add_facility(&handle_, &row)}; }

    code post(std::uint64_t limit, std::uint64_t &posted) noexcept {
        return code{hlr_part_post(&handle_, limit, &posted)};
    }

private:
    /* Sends the part home, if there is one. */
    void leave() noexcept { hlr_home(&handle_); }

    hlr_part handle_ = HLR_CLOSED;
};

/* A register, which may have the file of a journal, or a closed handle. */
class store {
public:
    constexpr store() noexcept = default;
    ~store() { shut(); }

    store(const store &) = delete;
    store &operator=(const store &) = delete;

    store(store &&other) noexcept { take(other); }
    store &operator=(store &&other) noexcept {
        if (this != &other) {
            shut();
            take(other);
        }
        return *this;
    }

    /* Tells whether the store has a register: an open one tells how wide its zones are. */
    [[nodiscard]] bool is_open() noexcept {
        std::uint64_t width = 0;
        return hlr_width(&handle_, &width) == HLR_DONE;
    }

    /* Returns the handle, for calls of hlr.h. */
    [[nodiscard]] hlr *handle() noexcept { return &handle_; }

    code open(std::uint64_t parts, std::uint64_t width) noexcept { return code{hlr_open(parts, width, &handle_)}; }

    /* Opens the store with the rows of a journal, and makes the file if there is none (hlr_file_open). */
    code open(const char *path, std::uint64_t parts, std::uint64_t width) noexcept {
        return code{hlr_file_open(&file_, path, &handle_, parts, width)};
    }

    /* Closes the store (hlr_close). One that was opened with a path it syncs before (hlr_file_close). */
    code close() noexcept {
        return code{file_.name == nullptr ? hlr_close(&handle_) : hlr_file_close(&file_, &handle_)};
    }

    /* Calls that keep the rows in a file. A store that was opened with a path needs only the first three. */
    code sync() noexcept { return code{hlr_sync(&handle_)}; }
    code unsynced(std::uint64_t &bytes) noexcept { return code{hlr_unsynced(&handle_, &bytes)}; }
    code snapshot() noexcept { return code{hlr_file_snapshot(&file_, &handle_)}; }
    code snapshot(std::int32_t fd) noexcept { return code{hlr_snapshot(&handle_, fd)}; }
    code journal(std::int32_t fd, std::uint64_t parts, std::uint64_t width) noexcept {
        return code{hlr_journal(&handle_, fd, parts, width)};
    }
    code journal_end() noexcept { return code{hlr_journal_end(&handle_)}; }

    /* Calls that read. */
    code subscriber_data(std::uint64_t s_id, subscriber &row) noexcept {
        return code{hlr_subscriber_data(&handle_, s_id, &row)};
    }
    code new_destination(std::uint64_t s_id, std::uint64_t sf_type, std::uint64_t start_time, std::uint64_t end_time,
                         numbers &found) noexcept {
        return code{hlr_new_destination(&handle_, s_id, sf_type, start_time, end_time, &found)};
    }
    code access_data(std::uint64_t s_id, std::uint64_t ai_type, access &row) noexcept {
        return code{hlr_access_data(&handle_, s_id, ai_type, &row)};
    }

    code find(std::uint64_t sub_nbr, std::uint64_t &s_id) noexcept { return code{hlr_find(&handle_, sub_nbr, &s_id)}; }
    code facility_data(std::uint64_t s_id, std::uint64_t sf_type, facility &row) noexcept {
        return code{hlr_facility_data(&handle_, s_id, sf_type, &row)};
    }
    code forwarding(std::uint64_t s_id, std::uint64_t sf_type, std::uint64_t start_time, std::uint64_t &end_time,
                    std::uint64_t &numberx) noexcept {
        return code{hlr_forwarding(&handle_, s_id, sf_type, start_time, &end_time, &numberx)};
    }
    code next_subscriber(std::uint64_t from, subscriber &row) noexcept {
        return code{hlr_next_subscriber(&handle_, from, &row)};
    }

    /* Calls that list the rows of a table from a key on: they write at most room rows, and store how many in count. */
    code next_subscribers(std::uint64_t s_id, subscriber *rows, std::size_t room, std::uint64_t &count) noexcept {
        return code{hlr_next_subscribers(&handle_, s_id, rows, room, &count)};
    }
    code next_accesses(std::uint64_t s_id, std::uint64_t ai_type, access *rows, std::size_t room,
                       std::uint64_t &count) noexcept {
        return code{hlr_next_accesses(&handle_, s_id, ai_type, rows, room, &count)};
    }
    code next_facilities(std::uint64_t s_id, std::uint64_t sf_type, facility *rows, std::size_t room,
                         std::uint64_t &count) noexcept {
        return code{hlr_next_facilities(&handle_, s_id, sf_type, rows, room, &count)};
    }
    code next_forwardings(std::uint64_t s_id, std::uint64_t sf_type, std::uint64_t start_time, forwarding_row *rows,
                          std::size_t room, std::uint64_t &count) noexcept {
        return code{hlr_next_forwardings(&handle_, s_id, sf_type, start_time, rows, room, &count)};
    }

    /* Calls that read many rows: they use the first count elements of each array. */
    code subscriber_data_many(const std::uint64_t *s_ids, subscriber *rows, code *codes, std::size_t count) noexcept {
        return code{hlr_subscriber_data_many(&handle_, s_ids, count, rows, count, detail::bytes(codes), count)};
    }
    code new_destination_many(const destination_asked *asked, numbers *found, code *codes, std::size_t count) noexcept {
        return code{hlr_new_destination_many(&handle_, asked, count, found, count, detail::bytes(codes), count)};
    }
    code access_data_many(const access_asked *asked, access *rows, code *codes, std::size_t count) noexcept {
        return code{hlr_access_data_many(&handle_, asked, count, rows, count, detail::bytes(codes), count)};
    }

    /* Calls that change rows. */
    code update_subscriber(std::uint64_t s_id, std::uint64_t sf_type, std::uint64_t bit_1, std::uint64_t data_a) noexcept {
        return code{hlr_update_subscriber(&handle_, s_id, sf_type, bit_1, data_a)};
    }
    code update_location(std::uint64_t sub_nbr, std::uint64_t vlr_location) noexcept {
        return code{hlr_update_location(&handle_, sub_nbr, vlr_location)};
    }
    code insert_forwarding(std::uint64_t sub_nbr, std::uint64_t sf_type, std::uint64_t start_time, std::uint64_t end_time,
                           std::uint64_t numberx) noexcept {
        return code{hlr_insert_forwarding(&handle_, sub_nbr, sf_type, start_time, end_time, numberx)};
    }
    code delete_forwarding(std::uint64_t sub_nbr, std::uint64_t sf_type, std::uint64_t start_time) noexcept {
        return code{hlr_delete_forwarding(&handle_, sub_nbr, sf_type, start_time)};
    }
    code add_subscriber(const subscriber &row) noexcept { return code{hlr_add_subscriber(&handle_, &row)}; }
    code add_access(const access &row) noexcept { return code{hlr_add_access(&handle_, &row)}; }
    code add_facility(const facility &row) noexcept { return code{hlr_add_facility(&handle_, &row)}; }
    code set_active(std::uint64_t s_id, std::uint64_t sf_type, std::uint64_t is_active) noexcept {
        return code{hlr_set_active(&handle_, s_id, sf_type, is_active)};
    }
    code set_number(std::uint64_t s_id, std::uint64_t sub_nbr) noexcept {
        return code{hlr_set_number(&handle_, s_id, sub_nbr)};
    }

    /* Calls on the counts. */
    code post(std::uint64_t part, std::uint64_t limit, std::uint64_t &posted) noexcept {
        return code{hlr_post(&handle_, part, limit, &posted)};
    }
    code views(view &now) noexcept { return code{hlr_views(&handle_, now.published.data(), now.unposted.data())}; }
    code look(std::array<std::int64_t, cells> &published) noexcept {
        return code{hlr_look(&handle_, published.data())};
    }
    code scan(counts &found) noexcept { return code{hlr_scan(&handle_, found.data())}; }

    /* Calls that move, divide and dissolve parts. */
    code give(std::uint64_t part, side end, std::uint64_t at, region &given) noexcept {
        return code{hlr_give(&handle_, part, static_cast<std::uint64_t>(end), at, &given)};
    }
    code take(std::uint64_t piece, std::uint64_t part) noexcept { return code{hlr_take(&handle_, piece, part)}; }
    code divide(std::uint64_t part, std::uint64_t at, region &made) noexcept {
        return code{hlr_divide(&handle_, part, at, &made)};
    }
    code dissolve(std::uint64_t part, region &front) noexcept { return code{hlr_dissolve(&handle_, part, &front)}; }
    code regions(region_list &all) noexcept { return code{hlr_regions(&handle_, &all)}; }
    code width(std::uint64_t &zone_width) noexcept { return code{hlr_width(&handle_, &zone_width)}; }
    code propose(bounds &proposed) noexcept { return code{hlr_propose(&handle_, &proposed)}; }
    code recut(const bounds &wanted, std::uint64_t &moved) noexcept { return code{hlr_recut(&handle_, &wanted, &moved)}; }

    /* Calls that lend parts. */
    code lend(std::uint64_t number, part &lent) noexcept { return code{hlr_lend(&handle_, number, lent.handle())}; }
    code back(std::uint64_t number) noexcept { return code{hlr_back(&handle_, number)}; }

private:
    /* Closes the register and the file, if there are any. */
    void shut() noexcept { static_cast<void>(close()); }

    /* Takes what another store has, which is closed then. */
    void take(store &other) noexcept {
        handle_ = other.handle_;
        file_ = other.file_;
        other.handle_ = HLR_CLOSED;
        other.file_ = HLR_FILE_CLOSED;
    }

    hlr handle_ = HLR_CLOSED;
    hlr_file file_ = HLR_FILE_CLOSED;
};

} // namespace hlrpp

#endif

/* A day of traffic in C++: each call of hlr.hpp once, and a store that goes from hand to hand. It prints what it asked for,
 * and the name of the code that was answered. */
#include <hlr.hpp>

#include <cinttypes>
#include <cstdio>
#include <type_traits>
#include <utility>

using hlrpp::code;
using hlrpp::store;

static_assert(!std::is_copy_constructible_v<store> && !std::is_copy_assignable_v<store>);
static_assert(std::is_nothrow_move_constructible_v<store> && std::is_nothrow_move_assignable_v<store>);
static_assert(sizeof(store) == sizeof(hlr) + sizeof(hlr_file));

static void told(const char *asked, code answered) { std::printf("%s: %s\n", asked, hlrpp::name(answered)); }

/* Opens a store, and hands it out. */
static store opened(std::uint64_t parts, std::uint64_t width) {
    store made;
    told("open", made.open(parts, width));
    return made;
}

/* Two questions in one call, the second of which is refused. */
static void many(store &day) {
    const std::uint64_t s_ids[]{7, 8};
    const hlrpp::access_asked accesses[]{{7, 1}, {7, 2}};
    const hlrpp::destination_asked calls[]{{7, 2, 8, 9}, {7, 2, 8, 10}};
    hlrpp::subscriber rows[2]{};
    hlrpp::access found[2]{};
    hlrpp::numbers numbers[2]{};
    code codes[2]{};
    told("read 7 and 8", day.subscriber_data_many(s_ids, rows, codes, 2));
    std::printf("  %s, %" PRIu64 "; %s\n", hlrpp::name(codes[0]), rows[0].sub_nbr, hlrpp::name(codes[1]));
    told("read two accesses", day.access_data_many(accesses, found, codes, 2));
    std::printf("  %s, %" PRIu64 "; %s\n", hlrpp::name(codes[0]), found[0].data1, hlrpp::name(codes[1]));
    told("two calls", day.new_destination_many(calls, numbers, codes, 2));
    std::printf("  %s, %" PRIu64 "; %s\n", hlrpp::name(codes[0]), numbers[0].numbers[0], hlrpp::name(codes[1]));
}

static void views(store &day) {
    hlrpp::view now{};
    told("views", day.views(now));
    for (std::size_t cell = 0; cell < hlrpp::cells; cell++)
        if (now.published[cell] != 0 || now.unposted[cell] != 0)
            std::printf("  cell %zu: %" PRId64 ", %" PRId64 "\n", cell, now.published[cell], now.unposted[cell]);
}

/* A part goes from hand to hand, and home as it goes out of scope. */
static void lent(store &day, hlrpp::subscriber &row) {
    {
        hlrpp::part owner;
        told("lend", day.lend(0, owner));
        hlrpp::part next = std::move(owner);
        owner = std::move(next);
        told("read 7 of its part", owner.subscriber_data(7, row));
        told("read 7 while it is out", day.subscriber_data(7, row));
        told("back too early", day.back(0));
    }
    told("back", day.back(0));
    told("read 7", day.subscriber_data(7, row));
}

int main() {
    store day = opened(2, 4);
    told("open again", day.open(2, 4));

    hlrpp::subscriber seven{};
    seven.s_id = seven.sub_nbr = 7;
    seven.msc_location = 1;
    seven.vlr_location = 268435456;
    told("add 7", day.add_subscriber(seven));
    told("add 7 again", day.add_subscriber(seven));
    told("add an access", day.add_access({7, 1, 255, 4, {'A', 'B', 'C'}, {'V', 'W', 'X', 'Y', 'Z'}}));
    told("add a facility", day.add_facility({7, 2, 1, 0, 0, {'A', 'B', 'C', 'D', 'E'}}));
    told("forward 7", day.insert_forwarding(7, 2, 8, 10, 100));
    told("number 77 for 7", day.set_number(7, 77));
    told("move 77", day.update_location(77, 536870912));
    told("update 7", day.update_subscriber(7, 2, 1, 9));

    hlrpp::subscriber row{};
    told("read 7", day.subscriber_data(7, row));
    std::printf("  number %" PRIu64 ", bit %d, at %" PRIu64 "\n", row.sub_nbr, row.bits[0], row.vlr_location);
    told("read 8", day.subscriber_data(8, row));
    hlrpp::access access{};
    told("read an access", day.access_data(7, 1, access));
    std::printf("  %" PRIu64 ", %" PRIu64 ", %.3s, %.5s\n", access.data1, access.data2, access.data3, access.data4);
    hlrpp::numbers numbers{};
    told("a call", day.new_destination(7, 2, 8, 9, numbers));
    std::printf("  %" PRIu64 " number, %" PRIu64 "\n", numbers.count, numbers.numbers[0]);
    many(day);
    std::uint64_t found = 0, end_time = 0, numberx = 0;
    told("find 77", day.find(77, found));
    std::printf("  %" PRIu64 "\n", found);
    hlrpp::facility facility{};
    told("read a facility", day.facility_data(7, 2, facility));
    std::printf("  %" PRIu64 ", %" PRIu64 ", %" PRIu64 ", %.5s\n", facility.is_active, facility.error_cntrl, facility.data_a, facility.data_b);
    told("read a forwarding", day.forwarding(7, 2, 8, end_time, numberx));
    std::printf("  to %" PRIu64 ", %" PRIu64 "\n", end_time, numberx);
    told("from 1 on", day.next_subscriber(1, row));
    told("from 8 on", day.next_subscriber(row.s_id + 1, row));
    std::printf("  number %" PRIu64 "\n", row.sub_nbr);
    views(day);

    std::uint64_t count = 0;
    told("switch it off", day.set_active(7, 2, 0));
    told("switch it to 2", day.set_active(7, 2, 2));
    told("forward 77 no more", day.delete_forwarding(77, 2, 8));
    told("post", day.post(0, hlrpp::cells, count));
    std::printf("  %" PRIu64 " cells\n", count);
    views(day);
    hlrpp::counts counted{};
    told("scan", day.scan(counted));
    std::printf("  cell 26: %" PRIu64 "\n", counted[26]);

    hlrpp::region region{};
    told("give from 5 on", day.give(0, hlrpp::side::high, 5, region));
    std::printf("  piece %" PRIu64 " from %" PRIu64 "\n", region.number, region.lo);
    told("read 7 on its way", day.subscriber_data(7, row));
    told("take", day.take(region.number, 1));
    told("give below 6", day.give(1, hlrpp::side::low, 6, region));
    told("take", day.take(region.number, 0));
    hlrpp::bounds bounds{};
    told("propose", day.propose(bounds));
    std::printf("  %" PRIu64 " bound\n", bounds.count);
    bounds.bounds[0] = 10;
    told("recut", day.recut(bounds, count));
    std::printf("  %" PRIu64 " moved\n", count);
    told("divide", day.divide(1, 70, region));
    hlrpp::region_list regions{};
    told("regions", day.regions(regions));
    for (std::uint64_t i = 0; i < regions.count; i++)
        std::printf("  part %" PRIu64 " from %" PRIu64 "\n", regions.regions[i].number, regions.regions[i].lo);
    told("dissolve", day.dissolve(2, region));

    lent(day, row);

    store other = std::move(day);
    std::printf("day is %s, other is %s\n", day.is_open() ? "open" : "closed", other.is_open() ? "open" : "closed");
    told("read 7 of day", day.subscriber_data(7, row));
    told("read 7 of other", other.subscriber_data(7, row));
    day = opened(1, 1);
    told("read 7 of day", day.subscriber_data(7, row));
    day = std::move(other);
    told("read 7 of day", day.subscriber_data(7, row));
    told("close other", other.close());
    std::swap(day, other);
    told("read 7 of other", other.subscriber_data(7, row));
    std::printf("hlr_close of other: %d\n", hlr_close(other.handle()));
    day = opened(1, 1);
    return 0;
}

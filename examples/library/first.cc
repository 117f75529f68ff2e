/* Adds a subscriber, lends its part, and moves it there. The part goes home and the store closes as they go out of scope. */
#include <cstdio>
#include <hlr.hpp>

using hlrpp::code;

int main() {
    hlrpp::store store;
    hlrpp::subscriber row{7, 49151000007, {}, {}, {}, 1, hlrpp::area_width};
    if (store.open(1, 524288) != code::done || store.add_subscriber(row) != code::done) return 1;
    {
        hlrpp::part part;
        if (store.lend(0, part) != code::done || part.update_location(7, 2 * hlrpp::area_width) != code::done) return 1;
        std::printf("while the part is lent: %s\n", hlrpp::name(store.subscriber_data(7, row)));
    }
    if (store.back(0) != code::done || store.subscriber_data(7, row) != code::done) return 1;
    std::printf("back again: location %lu\n", static_cast<unsigned long>(row.vlr_location));
}

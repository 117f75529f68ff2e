/* Keeps a register in the file hlr.journal, as kept.c does: each run moves subscriber 7 on. */
#include <cinttypes>
#include <cstdio>
#include <hlr.hpp>

using hlrpp::code;

int main() {
    hlrpp::store store;
    hlrpp::subscriber row{7, 49151000007, {}, {}, {}, 1, 1};
    code done = store.open("hlr.journal", 1, 524288);
    if (done == code::done && store.subscriber_data(7, row) == code::done) {
        done = store.update_location(row.sub_nbr, ++row.vlr_location);
    } else if (done == code::done) {
        done = store.add_subscriber(row);
    }
    if (done == code::done) done = store.sync();
    std::printf("%s: the location is %" PRIu64 "\n", hlrpp::name(done), row.vlr_location);
    return store.close() != code::done;
}

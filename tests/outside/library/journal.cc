/* The calls of hlr.hpp with a journal, each once, and a store with a file that goes from hand to hand. It works in a
 * folder that is passed, and prints what it asked for, and the name of the code that was returned. */
#include <hlr.hpp>

#include <cinttypes>
#include <cstdio>
#include <fcntl.h>
#include <unistd.h>
#include <utility>

using hlrpp::code;
using hlrpp::store;

static void told(const char *asked, code returned) { std::printf("%s: %s\n", asked, hlrpp::name(returned)); }

static code add(store &to, std::uint64_t s_id) { return to.add_subscriber({s_id, s_id, {}, {}, {}, 1, 1}); }

static void count(store &of) {
    std::uint64_t bytes = 0;
    told("unsynced", of.unsynced(bytes));
    std::printf("  %" PRIu64 "\n", bytes);
}

/* A store that was opened with a path is moved, and syncs as it goes out of scope. */
static void named() {
    store first;
    told("sync of a closed store", first.sync());
    told("open", first.open("rows", 1, 4));
    told("open again", first.open("rows", 1, 4));
    told("add 1", add(first, 1));
    count(first);
    told("sync", first.sync());
    count(first);
    store second = std::move(first);
    told("sync of what was moved", first.sync());
    told("a second store", first.open("rows", 1, 4));
    told("add 2", add(second, 2));
    told("snapshot", second.snapshot());
    hlrpp::part part;
    told("lend", second.lend(0, part));
    told("add 3", add(second, 3));
    second = store{};
    told("open what went out of scope", second.open("rows", 1, 4));
    hlrpp::subscriber row{};
    told("read 3", second.subscriber_data(3, row));
    told("add 4", add(second, 4));
    told("close", second.close());
    told("close again", second.close());
    std::printf("open: %d\n", second.is_open());
}

/* A journal in the file of a descriptor. */
static void described() {
    const int rows = open("rows", O_RDWR), empty = open("empty", O_RDWR | O_CREAT, 0644);
    store one;
    told("journal", one.journal(rows, 1, 4));
    hlrpp::subscriber row{};
    told("read 4", one.subscriber_data(4, row));
    told("snapshot without a file", one.snapshot());
    told("snapshot to the same file", one.snapshot(rows));
    told("snapshot", one.snapshot(empty));
    told("end", one.journal_end());
    told("end again", one.journal_end());
    told("close", one.close());
    close(rows);
    close(empty);
}

int main(int argc, char **words) {
    if (argc != 2 || chdir(words[1]) != 0) return 2;
    named();
    described();
}

// The stack that each entry uses: the call runs on a thread whose stack was painted; the bytes no longer painted, less those of a thread that does
// nothing.
#include "hostile.h"
#include "measure.h"
#include "sets.h"
#include <cstring>
#include <functional>
#include <pthread.h>
#include <sys/mman.h>

static const size_t STACK = 1 << 20;

static void *on_thread(void *call) {
    (*static_cast<std::function<void()> *>(call))();
    return nullptr;
}

static size_t touched(std::function<void()> call) {
    uint8_t *stack = static_cast<uint8_t *>(mmap(nullptr, STACK, PROT_READ | PROT_WRITE, MAP_PRIVATE | MAP_ANONYMOUS, -1, 0));
    if (stack == MAP_FAILED) abort();
    memset(stack, 0xa5, STACK);
    pthread_attr_t attributes;
    pthread_t thread;
    pthread_attr_init(&attributes);
    if (pthread_attr_setstack(&attributes, stack, STACK) || pthread_create(&thread, &attributes, on_thread, &call) || pthread_join(thread, nullptr)) abort();
    size_t low = 0;
    while (low < STACK && stack[low] == 0xa5) low++;
    munmap(stack, STACK);
    return STACK - low;
}

// The most that each call uses, over a set.
struct Most {
    std::vector<std::pair<const char *, size_t>> calls;
    const size_t empty = touched([] {});

    void call(const char *name, std::function<void()> f) {
        f();                               // once before, so that the linker's work is not counted
        size_t use = touched(f) - empty;
        for (auto &c : calls) if (!strcmp(c.first, name)) {
            c.second = std::max(c.second, use);
            return;
        }
        calls.push_back({name, use});
    }
};

int main() {
    Most most;
    std::vector<Book> set = books(42, 3, 20);
    set.push_back(level_book(28, 8));
    for (const Book &b : books(42, 3, 5, 28, 50)) set.push_back(b);       // with entries that end elsewhere
    for (const Book &b : set) {
        LentBook book(b);
        std::vector<uint8_t> to(book.way.size());
        most.call("`desk_first`", [&] { book.first(); });
        most.call("`desk_next`", [&] { book.next(to); });
        most.call("`desk_count`", [&] { book.count(100); });
        most.call("`desk_listing`", [&] { book.list(); });
        most.call("`desk_spare`", [&] { book.spare(1, 2); });
        most.call("`desk_sheets_room`", [&] { book.sheets_room(); });
        most.call("`desk_sheets`", [&] { book.write_sheets(); });
        most.call("`desk_name`", [&] { book.name(); });
        most.call("`desk_name_refusal`", [&] { book.questions(); });
    }
    std::vector<Network> all = hostile_networks();
    for (auto &some : {networks(set), random_networks(64, 512, 1000000, 5), random_networks(64, 512, 3, 5)}) all.insert(all.end(), some.begin(), some.end());
    for (const Network &n : all) {
        LentNetwork net(n);
        std::vector<uint8_t> to(net.flows.size());
        most.call("`desk_network_first`", [&] { net.first(); });
        most.call("`desk_network_first_priced`", [&] { net.first_priced(); });
        most.call("`desk_network_next`", [&] { net.next(to); });
        most.call("`desk_network_prices`", [&] { net.prices_of_flow(net.prices); });
        most.call("`desk_network_count`", [&] { net.count(100); });
    }
    printf("### Stack: the most of each entry, over %zu books and %zu networks\n\n", set.size(), all.size());
    Table table({"entry", "bytes"});
    for (auto &c : most.calls) table.row({c.first, whole(double(c.second))});
}

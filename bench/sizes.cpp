// How the costs grow: with the entries of a book, its bytes and the items listed, and with the nodes and arcs of a network.
#include "lemon.h"
#include "sets.h"

// The median time of next with the item given, over the first 20 items of each list; nothing where no list has a second item.
template <class Lent> static std::vector<double> next_times(Lent &lent, std::vector<uint8_t> &item) {
    std::vector<double> times;
    std::vector<uint8_t> to(item.size());
    if (lent.first().code != DESK_OK) return times;
    while (times.size() < 20 && lent.next(to).code == DESK_OK) {
        times.push_back(time_of([&] { lent.next(to); }, 200));
        item = to;
    }
    return times;
}

// The items as far as 1,000, and count less first, by item; the last item's "end" counts as an item.
struct Items { double many, time; };

template <class Lent> static Items items(Lent &lent) {
    desk_reply r = lent.count(1000);
    double many = r.code == DESK_MORE ? 1000 : double(r.value);
    return {many, many ? (time_of([&] { lent.count(1000); }) - time_of([&] { lent.count(0); })) / many : 0};
}

static void add(std::vector<double> &to, const std::vector<double> &from) { to.insert(to.end(), from.begin(), from.end()); }

static void by_entries() {
    printf("### By entries\n\nBooks of which an item or way is measured have at least 4 ways.\n\n");
    Table table({"entries", "arcs", "bytes", "`desk_first`", "`desk_next`", "count, an item", "listing less first, a way", "first of its network", "LEMON", "network / LEMON"});
    for (int e : {4, 8, 12, 16, 20, 24, 28}) {
        std::vector<double> arcs, bytes, first, next, item, way, flow, lemon, ratio;
        for (int bars : {e * 3 / 2, e / 2})
            for (const Book &b : books(bars, 3, 30, e)) {
                LentBook book(b);
                Network n = network_of(b);
                LentNetwork net(n);
                agree_with_lemon(n, book.first());
                arcs.push_back(double(n.arcs.size()));
                bytes.push_back(double(book.text.size()));
                first.push_back(time_of([&] { book.first(); }));
                flow.push_back(time_of([&] { net.first(); }));
                lemon.push_back(lemon_time(n));
                ratio.push_back(flow.back() / lemon.back());
                add(next, next_times(book, book.way));
                if (Items l = items(book); l.many >= 4) {
                    item.push_back(l.time);
                    way.push_back((time_of([&] { book.list(); }) - time_of([&] { book.count(0); })) / l.many);
                }
            }
        table.row({whole(e), whole(median(arcs)), whole(median(bytes)), shown(median(first)), middle(next), middle(item), middle(way), shown(median(flow)), lemon_shown(median(lemon)),
            lemon_shown(median(ratio))});
    }
}

static void by_arcs() {
    printf("### By nodes and arcs: random networks, costs -3 to 3\n\n");
    Table table({"nodes", "arcs", "first", "LEMON", "first / LEMON", "next, the list given", "count, an item"});
    for (int nodes : {8, 16, 32, 64})
        for (int arcs : {32, 64, 128, 256, 512}) {
            std::vector<double> first, lemon, ratio, next, item;
            for (const Network &n : random_networks(nodes, arcs, 3, 15)) {
                LentNetwork net(n);
                agree_with_lemon(n, net.first());
                first.push_back(time_of([&] { net.first(); }, 10000));
                lemon.push_back(lemon_time(n));
                ratio.push_back(first.back() / lemon.back());
                add(next, next_times(net, net.flows));
                if (Items l = items(net); l.many >= 4) item.push_back(l.time);
            }
            table.row({whole(nodes), whole(arcs), shown(median(first)), lemon_shown(median(lemon)), lemon_shown(median(ratio)), middle(next), middle(item)});
        }
}

static void by_lines() {
    printf("### By items: count of 28-entry books with more than 65,535 ways\n\n");
    std::vector<Book> set;
    for (auto &s : long_movements()) set.insert(set.end(), s.books.begin(), s.books.end());
    Table table({"items", "count, whole call", "less first, an item"});
    for (int cap : {0, 1, 10, 100, 1000, 10000, 65535}) {
        std::vector<double> all, item;
        for (const Book &b : set) {
            LentBook book(b);
            all.push_back(time_of([&] { book.count(uint16_t(cap)); }));
            if (cap) item.push_back((all.back() - time_of([&] { book.count(0); })) / cap);
        }
        table.row({whole(cap), shown(median(all)), middle(item)});
    }
}

// Entries beyond the 28th are read like the others.
static void by_bytes() {
    printf("### By bytes: the questions of a book\n\n");
    Table table({"bytes", "entries alone (16 from the 29th on)", "ns a byte", "moves, each pair once, and entries", "ns a byte"});
    const std::string entry = "(entry (name timpani) 3 38400 39168)\n";
    for (int kilobytes : {1, 2, 4, 8, 16}) {
        const size_t room = size_t(kilobytes) * 1024;
        auto filled = [&](int moves) {
            std::string text = "(book\n(players 8)\n(fee 120)\n";
            for (int k = 0; k < moves && text.size() + 32 < room; k++) text += "(move " + std::to_string(k / 16 + 1) + " " + std::to_string(k % 16 + 1) + " 48 25)\n";
            while (text.size() + entry.size() + 2 <= room) text += entry;
            return text + ")\n";
        };
        std::vector<std::string> cells = {whole(double(room))};
        for (int moves : {0, 256}) {
            LentBook book(filled(moves));
            double t = time_of([&] { book.questions(); });
            cells.push_back(shown(t));
            cells.push_back(shown(1000 * t / double(book.text.size())));
        }
        table.row(cells);
    }
}

int main() {
    by_entries();
    by_arcs();
    by_lines();
    by_bytes();
    return verdict();
}

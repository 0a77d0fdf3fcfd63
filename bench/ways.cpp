// The desk on books of 28 entries: first, next, count, the listing, the spares, the part sheets, the questions. Beside each stands the flow engine on the book's
// network, so that the difference is what a book costs.
#include "lent.h"
#include "measure.h"
#include "sets.h"

static void agree(const char *what, desk_reply way, desk_reply flow) {
    if (way.code == flow.code && way.value == flow.value) return;
    wrong++;
    printf("DIFFERENT, %s: the book %u %lld, its network %u %lld\n", what, way.code, (long long)way.value, flow.code, (long long)flow.value);
}

static void first(Table &table, const Named &set) {
    std::vector<double> times, flows, questions;
    for (const Book &b : set.books) {
        LentBook book(b);
        LentNetwork net(network_of(b));
        agree("first", book.first(), net.first());
        times.push_back(time_of([&] { book.first(); }));
        flows.push_back(time_of([&] { net.first(); }));
        questions.push_back(time_of([&] { book.questions(); }));
    }
    table.row({set.what, whole(double(set.books.size())), shown(median(times)), shown(largest(times)), shown(median(flows)), shown(median(questions))});
}

// Next from outside, which tests that the given list is a least-cost way: the first 50 items of each list.
static void next(Table &table, const Named &set) {
    std::vector<double> times, ends, flows;
    for (const Book &b : set.books) {
        LentBook book(b);
        LentNetwork net(network_of(b));
        agree("first", book.first(), net.first());
        std::vector<uint8_t> to(book.way.size()), flow(net.flows.size());
        for (int k = 0; k < 50; k++) {
            desk_reply r = book.next(to);
            agree("next", r, net.next(flow));
            double t = time_of([&] { book.next(to); }, 100);
            if (r.code != DESK_OK) {
                ends.push_back(t);
                break;
            }
            times.push_back(t);
            flows.push_back(time_of([&] { net.next(flow); }, 100));
            book.way = to;
            net.flows = flow;
        }
    }
    table.row({set.what, whole(double(times.size())), shown(median(times)), shown(largest(times)), shown(median(flows)), whole(double(ends.size())), shown(median(ends))});
}

// Count less first, by item, and the listing of 1,000 ways.
static void long_lists_of(Table &table, const Named &set) {
    const int caps[] = {1000, 65535};
    std::vector<double> by_cap[2], all, listings, lengths;
    for (const Book &b : set.books) {
        LentBook book(b);
        LentNetwork net(network_of(b));
        agree("count", book.count(65535), net.count(65535));
        double start = time_of([&] { book.count(0); });
        for (int k = 0; k < 2; k++) {
            double t = time_of([&] { book.count(uint16_t(caps[k])); });
            by_cap[k].push_back((t - start) / caps[k]);
            if (k == 1) all.push_back(t / 1000);
        }
        if (book.last_line() != "(more 1000)\n") {
            wrong++;
            printf("DIFFERENT, listing: it ends in %s", book.last_line().c_str());
        }
        lengths.push_back(double(book.list().value));
        listings.push_back(time_of([&] { book.list(); }));
    }
    table.row({set.what, whole(double(set.books.size())), shown(median(by_cap[0])), shown(median(by_cap[1])), shown(median(all)), shown(median(listings) / 1000),
        whole(median(lengths))});
}

// The spare of an entry and the next one, of each in turn, beside the questions alone. A later entry may follow an earlier one exactly if their spare is 0 or more.
static void spares(Table &table, const Named &set) {
    std::vector<double> times, questions;
    size_t pairs = 0, follow = 0;
    for (const Book &b : set.books) {
        LentBook book(b);
        const int e = int(b.entries.size());
        for (int i = 1; i <= e; i++)
            for (int j = 1; j <= e; j++) {
                desk_reply r = book.spare(uint32_t(i), uint32_t(j));
                bool may = r.code == DESK_OK && r.value >= 0;
                pairs++;
                follow += may;
                if ((r.code == DESK_OK || r.code == DESK_NO_MOVE) && may == (b.join(i, j) >= 0)) continue;
                wrong++;
                printf("DIFFERENT, spare of %d and %d: %u %lld, and the join costs %d\n", i, j, r.code, (long long)r.value, b.join(i, j));
            }
        times.push_back(time_of([&] { for (int i = 1; i < e; i++) book.spare(uint32_t(i), uint32_t(i + 1)); }) / (e - 1));
        questions.push_back(time_of([&] { book.questions(); }));
    }
    table.row({set.what, whole(double(set.books.size())), shown(median(times)), shown(largest(times)), shown(median(questions)), whole(double(pairs)), whole(double(follow))});
}

// The sheets of the first way, and their room, beside next with the same way given, which tests that way too. The sheets have a line for each entry, and take
// exactly the room: a list of that length is long enough, and one that is a byte shorter is not.
static void sheets(Table &table, const Named &set) {
    std::vector<double> rooms, times, exact, nexts, lengths;
    for (const Book &b : set.books) {
        LentBook book(b);
        book.first();
        desk_reply room = book.sheets_room(), r = book.write_sheets();
        std::string text(book.sheets.begin(), book.sheets.begin() + r.value);
        size_t plays = 0;
        for (size_t at = text.find("(play "); at != std::string::npos; at = text.find("(play ", at + 1)) plays++;
        if (room.code != DESK_OK || r.code != DESK_OK || r.value != room.value || plays != b.entries.size()) {
            wrong++;
            printf("DIFFERENT, sheets: %u %lld, %zu entries, room %u %lld\n", r.code, (long long)r.value, plays, room.code, (long long)room.value);
            continue;
        }
        const size_t length = size_t(r.value);
        desk_reply to_the_byte = book.write_sheets(length), shorter = book.write_sheets(length - 1);
        if (to_the_byte.code != DESK_OK || to_the_byte.value != r.value || shorter.code != 21) {
            wrong++;
            printf("DIFFERENT, sheets lent their room: %u %lld, a byte less: %u\n", to_the_byte.code, (long long)to_the_byte.value, shorter.code);
        }
        std::vector<uint8_t> to(book.way.size());
        rooms.push_back(time_of([&] { book.sheets_room(); }));
        times.push_back(time_of([&] { book.write_sheets(); }));
        exact.push_back(time_of([&] { book.write_sheets(length); }));
        nexts.push_back(time_of([&] { book.next(to); }));
        lengths.push_back(double(r.value));
    }
    table.row({set.what, whole(double(set.books.size())), shown(median(rooms)), shown(median(times)), shown(largest(times)), shown(median(exact)), shown(median(nexts)),
        whole(median(lengths))});
}

// Books that are long to read: the longest that is accepted, and 16,384 bytes of entries and of moves.
static void questions() {
    const std::string head = "(book\n(players 8)\n(fee 1000000)\n", end = ")\n", word(16, 'z');
    auto move = [](int a, int b, const std::string &rest) { return "(move " + std::to_string(a) + " " + std::to_string(b) + " " + rest + ")\n"; };
    auto entry = [](const std::string &name, const std::string &rest) { return "(entry (name " + name + ") " + rest + ")\n"; };
    auto filled = [&](auto line) {
        std::string text = head;
        for (int k = 0; text.size() + line(k).size() + end.size() <= 16384; k++) text += line(k);
        return text + end;
    };
    auto pair = [&](int k, const std::string &rest) { return move(k / 16 % 16 + 1, k % 16 + 1, rest); };
    std::string accepted = head;
    for (int k = 0; k < 256; k++) accepted += pair(k, "1000000 1000000");
    for (int k = 0; k < 28; k++) accepted += entry(word, "15 16 999999 1000000");
    accepted += end;
    const struct { const char *what; std::string text; uint32_t number; } all[] = {
        {"the longest that is accepted", accepted, 0}, {"entries, as many as fit", filled([&](int) { return entry("a", "1 0 1"); }), 16},
        {"moves of one pair", filled([&](int) { return move(1, 2, "0 0"); }), 14}, {"moves of all pairs in turn", filled([&](int k) { return pair(k, "1 1"); }), 14},
        {"no brackets", std::string(16384, 'x'), 12}, {"a byte too many", std::string(16385, 'x'), 11}};
    Table table({"book", "bytes", "answer", "time"});
    for (auto &a : all) {
        LentBook book(a.text);
        if (book.questions() != a.number) {
            wrong++;
            printf("DIFFERENT, questions: %u, and not %u\n", book.questions(), a.number);
        }
        table.row({a.what, whole(double(a.text.size())), whole(a.number), shown(time_of([&] { book.questions(); }))});
    }
}

int main() {
    const std::vector<Named> sets = movements(100);
    {
        printf("### First, of a book\n\n");
        Table table({"books", "how many", "`desk_first`", "at most", "first of its network", "the questions alone"});
        for (auto &s : sets) first(table, s);
    }
    {
        printf("### Next, of a book, the way given\n\n");
        Table table({"books", "items", "`desk_next`", "at most", "next of its network", "\"end\" met", "\"end\""});
        for (auto &s : sets) next(table, s);
    }
    {
        printf("### With the state kept: count less first, by item, and the listing\n\n");
        Table table({"books with more than 65,535 ways", "how many", "an item to cap 1,000", "65,535", "count to 65,535, ms", "listing of 1,000 ways, ms", "its bytes"});
        for (auto &s : long_movements()) long_lists_of(table, s);
    }
    {
        printf("### The spare of two entries\n\n");
        Table table({"books", "how many", "`desk_spare`", "at most", "the questions alone", "pairs tried", "may follow"});
        for (auto &s : sets) spares(table, s);
    }
    {
        printf("### Part sheets, of the first way\n\n");
        Table table({"books", "how many", "`desk_sheets_room`", "`desk_sheets`", "at most", "the same, lent exactly its length", "`desk_next`, the same way given", "bytes of the sheets"});
        for (auto &s : sets) sheets(table, s);
    }
    printf("### The questions\n\n");
    questions();
    return verdict();
}

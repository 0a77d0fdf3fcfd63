// The flow engine beside LEMON's network simplex: first, next, count, hostile networks.
#include "hostile.h"
#include "lemon.h"
#include "sets.h"

struct Times { double first, lemon; };

static Times time_first(const Network &n) {
    LentNetwork lent(n);
    agree_with_lemon(n, lent.first());
    return {time_of([&] { lent.first(); }), lemon_time(n)};
}

static void first(Table &table, const char *what, const std::vector<Network> &set) {
    std::vector<double> library, priced, lemon, building, ratio, arcs;
    int above = 0;
    for (const Network &n : set) {
        LentNetwork lent(n);
        Times t = time_first(n);
        library.push_back(t.first);
        priced.push_back(time_of([&] { lent.first_priced(); }));
        lemon.push_back(t.lemon);
        building.push_back(time_of([&] { Lemon(n).run(); }));
        ratio.push_back(t.first / t.lemon);
        above += ratio.back() > 2;
        arcs.push_back(double(n.arcs.size()));
    }
    table.row({what, whole(double(set.size())), whole(median(arcs)), shown(median(library)), shown(median(priced)), lemon_shown(median(lemon)), lemon_shown(median(building)),
        lemon_shown(median(ratio)), lemon_shown(largest(ratio)), Lemon::installed ? whole(above) : "none"});
}

// Next from outside, which tests that the given list is a least-cost flow: the first 50 items of each list.
static void next(Table &table, const char *what, const std::vector<Network> &set) {
    std::vector<double> times, ends, beside;
    for (const Network &n : set) {
        LentNetwork lent(n);
        if (lent.first().code != DESK_OK) continue;
        double solve = lemon_time(n);
        std::vector<uint8_t> to(lent.flows.size());
        for (int k = 0; k < 50; k++) {
            desk_reply r = lent.next(to);
            double t = time_of([&] { lent.next(to); }, 100);
            if (r.code != DESK_OK) {
                ends.push_back(t);
                break;
            }
            times.push_back(t);
            beside.push_back(t / solve);
            lent.flows = to;
        }
    }
    table.row({what, whole(double(times.size())), middle(times), times.empty() ? "" : shown(largest(times)), times.empty() ? "" : lemon_shown(median(beside)), whole(double(ends.size())), middle(ends)});
}

// The prices of a flow given, of the first 50 items of each list: they are those of the first, and its cost too. Beside them next of the same item,
// and first with prices, which finds the flow itself.
static void prices(Table &table, const char *what, const std::vector<Network> &set) {
    std::vector<double> times, steps, found;
    for (const Network &n : set) {
        LentNetwork lent(n);
        const desk_reply first = lent.first_priced();
        if (first.code != DESK_OK) continue;
        found.push_back(time_of([&] { lent.first_priced(); }));
        std::vector<uint8_t> priced(lent.prices.size()), to(lent.flows.size());
        for (int k = 0; k < 50; k++) {
            const desk_reply r = lent.prices_of_flow(priced);
            wrong += r.code != DESK_OK || r.value != first.value || priced != lent.prices;
            times.push_back(time_of([&] { lent.prices_of_flow(priced); }, 100));
            steps.push_back(time_of([&] { lent.next(to); }, 100));
            if (lent.next(to).code != DESK_OK) break;
            lent.flows = to;
        }
    }
    table.row({what, whole(double(times.size())), middle(times), shown(largest(times)), middle(steps), middle(found)});
}

// Count less first, by item.
static double item_time(LentNetwork &lent, int cap) {
    double start = time_of([&] { lent.count(0); });
    return (time_of([&] { lent.count(uint16_t(cap)); }) - start) / cap;
}

static void count(Table &table, const char *what, const std::vector<Network> &set) {
    const int caps[] = {1000, 65535};
    std::vector<double> by_cap[2], beside;
    for (const Network &n : set) {
        LentNetwork lent(n);
        for (int k = 0; k < 2; k++) by_cap[k].push_back(item_time(lent, caps[k]));
        beside.push_back(by_cap[1].back() / lemon_time(n));
    }
    table.row({what, whole(double(set.size())), shown(median(by_cap[0])), shown(median(by_cap[1])), lemon_shown(median(beside))});
}

// The items of a hostile network, as far as 1,000.
static void long_count(Table &table, const Network &n) {
    LentNetwork lent(n);
    double item = item_time(lent, 1000);
    table.row({n.name, "1", shown(item), "", lemon_shown(item / lemon_time(n))});
}

static void hostile() {
    std::vector<Network> set = hostile_networks();
    std::vector<std::pair<Times, const Network *>> all;
    std::vector<double> ratio;
    for (const Network &n : set) {
        all.push_back({time_first(n), &n});
        ratio.push_back(all.back().first.first / all.back().first.lemon);
    }
    std::sort(all.begin(), all.end(), [](auto &x, auto &y) { return x.first.first > y.first.first; });
    printf("%zu networks; library / LEMON: median %s, at most %s. The longest:\n\n", set.size(), lemon_shown(median(ratio)).c_str(), lemon_shown(largest(ratio)).c_str());
    Table table({"network", "nodes", "arcs", "library", "LEMON", "library / LEMON"});
    for (size_t k = 0; k < 8; k++) {
        const Times &t = all[k].first;
        const Network &n = *all[k].second;
        table.row({n.name, whole(double(n.balances.size())), whole(double(n.arcs.size())), shown(t.first), lemon_shown(t.lemon), lemon_shown(t.first / t.lemon)});
    }
}

int main() {
    const std::vector<Named> sets = movements(100), lists = long_movements();
    const std::vector<Network> random = random_networks(64, 512, 1000000, 50), few = random_networks(64, 512, 3, 50);
    if (!Lemon::installed) printf("LEMON is not installed, and left out.\n\n");
    {
        printf("### First, of a network\n\n");
        Table table({"networks", "how many", "arcs", "library", "with prices", "LEMON", "its graph built too", "library / LEMON", "at most", "above 2"});
        for (auto &s : sets) first(table, s.what, networks(s.books));
        first(table, "random, 64 nodes", random);
        first(table, "random, 64 nodes, costs -3 to 3", few);
    }
    {
        printf("### Next, of a network, the list given\n\n");
        Table table({"networks", "items", "an item", "at most", "to LEMON's whole solve", "\"end\" met", "\"end\""});
        for (auto &s : sets) next(table, s.what, networks(s.books));
        next(table, "random, 64 nodes", random);
        next(table, "random, 64 nodes, costs -3 to 3", few);
    }
    {
        printf("### Prices, the flow given\n\n");
        Table table({"networks", "flows given", "`desk_network_prices`", "at most", "next of the same flow", "first, with prices"});
        for (auto &s : sets) prices(table, s.what, networks(s.books));
        prices(table, "random, 64 nodes", random);
        prices(table, "random, 64 nodes, costs -3 to 3", few);
    }
    {
        printf("### Next with the state kept: count of a network, less first, by item\n\n");
        Table table({"networks with more than 65,535 items", "how many", "to cap 1,000", "65,535", "to LEMON's whole solve"});
        for (auto &s : lists) count(table, s.what, networks(s.books));
        count(table, "random, 64 nodes, costs -3 to 3", {few.begin(), few.begin() + 5});
        for (bool full : {false, true}) long_count(table, long_lists(full));
    }
    printf("### Hostile networks, first\n\n");
    hostile();
    return verdict();
}

// Networks to measure with: those of books, and random ones.
#pragma once
#include "books.h"

struct Arc { int tail, head, low, up, cost; };

struct Network {
    std::string name;
    std::vector<int> balances;
    std::vector<Arc> arcs;

    void add(int tail, int head, int low, int up, int cost) { arcs.push_back({tail, head, low, up, cost}); }
    // the balances that a flow has
    void balance(const std::vector<long> &flow) {
        for (size_t a = 0; a < arcs.size(); a++) {
            balances[arcs[a].tail] += flow[a];
            balances[arcs[a].head] -= flow[a];
        }
    }
};

// Document 01, "The book's network".
inline Network network_of(const Book &b) {
    const int e = int(b.entries.size()), last = 2 * e + 1;
    Network n;
    n.balances.assign(last + 1, 0);
    n.balances[0] = b.players;
    n.balances[last] = -b.players;
    for (int j = 1; j <= e; j++) {
        for (int i = e; i >= 1; i--)
            if (int c = b.join(i, j); c >= 0) n.add(2 * i, 2 * j - 1, 0, 1, c);
        n.add(0, 2 * j - 1, 0, 1, b.fee);
    }
    for (int j = 1; j <= e; j++) n.add(2 * j - 1, 2 * j, 1, 1, 0);
    for (int j = 1; j <= e; j++) n.add(2 * j, last, 0, 1, 0);
    n.add(0, last, 0, b.players, 0);
    return n;
}

// Random, with balances that some flow has.
inline Network random_network(uint64_t seed, int nodes = 64, int arcs = 512, int bound = 1000000, int cost = 1000000) {
    Dice dice(seed);
    Network n;
    n.balances.assign(nodes, 0);
    std::vector<long> flow;
    for (int a = 0; a < arcs; a++) {
        int up = dice.roll(0, bound), low = dice.chance(20) ? dice.roll(0, up) : 0;
        n.add(dice.roll(0, nodes - 1), dice.roll(0, nodes - 1), low, up, dice.roll(-cost, cost));
        flow.push_back(dice.roll(low, up));
    }
    n.balance(flow);
    return n;
}

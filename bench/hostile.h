// Networks that are long to solve or to list, within the limits.
#pragma once
#include "networks.h"
#include <cstdlib>

// After Zadeh: level i sends through level i - 1, then back through it, so that successive shortest paths go 2^levels times. The arcs may
// stand in reverse order, and the flow may be drawn round by arcs of great negative cost instead of by balances.
inline Network zadeh(int levels, bool reversed, bool circulation) {
    Network n;
    n.name = "zadeh " + std::to_string(levels) + (reversed ? ", arcs reversed" : "") + (circulation ? ", as a circulation" : "");
    n.balances.assign(2 * levels + 2, 0);
    auto s = [](int i) { return 2 * i; };
    auto t = [](int i) { return 2 * i + 1; };
    int room = 1, cost = 1;
    n.add(s(0), t(0), 0, 1, 0);
    for (int i = 1; i <= levels; i++) {
        n.add(s(i), s(i - 1), 0, room, 0);
        n.add(t(i - 1), t(i), 0, room, 0);
        n.add(s(i), t(i - 1), 0, room, cost);
        n.add(s(i - 1), t(i), 0, room, cost);
        if (i < levels) {
            room = std::min(2 * room, 1000000);
            cost = std::min(2 * cost + 1, 1000000);
        }
    }
    if (circulation) {
        for (int k = 0; k < 2; k++) n.add(t(levels), s(levels), 0, room, -1000000);
    } else {
        n.balances[s(levels)] = 2 * room;
        n.balances[t(levels)] = -2 * room;
    }
    if (reversed) std::reverse(n.arcs.begin(), n.arcs.end());
    return n;
}

// A long path and its return, costs alternating between +C and -C: labels travel 63 steps, one a round where the arcs stand against the path.
inline Network zigzag(bool against, int parallel, bool forced) {
    Network n;
    n.name = std::string("zigzag") + (against ? " against the arcs" : "") + ", " + std::to_string(parallel) + " parallel" + (forced ? ", forced" : "");
    n.balances.assign(64, 0);
    for (int v = 0; v < 63; v++)
        for (int k = 0; k < parallel; k++) n.add(v, v + 1, 0, 1000000 - k, v % 2 ? 1000000 - k : -1000000 + 2 * k);
    for (int k = 0; k < parallel && n.arcs.size() < 512; k++) n.add(63, 0, 0, 1000000, -1000000 + k);
    if (forced) { n.balances[0] = 1000000; n.balances[63] = -1000000; }
    if (against) std::reverse(n.arcs.begin(), n.arcs.end());
    return n;
}

// Few nodes and many arcs between them, each with a cost and room of its own.
inline Network parallels(uint64_t seed, int nodes, bool both_ways) {
    Dice dice(seed);
    Network n;
    n.name = "512 arcs between " + std::to_string(nodes) + " nodes " + std::to_string(seed) + (both_ways ? ", both ways" : "");
    n.balances.assign(nodes, 0);
    std::vector<long> flow;
    for (int a = 0; a < 512; a++) {
        int u = dice.roll(0, nodes - 1), v = (u + dice.roll(1, nodes - 1)) % nodes;
        if (!both_ways && u > v) std::swap(u, v);
        n.add(u, v, 0, dice.roll(1, 1000000), both_ways ? dice.roll(-1000000, 1000000) : 1000000 - 1900 * a);
        flow.push_back(dice.roll(0, n.arcs.back().up));
    }
    n.balance(flow);
    return n;
}

// A grid, three arcs each way at most; nodes numbered as a snake, arcs from the last node to the first.
inline Network grid(uint64_t seed, int width, int height, bool negative) {
    Dice dice(seed);
    Network n;
    n.name = std::to_string(width) + " x " + std::to_string(height) + " grid " + std::to_string(seed) + (negative ? ", costs of both signs" : "");
    n.balances.assign(width * height, 0);
    auto at = [&](int x, int y) { return y * width + (y % 2 ? width - 1 - x : x); };
    std::vector<long> flow;
    auto arc = [&](int u, int v) {
        if (n.arcs.size() >= 512) return;
        n.add(u, v, 0, dice.roll(1, 1000000), negative ? dice.roll(-1000000, 1000000) : dice.roll(1, 1000000));
        flow.push_back(dice.roll(0, n.arcs.back().up));
    };
    for (int round = 0; round < 3; round++)
        for (int y = height - 1; y >= 0; y--)
            for (int x = width - 1; x >= 0; x--) {
                if (x + 1 < width) { arc(at(x, y), at(x + 1, y)); arc(at(x + 1, y), at(x, y)); }
                if (y + 1 < height) { arc(at(x, y), at(x, y + 1)); arc(at(x, y + 1), at(x, y)); }
            }
    n.balance(flow);
    return n;
}

// Goods from 32 places to 32 others, 16 roads each; costs 1 apart or powers of 2, rooms powers of 2.
inline Network transport(uint64_t seed, bool powers) {
    Dice dice(seed);
    Network n;
    n.name = "transport " + std::to_string(seed) + (powers ? ", powers of 2" : "");
    n.balances.assign(64, 0);
    std::vector<long> flow;
    for (int a = 0; a < 512; a++) {
        int u = a / 16, v = 32 + (u * 7 + a % 16 * (powers ? 3 : 1)) % 32;
        n.add(u, v, 0, powers ? 1 << dice.roll(0, 19) : 1000000, powers ? 1 << dice.roll(0, 19) : 999000 + dice.roll(0, 1000));
        flow.push_back(dice.roll(0, n.arcs.back().up));
    }
    n.balance(flow);
    return n;
}

// A chain of diamonds with a bar of room 1: the classic trap for paths that are not the shortest.
inline Network diamonds(bool reversed) {
    Network n;
    n.name = std::string("diamonds") + (reversed ? ", arcs reversed" : "");
    n.balances.assign(64, 0);
    for (int v = 0; v + 3 < 64; v += 3) {
        n.add(v, v + 1, 0, 500000, 0);
        n.add(v + 1, v + 2, 0, 1, -1000000);
        n.add(v + 2, v + 3, 0, 500000, 0);
        n.add(v, v + 2, 0, 500000, 1);
        n.add(v + 1, v + 3, 0, 500000, 1);
    }
    n.balances[0] = 1000000;
    n.balances[63] = -1000000;
    if (reversed) std::reverse(n.arcs.begin(), n.arcs.end());
    return n;
}

// A ring with chords of eight lengths, each arc with a gain of its own: a circulation in which all cycles compete.
inline Network rings(uint64_t seed) {
    Dice dice(seed);
    Network n;
    n.name = "rings " + std::to_string(seed);
    n.balances.assign(64, 0);
    for (int a = 0; a < 512; a++) {
        int step = 1 + a / 64 * (a / 64), u = a % 64;
        n.add(u, (u + step) % 64, 0, 1 << dice.roll(0, 19), -(1 << dice.roll(0, 19)) + dice.roll(0, 400000));
    }
    return n;
}

// The same arcs without a flow: node 0 is to send out one unit more than its arcs can carry. All but that unit can be sent.
inline Network narrowly_none(Network n, uint64_t seed) {
    Dice dice(seed);
    std::vector<long> flow;
    for (const Arc &a : n.arcs) flow.push_back(a.tail == 0 ? a.up : a.head == 0 ? a.low : dice.roll(a.low, a.up));
    n.name += ", narrowly none";
    std::fill(n.balances.begin(), n.balances.end(), 0);
    n.balance(flow);
    n.balances.front()++;
    n.balances.back()--;
    return n;
}

inline Network level_network(int entries, int players) {
    Network n = network_of(level_book(entries, players));
    n.name = "level book";
    return n;
}

// For next: arc 0 is a loop with an item for each of its values; no other arc can ever be raised (there is no way back), or, `full`, lowered, but
// each must be looked at again for every item.
inline Network long_lists(bool full) {
    Network n;
    n.name = full ? "a loop before full arcs" : "a loop before empty arcs";
    n.balances.assign(64, 0);
    n.add(0, 0, 0, 1000000, 0);
    for (int step = 1; n.arcs.size() < 512; step++)
        for (int v = 0; v + step < 64 && n.arcs.size() < 512; v++) {
            n.add(v, v + step, 0, 1, 0);
            if (full) { n.balances[v]++; n.balances[v + step]--; }
        }
    return n;
}

inline std::vector<Network> hostile_networks() {
    std::vector<Network> all;
    for (bool r : {false, true})
        for (bool c : {false, true})
            for (int levels : {10, 18, 20, 31}) all.push_back(zadeh(levels, r, c));
    for (bool r : {false, true})
        for (int k : {1, 4, 8})
            for (bool f : {false, true}) all.push_back(zigzag(r, k, f));
    for (uint64_t seed : {1, 2, 3})
        for (int k : {2, 3, 8, 16})
            for (bool b : {false, true}) all.push_back(parallels(seed, k, b));
    for (uint64_t seed : {1, 2, 3})
        for (bool g : {false, true}) {
            all.push_back(grid(seed, 8, 8, g));
            all.push_back(grid(seed, 32, 2, g));
            all.push_back(grid(seed, 4, 16, g));
            all.push_back(transport(seed, g));
        }
    for (bool r : {false, true}) all.push_back(diamonds(r));
    for (uint64_t seed : {1, 2, 3}) all.push_back(rings(seed));
    all.push_back(level_network(28, 8));
    for (bool f : {false, true}) all.push_back(long_lists(f));
    for (uint64_t seed : {1, 2, 3, 4, 5}) {
        all.push_back(random_network(1000 + seed));
        all.back().name = "random " + std::to_string(1000 + seed);
    }
    for (size_t k = 0, some = all.size(); k < some; k++) all.push_back(narrowly_none(all[k], k));
    for (Network &n : all)                 // the limits
        if (n.balances.size() > 64 || n.arcs.size() > 512) abort();
    return all;
}

// Books to measure with: movements made up from a seed, and the book that lists most; and a book as bytes.
#pragma once
#include "dice.h"
#include <algorithm>
#include <string>
#include <vector>

struct Entry { int arrives, leaves, start, finish; };    // the instruments on which it begins and ends

struct Book {
    int players, fee;
    int ticks[17][17], costs[17][17];    // ticks -1: no line
    std::vector<Entry> entries;          // entry j is entries[j - 1]

    int join(int i, int j) const {       // the cost of j after i, or -1
        const Entry &a = entries[i - 1], &b = entries[j - 1];
        if (i == j) return -1;
        int t = ticks[a.leaves][b.arrives], c = costs[a.leaves][b.arrives];
        if (t < 0 && a.leaves == b.arrives) t = c = 0;
        return t >= 0 && a.finish + t <= b.start ? c : -1;
    }
};

// A movement: bars of 384 ticks, entries of a beat to two bars that begin on a beat, most of the moves, few different costs (so that
// many ways cost the same), book order near the order of time. `bars` spreads the entries: with many bars almost every later entry may follow.
// Moves cost 1 to `dearest` at most. Of a hundred entries `elsewhere` end on another instrument than they begin on; all else is then the same.
inline Book random_book(uint64_t seed, int bars, int dearest = 3, int entries = 28, int elsewhere = 0) {
    Dice dice(seed);
    Book b;
    const int instruments = dice.roll(3, 16), dear = dice.roll(1, dearest), beat = 96;
    b.players = dice.roll(4, 8);
    b.fee = dice.roll(3, 9);
    for (auto &row : b.ticks) std::fill(std::begin(row), std::end(row), -1);
    for (auto &row : b.costs) std::fill(std::begin(row), std::end(row), 0);
    for (int i = 1; i <= instruments; i++)
        for (int j = 1; j <= instruments; j++)
            if (i != j && dice.chance(96)) {
                b.ticks[i][j] = 24 * dice.roll(0, 4);
                b.costs[i][j] = dice.roll(1, dear);
            }
    for (int k = 0; k < entries; k++) {
        int start = beat * (k * bars * 4 / entries + dice.roll(0, 3)), length = beat * dice.roll(1, dice.chance(20) ? 8 : 3);
        int instrument = dice.roll(1, instruments);
        b.entries.push_back({instrument, instrument, start, start + length - dice.roll(0, 1) * 12});
    }
    for (int k = 0; k < entries * 6 / 28; k++) {         // here and there two lines of the book are not in the order of time
        int i = dice.roll(0, entries - 2);
        std::swap(b.entries[i], b.entries[i + 1]);
    }
    if (elsewhere)
        for (Entry &e : b.entries)
            if (dice.chance(elsewhere)) e.leaves = (e.arrives + dice.roll(0, instruments - 2)) % instruments + 1;
    return b;
}

// The book as bytes. An entry that ends where it begins has the short form.
inline std::string text_of(const Book &b) {
    auto form = [](const std::string &head, const std::vector<int> &numbers) {
        std::string line = head;
        for (int x : numbers) line += " " + std::to_string(x);
        return line + ")\n";
    };
    std::string text = "(book\n" + form("(players", {b.players}) + form("(fee", {b.fee});
    for (int i = 1; i <= 16; i++)
        for (int j = 1; j <= 16; j++)
            if (b.ticks[i][j] >= 0) text += form("(move", {i, j, b.ticks[i][j], b.costs[i][j]});
    for (size_t k = 0; k < b.entries.size(); k++) {
        const Entry &e = b.entries[k];
        const std::string head = "(entry (name e" + std::to_string(k + 1) + ")";
        text += e.arrives == e.leaves ? form(head, {e.arrives, e.start, e.finish}) : form(head, {e.arrives, e.leaves, e.start, e.finish});
    }
    return text + ")\n";
}

// The book that lists most: every entry may follow every earlier one, at one cost; on one instrument at none, or where `staying` at the same,
// and then all ways cost the same.
inline Book level_book(int entries, int players, bool staying = false) {
    Book b;
    b.players = players;
    b.fee = 1;
    for (auto &row : b.ticks) std::fill(std::begin(row), std::end(row), 0);
    for (auto &row : b.costs) std::fill(std::begin(row), std::end(row), 1);
    for (int i = 1; i <= 16 && !staying; i++) b.ticks[i][i] = -1;
    for (int k = 0; k < entries; k++) b.entries.push_back({k % 16 + 1, k % 16 + 1, 10 * k, 10 * k + 10});
    return b;
}

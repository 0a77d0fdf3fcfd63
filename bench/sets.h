// The sets of books and networks that the benches share.
#pragma once
#include "lent.h"
#include <cstdlib>

// Seed by seed from 1, the books that have a way.
inline std::vector<Book> books(int bars, int dearest, size_t most, int entries = 28, int elsewhere = 0) {
    std::vector<Book> set;
    for (uint64_t seed = 1; set.size() < most; seed++)
        if (Book b = random_book(seed, bars, dearest, entries, elsewhere); LentBook(b).first().code == DESK_OK) set.push_back(b);
    return set;
}

// The books of these seeds, each with more than 65,535 ways.
inline std::vector<Book> long_books(int bars, int dearest, std::initializer_list<uint64_t> seeds, int elsewhere = 0) {
    std::vector<Book> set;
    for (uint64_t seed : seeds) set.push_back(random_book(seed, bars, dearest, 28, elsewhere));
    for (const Book &b : set)
        if (LentBook(b).count(65535).code != DESK_MORE) abort();
    return set;
}

// The same books without a fee: an opening costs nothing, so that the number of players binds.
inline std::vector<Book> without_fee(std::vector<Book> set) {
    for (Book &b : set) b.fee = 0;
    return set;
}

// The same books where staying on an instrument takes 24 ticks and costs 1, for a change of sticks. Those that still have a way.
inline std::vector<Book> with_sticks(std::vector<Book> set) {
    std::vector<Book> all;
    for (Book &b : set) {
        for (int i = 1; i <= 16; i++) b.ticks[i][i] = 24, b.costs[i][i] = 1;
        if (LentBook(b).first().code == DESK_OK) all.push_back(b);
    }
    return all;
}

inline std::vector<Network> networks(const std::vector<Book> &set) {
    std::vector<Network> all;
    for (const Book &b : set) all.push_back(network_of(b));
    return all;
}

// Balances that some flow has; costs from -cost to cost.
inline std::vector<Network> random_networks(int nodes, int arcs, int cost, size_t most) {
    std::vector<Network> all;
    for (uint64_t seed = 1; all.size() < most; seed++) all.push_back(random_network(seed, nodes, arcs, 1000000, cost));
    return all;
}

struct Named { const char *what; std::vector<Book> books; };

// Movements of 28 entries.
inline std::vector<Named> movements(size_t most) {
    return {{"28-entry books", books(42, 3, most)}, {"the same, entries that overlap", books(14, 3, most)}, {"the first, with sticks to change", with_sticks(books(42, 3, most))},
        {"28-entry books, half the entries end elsewhere", books(42, 3, most, 28, 50)}};
}

// Movements of 28 entries with more than 65,535 ways.
inline std::vector<Named> long_movements() {
    return {{"28-entry books", long_books(42, 3, {51, 80, 342})}, {"the same, entries that overlap", long_books(14, 3, {3, 4, 17})}, {"the same, moves that tie", long_books(28, 1, {18, 40, 51})},
        {"28-entry books, half the entries end elsewhere", long_books(42, 3, {9, 27, 31}, 50)}, {"a book whose moves all tie", {level_book(28, 8)}}, {"a book whose ways all tie", {level_book(28, 8, true)}}};
}

// Books and networks as C lends them, and the library's calls on them.
#pragma once
#include "../include/desk.h"
#include "networks.h"

struct LentBook {
    std::string text;
    std::vector<uint8_t> way, listing, sheets;

    explicit LentBook(const std::string &t, size_t entries = 28) : text(t), way(4 * entries), listing(DESK_LISTING_ROOM), sheets(DESK_SHEETS_ROOM) {}
    explicit LentBook(const Book &b) : LentBook(text_of(b), b.entries.size()) {}
    const uint8_t *book() const { return reinterpret_cast<const uint8_t *>(text.data()); }
    desk_reply first() { return desk_first(book(), text.size(), way.data(), way.size()); }
    desk_reply next(std::vector<uint8_t> &to) { return desk_next(book(), text.size(), way.data(), way.size(), to.data(), to.size()); }
    desk_reply count(uint16_t cap) { return desk_count(book(), text.size(), cap); }
    desk_reply list() { return desk_listing(book(), text.size(), listing.data(), listing.size()); }
    desk_reply spare(uint32_t earlier, uint32_t later) { return desk_spare(book(), text.size(), earlier, later); }
    desk_reply sheets_room() { return desk_sheets_room(book(), text.size(), way.data(), way.size()); }
    desk_reply write_sheets(size_t room = DESK_SHEETS_ROOM) { return desk_sheets(book(), text.size(), way.data(), way.size(), sheets.data(), room); }
    desk_span name() { return desk_name(book(), text.size(), 1); }
    uint32_t questions() { return desk_name_refusal(book(), text.size(), 1); }      // 11 to 16, then 19
    std::string last_line() {
        std::string t(listing.begin(), listing.begin() + list().value);
        return t.substr(t.rfind('\n', t.size() - 2) + 1);
    }
};

// Numbers of four bytes, lowest first.
struct LentNetwork {
    std::vector<uint8_t> balances, arcs, flows, prices;

    static void put(std::vector<uint8_t> &to, int x) { for (int k = 0; k < 4; k++) to.push_back(uint8_t(uint32_t(x) >> 8 * k)); }
    explicit LentNetwork(const Network &n) : flows(4 * n.arcs.size()), prices(4 * n.balances.size()) {
        for (int b : n.balances) put(balances, b);
        for (const Arc &a : n.arcs) for (int x : {a.tail, a.head, a.low, a.up, a.cost}) put(arcs, x);
    }
    desk_reply first() { return desk_network_first(balances.data(), balances.size(), arcs.data(), arcs.size(), flows.data(), flows.size()); }
    desk_reply first_priced() { return desk_network_first_priced(balances.data(), balances.size(), arcs.data(), arcs.size(), flows.data(), flows.size(), prices.data(), prices.size()); }
    desk_reply next(std::vector<uint8_t> &to) { return desk_network_next(balances.data(), balances.size(), arcs.data(), arcs.size(), flows.data(), flows.size(), to.data(), to.size()); }
    desk_reply prices_of_flow(std::vector<uint8_t> &to) { return desk_network_prices(balances.data(), balances.size(), arcs.data(), arcs.size(), flows.data(), flows.size(), to.data(), to.size()); }
    desk_reply count(uint16_t cap) { return desk_network_count(balances.data(), balances.size(), arcs.data(), arcs.size(), cap); }
};

/* The percussion allocation desk, as C calls it: the entries of books, and the flow engine's entries on networks.
 *
 * Numbers lent as bytes: four a number, two's complement, lowest byte first.
 * A list is a pointer to its first byte and its length in bytes; (NULL, 0) is the empty list.
 * No two lists of one call may overlap where one of them is lent to be written to.
 * Whatever bytes the lists hold, every call ends, reads and writes within them, and answers.
 * The library keeps nothing between calls, and writes to nothing but the lists that it is lent: calls may run in several threads at once, if
 * nobody else writes to a list of a call meanwhile, or reads one that is lent to be written to.
 */
#ifndef DESK_H
#define DESK_H

/* The version of the library and of the program ways. */
#define DESK_VERSION "5.1.0"

#include <stddef.h>
#include <stdint.h>

#ifdef __cplusplus
extern "C" {
#endif

/* The codes of a reply that are no refusal. Any other code is the number of the first question that the call fails. */
enum {
    DESK_OK = 0,       /* a way, a flow, prices or sheets were written, counting came to the end, there is a listing, or the room or spare is known */
    DESK_NONE = 100,   /* there is no way, or no flow */
    DESK_END = 101,    /* no least-cost way or flow follows the one given */
    DESK_MORE = 102,   /* there are more than the cap */
    DESK_NO_MOVE = 103 /* there is no move from the one entry to the other */
};

/* The most that an accepted book or network has, for lists of a fixed size; and room for the longest listing and for the sheets of any way of
 * any book, in bytes. */
#define DESK_BOOK_BYTES 16384
#define DESK_ENTRIES 28
#define DESK_NODES 64
#define DESK_ARCS 512
#define DESK_LISTING_ROOM 91028
#define DESK_SHEETS_ROOM 2212

/* value: with DESK_OK the cost, the count, the length of the listing, that of the sheets, which desk_sheets_room tells without writing them, or
 * the spare, which may be below 0; and otherwise 0.
 * line: with 13, 14 and 15 the first line of the book that fails that question, counted from 1, and otherwise 0. */
typedef struct {
    uint32_t code;
    uint32_t line;
    int64_t value;
} desk_reply;

/* A part of a list of bytes. */
typedef struct {
    size_t start;
    size_t length;
} desk_span;

/* Books.
 *
 * book: its bytes, in this form, each line closed by byte 10, one space between items and none elsewhere:
 *   (book
 *   (players P)              the most players
 *   (fee C)                  the cost of each part
 *   (move A B T C)           any count of these: going from instrument A to B, or staying where they are one, takes T ticks and costs C
 *   (entry (name W) I S F)   any count of these: played on instrument I from tick S to tick F; or (entry (name W) A B S F), which begins on
 *                            instrument A and ends on B: three numbers or four behind the name say which, and I stands for both A and B
 *   )                        and nothing more
 * A number is 1 to 7 digits without a needless leading 0; W is 1 to 16 of a-z and 0-9. Entries are numbered from 1 to E in book order.
 * From an entry i to another entry j there is a move if a line says what it takes from the instrument that i ends on to the one that j begins
 * on. If they are one, there is a move without a line too, and its T and C are 0. The spare is S of j less F of i less T. Entry j may follow i,
 * at cost C, if there is a move and the spare is 0 or more. No entry needs a move of its own.
 * A way is an unsigned 32-bit number an entry: the number of the entry before it, which it may follow, or 0 if it opens a part. No entry is
 * before two, and at most P open a part. A way costs the fee for each part and what its entries cost that follow another.
 * Questions, in this order:
 *   11  at most 16384 bytes
 *   12  the form of a book
 *   13  1 to 8 players, and a fee of at most 1000000
 *   14  every move between instruments from 1 to 16, with ticks and a cost of at most 1000000, and the pair A, B on no earlier line; A and B
 *       may be one
 *   15  every entry on instruments from 1 to 16, with start < finish <= 1000000
 *   16  at most 28 entries
 *   17  the lent list a multiple of four bytes, with room for E numbers
 *   18  (next; sheets and their room, straight after 16) the given list E numbers long, and a least-cost way of the book
 *   19  (names and spares, straight after 16) the entry, or both entries, from 1 to E
 *   21  (sheets, straight after 18) the lent list with room for the sheets, to the byte
 * Each question is put of the whole input before the next. The least-cost ways are listed in order: of two, the one with the smaller number
 * at the first entry where they differ comes first. A way fills the first E numbers of its list; all other bytes keep what they held. With
 * every code but DESK_OK the lent list does not change.
 */

/* The first least-cost way, written to way; the value is its cost.
 * Codes: DESK_OK, DESK_NONE, 11 to 17. */
desk_reply desk_first(const uint8_t *book, size_t book_len, uint8_t *way, size_t way_len);

/* The least-cost way that follows the one given, written to way; the value is its cost.
 * Codes: DESK_OK, DESK_END, 11 to 18. */
desk_reply desk_next(const uint8_t *book, size_t book_len, const uint8_t *given, size_t given_len, uint8_t *way, size_t way_len);

/* How many least-cost ways there are, up to the cap; none count 0. The value is the count.
 * Codes: DESK_OK, DESK_MORE, 11 to 16. */
desk_reply desk_count(const uint8_t *book, size_t book_len, uint16_t cap);

/* The listing of a book: `(cost C)`, `(way (parts N) ..)` with N, the number of its parts, and its E numbers for each least-cost way in order,
 * then `(end N)` with the count of ways; after 1000 ways, if there are more, `(more 1000)`. Each line ends in byte 10; no byte 0 follows the
 * last. If snare and snare2 are one part and xylo is another, or all three are one part:
 *   (cost 12)
 *   (way (parts 2) 0 0 1)
 *   (way (parts 1) 0 1 2)
 *   (end 2)
 * Without entries there is one way, and its line is `(way (parts 0))`. The value is the length of the whole text, at most DESK_LISTING_ROOM.
 * The text is written to the front of a list that has room for all of it, and the bytes after it keep what they held; a shorter list does
 * not change, and the code is DESK_OK all the same.
 * Codes: DESK_OK, DESK_NONE, 11 to 16. */
desk_reply desk_listing(const uint8_t *book, size_t book_len, uint8_t *text, size_t text_len);

/* The spare of the join from entry earlier to entry later, both from 1 to E: the ticks that a player who has both has left after the move.
 * The value is S of later less F of earlier less the ticks of the move, from the instrument that earlier ends on to the one that later begins
 * on. If it is 0 or more, later may follow earlier; if it is below 0, later starts so many ticks too early. Where there is no move, and for an
 * entry against itself, the code is DESK_NO_MOVE; the value 0 is then no spare, so look at the code first:
 *   desk_reply spare = desk_spare(book, book_len, 1, 2);
 *   int may_follow = spare.code == DESK_OK && spare.value >= 0;
 * If entry 1 is snare (instrument 1, 0 to 96), entry 2 is xylo (instrument 2, 120 to 200) and (move 1 2 24 3) is the only move, the spare from
 * 1 to 2 is 0, and -1 if snare ends at 97; from 2 to 1 there is no move. With (move 2 1 24 3) the spare from 2 to 1 is -224.
 * Codes: DESK_OK, DESK_NO_MOVE, 11 to 16, 19. */
desk_reply desk_spare(const uint8_t *book, size_t book_len, uint32_t earlier, uint32_t later);

/* The room that the part sheets of the least-cost way given take, in bytes: the value is exactly the length of the text that desk_sheets writes
 * for that way. Nothing is written. Another way of the book may take more or less; each takes at most 79 * E, so at most DESK_SHEETS_ROOM.
 * Without entries given is the empty list, and the room is 0.
 * Codes: DESK_OK, 11 to 16, 18. */
desk_reply desk_sheets_room(const uint8_t *book, size_t book_len, const uint8_t *given, size_t given_len);

/* The part sheets of the least-cost way given, written to text, a sheet for each part: its entries in playing order, with the ticks between
 * them. The parts come by rising number of the entries that open them; N counts them from 1. The lines of a sheet, each closed by byte 10:
 *   (part N
 *   (play (name W) S F)      for each entry of the part
 *   (gap G R)                between two entries: G ticks from F of the one to S of the next, of which R are spare; 0 is written too
 *   )
 * Every entry stands on exactly one sheet. If snare (0 to 96) and snare2 (240 to 300) are one part and xylo (120 to 200) is another:
 *   (part 1
 *   (play (name snare) 0 96)
 *   (gap 144 144)
 *   (play (name snare2) 240 300)
 *   )
 *   (part 2
 *   (play (name xylo) 120 200)
 *   )
 * If all three are one part and each move takes 24 ticks, the gaps are (gap 24 0) and (gap 40 16).
 * The sheets stand at the front of the list, no byte 0 follows them, and the bytes after them keep what they held; the value is their length.
 * A list that is shorter than that is refused. One of exactly that length, which desk_sheets_room tells, is filled to its last byte, and
 * DESK_SHEETS_ROOM bytes are always enough. Without entries there is no sheet, and the length is 0.
 * Codes: DESK_OK, 11 to 16, 18, 21. */
desk_reply desk_sheets(const uint8_t *book, size_t book_len, const uint8_t *given, size_t given_len, uint8_t *text, size_t text_len);

/* Where the name of an entry, from 1 to E, lies in the book; start is counted from 0. (0, 0) if it is refused, and no name is empty: of an
 * accepted book, E + 1 is the first entry whose name has length 0. */
desk_span desk_name(const uint8_t *book, size_t book_len, uint32_t entry);

/* The number of the question that refuses that name, 11 to 16 or 19, or 0. */
uint32_t desk_name_refusal(const uint8_t *book, size_t book_len, uint32_t entry);

/* Networks.
 *
 * balances: a signed 32-bit number a node, for n nodes. arcs: five signed 32-bit numbers an arc (tail, head, lower bound,
 * upper bound, cost), for m arcs; nodes and arcs are numbered from 0. Arcs may share their ends, and an arc may return to its own node.
 * A flow is a signed 32-bit number an arc, within the arc's bounds, such that at each node what flows out less what flows in is the balance;
 * an arc that returns to its own node counts in no balance. Its cost is the sum over the arcs of cost times flow. If the balances do not sum
 * to 0, there is no flow. Questions, in this order:
 *   1  1 to 64 balances, in a length that is a multiple of four
 *   2  a multiple of five numbers in arcs, at most 512 arcs
 *   3  every tail and head from 0 to n - 1
 *   4  0 <= lower <= upper <= 1000000 on every arc
 *   5  every cost from -1000000 to 1000000
 *   6  every balance from -1000000000 to 1000000000
 *   7  each lent list a multiple of four bytes, with room for m flows or n prices
 *   8  (next and prices) the given list m numbers long, and a least-cost flow of the network
 * Each question is put of the whole input before the next. The least-cost flows are listed in order: of two, the one with the smaller number
 * on the first arc where they differ comes first. A flow fills the first m numbers of its list and the prices the first n; all other bytes
 * keep what they held. With every code but DESK_OK no lent list changes.
 */

/* The first least-cost flow, written to flows; the value is its cost.
 * Codes: DESK_OK, DESK_NONE, 1 to 7. */
desk_reply desk_network_first(const uint8_t *balances, size_t balances_len, const uint8_t *arcs, size_t arcs_len,
                              uint8_t *flows, size_t flows_len);

/* The same, with the price of each node, a signed 32-bit number, written to prices: the least cost of a residual walk that ends there, from
 * any node, the walk without arcs (cost 0) included. The residual network of the flow has each arc forward, at its cost, if the flow is below
 * the upper bound, and backward, at minus its cost, if it is above the lower bound. Worked out from another least-cost flow the prices are the
 * same numbers: they are the network's, whichever flow is chosen.
 * Codes: DESK_OK, DESK_NONE, 1 to 7. */
desk_reply desk_network_first_priced(const uint8_t *balances, size_t balances_len, const uint8_t *arcs, size_t arcs_len,
                                     uint8_t *flows, size_t flows_len, uint8_t *prices, size_t prices_len);

/* The least-cost flow that follows the one given, written to flows; the value is its cost.
 * Codes: DESK_OK, DESK_END, 1 to 8. */
desk_reply desk_network_next(const uint8_t *balances, size_t balances_len, const uint8_t *arcs, size_t arcs_len,
                             const uint8_t *given, size_t given_len, uint8_t *flows, size_t flows_len);

/* The prices of the network, worked out from any least-cost flow given and written to prices; the value is the cost of that flow. They are the
 * numbers that desk_network_first_priced writes: use that to find a flow with its prices, and this where a flow is at hand. A list is lent for
 * n prices alone. The flow given is judged as by desk_network_next, so of a network without a flow every list is refused with 8. No flow is
 * written, and the call is no step of a list: desk_network_next goes on from the flow that it is given, whether its prices were asked or not.
 * Codes: DESK_OK, 1 to 8. */
desk_reply desk_network_prices(const uint8_t *balances, size_t balances_len, const uint8_t *arcs, size_t arcs_len,
                               const uint8_t *given, size_t given_len, uint8_t *prices, size_t prices_len);

/* How many least-cost flows there are, up to the cap; none count 0. The value is the count.
 * Codes: DESK_OK, DESK_MORE, 1 to 6. */
desk_reply desk_network_count(const uint8_t *balances, size_t balances_len, const uint8_t *arcs, size_t arcs_len, uint16_t cap);

#ifdef __cplusplus
}
#endif

#endif

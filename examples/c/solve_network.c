/* Solves a small transport problem: lists its least-cost flows in order, with their cost, the prices of the nodes and how many there are; then
 * the prices once more, worked out from the last flow that was shown.
 *
 *   solve_network [COUNT]
 *
 * At most COUNT flows are shown, 20 if it is not given.
 * Exit status: 0 if the flows were listed, 1 if there is no flow or the network is refused, 2 if the argument is wrong or the flows cannot be
 * written.
 */
#include <desk.h>
#include <inttypes.h>
#include <stdio.h>
#include <stdlib.h>
#include <string.h>

enum { LISTED = 0, NOT_LISTED = 1, TROUBLE = 2 };

/* Two stores send nine drums to three halls. A balance is what a node sends out, less than 0 where it takes in. */
enum { NORTH, SOUTH, ARENA, CHURCH, OPERA, NODES };
static const char *const names[NODES] = {"north", "south", "arena", "church", "opera"};
static const int32_t balances[NODES] = {5, 4, -3, -3, -3};

/* Each arc: tail, head, lower bound, upper bound, cost of one drum. One drum at least goes from the north to the opera. */
enum { TAIL, HEAD, LOWER, UPPER, COST, FIELDS };
static const int32_t arcs[][FIELDS] = {
    {NORTH, ARENA, 0, 3, 2},
    {NORTH, CHURCH, 0, 3, 3},
    {NORTH, OPERA, 1, 3, 5},
    {SOUTH, ARENA, 0, 3, 3},
    {SOUTH, CHURCH, 0, 3, 4},
    {SOUTH, OPERA, 0, 3, 4},
};
enum { ARCS = sizeof arcs / sizeof arcs[0] };

/* Writes a number as four bytes, lowest first, on any machine. The conversion to unsigned is two's complement by the C standard. */
static void put_number(uint8_t *bytes, int32_t number) {
    uint32_t bits = (uint32_t)number;
    for (int i = 0; i < 4; i++)
        bytes[i] = (uint8_t)(bits >> 8 * i);
}

/* Reads a number from four bytes, lowest first. Above INT32_MAX the bits stand for a number below 0. */
static int32_t get_number(const uint8_t *bytes) {
    uint32_t bits = 0;
    for (int i = 0; i < 4; i++)
        bits |= (uint32_t)bytes[i] << 8 * i;
    return bits <= INT32_MAX ? (int32_t)bits : -(int32_t)(UINT32_MAX - bits) - 1;
}

static void print_flow(unsigned long count, const uint8_t *flow) {
    printf("flow %lu:", count);
    for (int a = 0; a < ARCS; a++)
        printf("%s %s-%s %" PRId32, a == 0 ? "" : ",", names[arcs[a][TAIL]], names[arcs[a][HEAD]], get_number(flow + 4 * a));
    printf("\n");
}

static void print_prices(const uint8_t *prices) {
    for (int v = 0; v < NODES; v++)
        printf("%s %s %" PRId32, v == 0 ? "" : ",", names[v], get_number(prices + 4 * v));
    printf("\n");
}

/* What does not happen to a network within the limits of desk.h and a flow that the library wrote. */
static int refused(uint32_t code) {
    fprintf(stderr, "solve_network: refused, question %" PRIu32 "\n", code);
    return NOT_LISTED;
}

static int solve(unsigned long most) {
    uint8_t node_bytes[4 * NODES], arc_bytes[4 * FIELDS * ARCS];
    uint8_t flow[4 * ARCS], given[4 * ARCS], prices[4 * NODES];
    for (int v = 0; v < NODES; v++)
        put_number(node_bytes + 4 * v, balances[v]);
    for (int a = 0; a < ARCS; a++)
        for (int k = 0; k < FIELDS; k++)
            put_number(arc_bytes + 4 * (FIELDS * a + k), arcs[a][k]);

    desk_reply reply = desk_network_first_priced(node_bytes, sizeof node_bytes, arc_bytes, sizeof arc_bytes, flow, sizeof flow, prices, sizeof prices);
    if (reply.code == DESK_NONE) {
        printf("no flow\n");
        return NOT_LISTED;
    }
    if (reply.code != DESK_OK)
        return refused(reply.code);
    printf("cost %" PRId64 "\nprices:", reply.value);
    print_prices(prices);
    unsigned long shown = 0;
    for (; reply.code == DESK_OK && shown < most; shown++) {
        print_flow(shown + 1, flow);
        memcpy(given, flow, sizeof given); /* the list given must not overlap the list lent */
        reply = desk_network_next(node_bytes, sizeof node_bytes, arc_bytes, sizeof arc_bytes, given, sizeof given, flow, sizeof flow);
    }
    if (reply.code != DESK_OK && reply.code != DESK_END)
        return refused(reply.code);
    desk_reply count = desk_network_count(node_bytes, sizeof node_bytes, arc_bytes, sizeof arc_bytes, UINT16_MAX);
    if (count.code == DESK_MORE)
        printf("more than %d in all\n", UINT16_MAX);
    else
        printf("%" PRId64 " in all\n", count.value);
    if (shown == 0)
        return LISTED;
    /* any least-cost flow will do, and the prices are the same; here it is the last one that was shown, which stands in given */
    desk_reply priced = desk_network_prices(node_bytes, sizeof node_bytes, arc_bytes, sizeof arc_bytes, given, sizeof given, prices, sizeof prices);
    if (priced.code != DESK_OK)
        return refused(priced.code);
    printf("prices by flow %lu:", shown);
    print_prices(prices);
    return LISTED;
}

int main(int argc, char **argv) {
    unsigned long most = 20;
    if (argc > 1) {
        size_t digits = strspn(argv[1], "0123456789");
        if (argc > 2 || digits < 1 || digits > 9 || argv[1][digits] != '\0') {
            fprintf(stderr, "usage: solve_network [COUNT]\n");
            return TROUBLE;
        }
        most = strtoul(argv[1], NULL, 10);
    }
    int status = solve(most);
    if (fflush(stdout) != 0 || ferror(stdout)) {
        perror("standard output");
        return TROUBLE;
    }
    return status;
}

// LEMON's network simplex on a network. Where LEMON is not installed, `Lemon::installed` is false and its answers and times are left out.
#pragma once
#include "lent.h"
#include "measure.h"

struct Answer { bool flow; long long cost; };          // whether there is a flow, and the least cost

#if __has_include(<lemon/network_simplex.h>)
#include <lemon/network_simplex.h>
#include <lemon/smart_graph.h>

// The graph is built once; a run makes the maps and the solver, solves, and reads the flow of every arc.
struct Lemon {
    static const bool installed = true;
    typedef lemon::SmartDigraph Graph;
    const Network &n;
    Graph graph;
    std::vector<Graph::Node> nodes;
    std::vector<Graph::Arc> arcs;
    std::vector<int> flow;

    explicit Lemon(const Network &net) : n(net), flow(net.arcs.size()) {
        graph.reserveNode(int(n.balances.size()));
        graph.reserveArc(int(n.arcs.size()));
        for (size_t v = 0; v < n.balances.size(); v++) nodes.push_back(graph.addNode());
        for (const Arc &a : n.arcs) arcs.push_back(graph.addArc(nodes[a.tail], nodes[a.head]));
    }
    Answer run() {
        Graph::ArcMap<int> low(graph), up(graph);
        Graph::ArcMap<long long> cost(graph);
        Graph::NodeMap<int> supply(graph);
        for (size_t v = 0; v < nodes.size(); v++) supply[nodes[v]] = n.balances[v];
        for (size_t a = 0; a < arcs.size(); a++) { low[arcs[a]] = n.arcs[a].low; up[arcs[a]] = n.arcs[a].up; cost[arcs[a]] = n.arcs[a].cost; }
        lemon::NetworkSimplex<Graph, int, long long> solver(graph);
        solver.lowerMap(low).upperMap(up).costMap(cost).supplyMap(supply);
        if (solver.run() != solver.OPTIMAL) return {false, 0};
        long long total = 0;
        for (size_t a = 0; a < arcs.size(); a++) {
            flow[a] = solver.flow(arcs[a]);
            total += (long long)n.arcs[a].cost * flow[a];
        }
        return {true, total};
    }
};
#else
struct Lemon {
    static const bool installed = false;
    explicit Lemon(const Network &) {}
    Answer run() { return {false, 0}; }
};
#endif

inline double lemon_time(const Network &n) {
    if (!Lemon::installed) return 0;
    Lemon lemon(n);
    return time_of([&] { lemon.run(); });
}

inline std::string lemon_shown(double x) { return Lemon::installed ? shown(x) : "none"; }

inline void agree_with_lemon(const Network &n, desk_reply r) {
    if (!Lemon::installed) return;
    Answer l = Lemon(n).run();
    if (r.code == (l.flow ? DESK_OK : DESK_NONE) && r.value == (l.flow ? l.cost : 0)) return;
    wrong++;
    printf("DIFFERENT on %s: library code %u cost %lld, LEMON %s cost %lld\n", n.name.c_str(), r.code, (long long)r.value, l.flow ? "a flow" : "none", l.cost);
}

// The least cost by LEMON's network simplex, on the network between the squares of a field.
#pragma once
#include "entry.hpp"
#include <lemon/network_simplex.h>
#include <lemon/smart_graph.h>

// What a square is off by, in turns: right and down against down and right.
inline int residue(const Field &f, size_t x, size_t y) {
    size_t p = f.at(x, y);
    return int(turns_of_step(f, p, p + 1) + turns_of_step(f, p + 1, p + 1 + f.wide) -
               turns_of_step(f, p, p + f.wide) - turns_of_step(f, p + f.wide, p + f.wide + 1));
}

// Nodes are the squares, row by row, and the outside behind them; each step has an arc across it either way.
inline uint64_t least_by_lemon(const Field &f) {
    using lemon::SmartDigraph;
    if (f.wide < 2 || f.high < 2) return 0;
    const size_t wide = f.wide - 1, high = f.high - 1, squares = wide * high;
    const size_t steps = wide * f.high + f.wide * high;
    SmartDigraph graph;
    graph.reserveNode(int(squares + 1));
    graph.reserveArc(int(2 * steps));
    for (size_t i = 0; i <= squares; i++) graph.addNode();
    SmartDigraph::NodeMap<int> supply(graph, 0);
    int outside = 0;
    for (size_t y = 0; y < high; y++)
        for (size_t x = 0; x < wide; x++) {
            int off = residue(f, x, y);
            supply[graph.nodeFromId(int(y * wide + x))] = off;
            outside -= off;
        }
    supply[graph.nodeFromId(int(squares))] = outside;
    auto join = [&](size_t a, size_t b) {
        auto u = graph.nodeFromId(int(a)), v = graph.nodeFromId(int(b));
        graph.addArc(u, v);
        graph.addArc(v, u);
    };
    auto square = [&](size_t x, size_t y) { return x < wide && y < high ? y * wide + x : squares; };
    for (size_t y = 0; y < f.high; y++)
        for (size_t x = 0; x < wide; x++) join(square(x, y - 1), square(x, y));
    for (size_t y = 0; y < high; y++)
        for (size_t x = 0; x < f.wide; x++) join(square(x - 1, y), square(x, y));
    // A map that is made once all arcs are there need not grow with them.
    SmartDigraph::ArcMap<int> cost(graph);
    int arc = 0;
    auto price_both = [&](uint32_t price) {
        cost[graph.arcFromId(arc++)] = int(price);
        cost[graph.arcFromId(arc++)] = int(price);
    };
    for (size_t y = 0; y < f.high; y++)
        for (size_t x = 0; x < wide; x++) price_both(f.right[f.at(x, y)]);
    for (size_t y = 0; y < high; y++)
        for (size_t x = 0; x < f.wide; x++) price_both(f.below[f.at(x, y)]);
    lemon::NetworkSimplex<SmartDigraph, int, int> simplex(graph);
    simplex.costMap(cost).supplyMap(supply);
    if (simplex.run() != simplex.OPTIMAL) return UINT64_MAX;
    return uint64_t(simplex.totalCost<int64_t>()) * f.turn;
}

// What a user would take instead: LEMON's min-cost flow solvers, asked for the
// most by a horizon or the least horizon for an amount.
//
// One request a line:  METHOD REPEATS TARGET PLACES ORIGIN DESTINATION LINKS
// and for each link START END CAPACITY TRANSIT. METHOD is most-simplex,
// most-scaling (TARGET a horizon), plan-newton, plan-plain or plan-binary
// (TARGET an amount). One answer a line: the number, and the median time in nanoseconds
// of building the graph and solving.

#include <lemon/capacity_scaling.h>
#include <lemon/network_simplex.h>
#include <lemon/smart_graph.h>

#include <algorithm>
#include <chrono>
#include <cstdint>
#include <iostream>
#include <limits>
#include <string>
#include <vector>

using Graph = lemon::SmartDigraph;
using Number = std::int64_t;
using Simplex = lemon::NetworkSimplex<Graph, Number, Number>;
using Scaling = lemon::CapacityScaling<Graph, Number, Number>;

struct Link {
    int start, end;
    Number capacity, transit;
};

struct Network {
    int places, origin, destination;
    std::vector<Link> links;
};

// Static flow with a return arc of cost -horizon: its least cost is minus the
// most by the horizon. Costs are doubled, so that half slots can be asked for.
struct Circulation {
    Graph graph;
    Graph::ArcMap<Number> upper, cost;
    Graph::Arc back;

    explicit Circulation(const Network &n) : upper(graph), cost(graph) {
        graph.reserveNode(n.places);
        graph.reserveArc(n.links.size() + 1);
        for (int i = 0; i < n.places; ++i) graph.addNode();
        Number out = 0;
        for (const Link &l : n.links) {
            Graph::Arc a = graph.addArc(graph.nodeFromId(l.start), graph.nodeFromId(l.end));
            upper[a] = l.capacity;
            cost[a] = 2 * l.transit;
            if (l.start == n.origin) out += l.capacity;
        }
        back = graph.addArc(graph.nodeFromId(n.destination), graph.nodeFromId(n.origin));
        upper[back] = out;
    }
};

struct Best {
    Number value, cost;
};

// A best static flow for a horizon, handed over doubled.
template <class Solver>
Best solve(Circulation &c, Solver &solver, Number doubled) {
    c.cost[c.back] = -doubled;
    solver.upperMap(c.upper).costMap(c.cost).run();
    Number value = solver.flow(c.back);
    Number least = solver.template totalCost<Number>();
    return {value, (least + doubled * value) / 2};
}

template <class Solver>
Number most(const Network &n, Number horizon) {
    Circulation c(n);
    Solver solver(c.graph);
    Best best = solve(c, solver, 2 * horizon);
    return horizon * best.value - best.cost;
}

// A shortest chain of links with capacity: its length, -1 if there is none,
// and the least capacity on it.
struct Chain {
    Number length, rate;
};

Chain shortest(const Network &n) {
    const Number far = std::numeric_limits<Number>::max() / 2;
    std::vector<Chain> best(n.places, {far, far});
    best[n.origin].length = 0;
    for (bool changed = true; changed;) {
        changed = false;
        for (const Link &l : n.links)
            if (l.capacity > 0 && best[l.start].length + l.transit < best[l.end].length) {
                best[l.end] = {best[l.start].length + l.transit, std::min(best[l.start].rate, l.capacity)};
                changed = true;
            }
    }
    Chain chain = best[n.destination];
    return chain.length == far ? Chain{-1, 0} : chain;
}

Number up(Number a, Number b) { return (a + b - 1) / b; }

// From a horizon that is long enough down the tangents of the most. A flow
// that is best half a slot earlier is best for the horizon and for one slot
// less, so that a tangent that leads no further down shows the horizon least.
// It starts from what a shortest chain needs, alone and at its full rate, or,
// plain, at rate 1.
Number newton(const Network &n, Number amount, bool plain) {
    Chain chain = shortest(n);
    if (chain.length < 0) return 0;
    Circulation c(n);
    Simplex solver(c.graph);
    for (Number horizon = chain.length + up(amount, plain ? 1 : chain.rate);;) {
        Best best = solve(c, solver, 2 * horizon - 1);
        Number next = up(amount + best.cost, best.value);
        if (next >= horizon) return horizon;
        horizon = next;
    }
}

Number binary(const Network &n, Number amount) {
    Chain chain = shortest(n);
    if (chain.length < 0) return 0;
    Circulation c(n);
    Simplex solver(c.graph);
    Number below = chain.length, enough = chain.length + up(amount, chain.rate);
    while (enough - below > 1) {
        Number middle = (below + enough) / 2;
        Best best = solve(c, solver, 2 * middle);
        (middle * best.value - best.cost >= amount ? enough : below) = middle;
    }
    return enough;
}

int main() {
    std::ios::sync_with_stdio(false);
    std::string method;
    int repeats, links;
    Number target;
    while (std::cin >> method >> repeats >> target) {
        Network n;
        std::cin >> n.places >> n.origin >> n.destination >> links;
        n.links.resize(links);
        for (Link &l : n.links) std::cin >> l.start >> l.end >> l.capacity >> l.transit;
        std::vector<Number> times;
        Number answer = -1;
        for (int i = 0; i < repeats; ++i) {
            auto begin = std::chrono::steady_clock::now();
            if (method == "most-simplex") answer = most<Simplex>(n, target);
            if (method == "most-scaling") answer = most<Scaling>(n, target);
            if (method == "plan-newton") answer = newton(n, target, false);
            if (method == "plan-plain") answer = newton(n, target, true);
            if (method == "plan-binary") answer = binary(n, target);
            auto end = std::chrono::steady_clock::now();
            times.push_back(std::chrono::duration_cast<std::chrono::nanoseconds>(end - begin).count());
        }
        std::sort(times.begin(), times.end());
        std::cout << answer << ' ' << times[times.size() / 2] << std::endl;
    }
}

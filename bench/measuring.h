/* LEMON's answer for a network, and median processor times of calls that take turns. */
#pragma once
#include <lemon/adaptors.h>
#include <lemon/capacity_scaling.h>
#include <lemon/connectivity.h>
#include <lemon/cost_scaling.h>
#include <lemon/dijkstra.h>
#include <lemon/network_simplex.h>
#include <lemon/preflow.h>
#include <lemon/smart_graph.h>
#include <malloc.h>

#include <algorithm>
#include <ctime>
#include <functional>
#include <vector>

#include "networks.h"

/* LEMON's graph with lengths, capacities or costs, and supplies. The maps come last: made first, they would grow arc by arc. */
struct Net : lemon::SmartDigraph {
    explicit Net(const Instance &x) {
        reserveNode(x.n);
        reserveArc((int)x.arcs.size());
        for (int v = 0; v < x.n; v++) addNode();
        for (const Record &e : x.arcs) addArc(nodeFromId(e.a), nodeFromId(e.b));
    }
};
struct Graph {
    Net net;
    lemon::SmartDigraph::ArcMap<int> weight;
    lemon::SmartDigraph::NodeMap<int> supply;
    explicit Graph(const Instance &x) : net(x), weight(net), supply(net) {
        for (size_t i = 0; i < x.arcs.size(); i++) weight[net.arcFromId((int)i)] = x.arcs[i].w;
        if (x.question == PAIRING)
            for (int v = 0; v < x.n; v++) supply[net.nodeFromId(v)] = v < x.s ? 1 : -1;
    }
};

/* The least cost of a pairing by one of LEMON's algorithms for flows of least cost, with its network and supplies in place. */
template <class Algorithm> static long long least_cost(Algorithm &flow) {
    return flow.run() == Algorithm::OPTIMAL ? flow.template totalCost<long long>() : NONE;
}

/* Network simplex takes supplies that may stay where they are. */
static long long by_simplex(const Graph &g) {
    typedef lemon::NetworkSimplex<lemon::SmartDigraph> Simplex;
    Simplex flow(g.net);
    return least_cost(flow.costMap(g.weight).supplyMap(g.supply).supplyType(Simplex::LEQ));
}

/* Cost scaling and capacity scaling take demands that may stay unmet: where pumps are to spare the sites supply, and arcs lead to the pumps. */
template <template <class...> class Scaling> static long long by_scaling(const Instance &x, const Graph &g) {
    typedef lemon::SmartDigraph D;
    typedef lemon::ReverseDigraph<const D> Turned;
    if (2 * x.s == x.n) {
        Scaling<D> flow(g.net);
        return least_cost(flow.costMap(g.weight).supplyMap(g.supply));
    }
    Turned turned(g.net);
    Scaling<Turned> flow(turned);
    return least_cost(flow.costMap(g.weight).supplyMap(lemon::negMap(g.supply)));
}

/* How many of LEMON's algorithms can be asked a question: which is fastest for a pairing depends on the network. */
static int algorithms(int question) { return question == PAIRING ? 3 : 1; }

static long long lemon_answer(const Instance &x, const Graph &g, int algorithm = 0) {
    typedef lemon::SmartDigraph D;
    D::Node s = g.net.nodeFromId(x.s), t = g.net.nodeFromId(x.t);
    if (x.question == ROUTE) {
        lemon::Dijkstra<D> search(g.net, g.weight);
        return search.run(s, t) ? search.dist(t) : NONE; /* stops at t */
    }
    if (x.question == DISCHARGE) {
        lemon::Preflow<D> flow(g.net, g.weight, s, t);
        flow.run(); /* both phases: the flow and the cut */
        return flow.flowValue();
    }
    if (x.question == LOOPS) return lemon::dag(g.net) ? 0 : NONE;
    return algorithm == 0 ? by_simplex(g) : algorithm == 1 ? by_scaling<lemon::CostScaling>(x, g)
         : by_scaling<lemon::CapacityScaling>(x, g);
}

/* What was freed is kept for later calls: giving it back to the system and taking it again would be most of LEMON's time for some networks. */
static void keep_memory() {
    mallopt(M_TRIM_THRESHOLD, 1 << 30);
    mallopt(M_MMAP_THRESHOLD, 1 << 30);
}

/* Processor time in milliseconds: waiting for others on the machine does not count. */
static double now() {
    timespec t;
    clock_gettime(CLOCK_THREAD_CPUTIME_ID, &t);
    return (double)t.tv_sec * 1e3 + (double)t.tv_nsec * 1e-6;
}

/* The median time of each call. The calls take turns of so many milliseconds each, at least one call in a turn, so that a busy machine
   slows all of them alike. */
static std::vector<double> medians(const std::vector<std::function<void()>> &calls, int turns = 4, double share = 50) {
    std::vector<std::vector<double>> times(calls.size());
    for (int turn = 0; turn < turns; turn++)
        for (size_t i = 0; i < calls.size(); i++) {
            double total = 0;
            do {
                double before = now();
                calls[i]();
                times[i].push_back(now() - before);
                total += times[i].back();
            } while (total < share);
        }
    std::vector<double> result;
    for (std::vector<double> &list : times) {
        std::sort(list.begin(), list.end());
        result.push_back((list[(list.size() - 1) / 2] + list[list.size() / 2]) / 2);
    }
    return result;
}

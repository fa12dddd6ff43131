/* The networks that are measured: families at full size, the same on every machine. */
#pragma once
#include <algorithm>
#include <cstdint>
#include <string>
#include <utility>
#include <vector>

enum { ROUTE = 1, DISCHARGE = 2, PAIRING = 3, LOOPS = 4 };
const int NODES = 255, ARCS = 4096, HEAVIEST = 32767;
/* Of the arcs of a route or a discharge so many are basins, and the rest are other arcs. */
const int BASINS = 64, OTHERS = ARCS - BASINS;
const long long NONE = -1;

struct Record { int a, b, w; };
struct Instance {
    std::string name;
    int question, n, s, t;
    std::vector<Record> arcs;
};

/* The generator: the same numbers on every machine (splitmix64). */
static uint64_t state;
static uint64_t draw() {
    uint64_t z = state += 0x9e3779b97f4a7c15u;
    z = (z ^ (z >> 30)) * 0xbf58476d1ce4e5b9u;
    z = (z ^ (z >> 27)) * 0x94d049bb133111ebu;
    return z ^ (z >> 31);
}
static int below(int k) { return (int)(draw() % (uint64_t)k); }
static int between(int low, int high) { return low + below(high - low + 1); }

template <class T> static void mix(std::vector<T> &list) {
    for (int i = (int)list.size() - 1; i > 0; i--) std::swap(list[i], list[below(i + 1)]);
}

/* A random arc between two of the vertices low to high - 1. */
static Record anywhere(int low, int high) {
    int a = between(low, high - 1), b = between(low, high - 2);
    return {a, b + (b >= a), below(HEAVIEST + 1)};
}

static Instance start(const std::string &name, int question, int n) {
    state = 20260501;
    for (char c : name) state = state * 31 + (unsigned char)c;
    return {name, question, n, 0, question == ROUTE || question == DISCHARGE ? n - 1 : 0, {}};
}

/* The basins: at the source, at the sink and anywhere, every fourth without length or capacity. */
static void add_basins(Instance &x) {
    for (int i = 0; i < BASINS; i++) {
        int v = i == 0 ? x.s : i == 1 ? x.t : below(x.n), w = below(HEAVIEST + 1);
        x.arcs.push_back({v, v, i % 4 == 3 ? 0 : w});
    }
}

static Instance random_arcs(const char *name, int question) {
    Instance x = start(name, question, NODES);
    while ((int)x.arcs.size() < OTHERS) x.arcs.push_back(anywhere(0, NODES));
    add_basins(x);
    mix(x.arcs);
    return x;
}

/* One chain through all vertices, its last arc first; the other arcs lead backwards, and shorten nothing. */
static Instance route_chain() {
    Instance x = start("route reversed chain", ROUTE, NODES);
    for (int v = NODES - 1; v > 0; v--) x.arcs.push_back({v - 1, v, between(1, HEAVIEST)});
    while ((int)x.arcs.size() < OTHERS) {
        Record e = anywhere(0, NODES);
        x.arcs.push_back({std::max(e.a, e.b), std::min(e.a, e.b), e.w});
    }
    add_basins(x);
    return x;
}

/* The same kind of chain, with all arcs in mixed order. */
static Instance route_chain_mixed() {
    Instance x = route_chain();
    x.name = "route mixed chain";
    mix(x.arcs);
    return x;
}

/* Jumps of 1 to 16 vertices, the last first. The longest jumps come soonest, and every way with more arcs is shorter:
   a search by passes or with a queue betters each vertex about as often as there are vertices before it. */
static Instance route_quadratic() {
    Instance x = start("route quadratic", ROUTE, NODES);
    for (int v = NODES - 1; v > 0; v--)
        for (int jump = 1; jump <= 16 && jump <= v; jump++)
            x.arcs.push_back({v - jump, v, jump == 1 ? 1 : 2000 * jump + below(100)});
    add_basins(x);
    return x;
}

/* Eight blocks in which two arcs without length lead to the next vertex but one, and a third arc leads there directly, its length halved from
   step to step: a search that takes vertices as they come betters the last ones exponentially often. A chain joins the blocks. */
static Instance route_exponential() {
    Instance x = start("route exponential", ROUTE, NODES);
    for (int block = 0; block < 8; block++)
        for (int k = 0; k < 14; k++) {
            int v = 30 * block + 2 * k;
            x.arcs.push_back({v, v + 1, 0});
            x.arcs.push_back({v + 1, v + 2, 0});
            x.arcs.push_back({v, v + 2, 1 << (14 - k)});
        }
    for (int v = 0; v < NODES - 1; v++) x.arcs.push_back({v, v + 1, 1});
    while ((int)x.arcs.size() < OTHERS) {
        Record e = anywhere(0, NODES);
        x.arcs.push_back({std::min(e.a, e.b), std::max(e.a, e.b), HEAVIEST});
    }
    add_basins(x);
    return x;
}

/* Fifteen parallel arcs to the next vertex, each shorter than the one before it: every arc betters. */
static Instance route_parallel() {
    Instance x = start("route parallel", ROUTE, NODES);
    for (int v = 0; v < NODES - 1; v++)
        for (int k = 0; k < 15; k++) x.arcs.push_back({v, v + 1, 2000 * (15 - k) + below(2000)});
    add_basins(x);
    return x;
}

/* From the source to k middle vertices and on to the sink; the other arcs join all vertices but the source and the sink. */
static Instance discharge_fan(const char *name, int k) {
    Instance x = start(name, DISCHARGE, NODES);
    for (int v = 1; v <= k; v++) {
        x.arcs.push_back({0, v, between(1, HEAVIEST)});
        x.arcs.push_back({v, NODES - 1, between(1, HEAVIEST)});
    }
    while ((int)x.arcs.size() < OTHERS) x.arcs.push_back(anywhere(1, NODES - 1));
    add_basins(x);
    mix(x.arcs);
    return x;
}

/* The source, layers of so many vertices each, the sink; equally many random arcs from each of these to the next, and basins. */
static Instance discharge_layered(const char *name, int layers, int width, bool reversed) {
    Instance x = start(name, DISCHARGE, layers * width + 2);
    state = (uint64_t)layers; /* the same network in both orders */
    auto pick = [&](int layer) { return layer == 0 ? 0 : layer > layers ? x.n - 1 : 1 + (layer - 1) * width + below(width); };
    for (int layer = 0; layer <= layers; layer++)
        for (int i = 0; i < OTHERS / (layers + 1); i++) {
            int a = pick(layer), b = pick(layer + 1);
            x.arcs.push_back({a, b, between(1, HEAVIEST)});
        }
    add_basins(x);
    if (reversed) std::reverse(x.arcs.begin(), x.arcs.end());
    else mix(x.arcs);
    return x;
}

/* A grid with arcs both ways between neighbours, the source before its first column and the sink after its last. */
static Instance discharge_grid(const char *name, int rows, int columns) {
    Instance x = start(name, DISCHARGE, rows * columns + 2);
    auto at = [&](int r, int c) { return 1 + r * columns + c; };
    auto both = [&](int a, int b) {
        x.arcs.push_back({a, b, between(1, HEAVIEST)});
        x.arcs.push_back({b, a, between(1, HEAVIEST)});
    };
    for (int r = 0; r < rows; r++) {
        x.arcs.push_back({0, at(r, 0), HEAVIEST});
        x.arcs.push_back({at(r, columns - 1), x.n - 1, HEAVIEST});
        for (int c = 0; c + 1 < columns; c++) both(at(r, c), at(r, c + 1));
        if (r + 1 < rows)
            for (int c = 0; c < columns; c++) both(at(r, c), at(r + 1, c));
    }
    add_basins(x);
    mix(x.arcs);
    return x;
}

/* Arcs from lower to higher vertices only. */
static Instance discharge_acyclic() {
    Instance x = start("discharge acyclic", DISCHARGE, NODES);
    while ((int)x.arcs.size() < OTHERS) {
        Record e = anywhere(0, NODES);
        x.arcs.push_back({std::min(e.a, e.b), std::max(e.a, e.b), e.w});
    }
    add_basins(x);
    mix(x.arcs);
    return x;
}

/* Every arc between 64 vertices. */
static Instance discharge_complete() {
    Instance x = start("discharge complete 64", DISCHARGE, 64);
    for (int a = 0; a < x.n; a++)
        for (int b = 0; b < x.n; b++)
            if (a != b) x.arcs.push_back({a, b, below(HEAVIEST + 1)});
    add_basins(x);
    mix(x.arcs);
    return x;
}

/* The source, two sides of 126 vertices with random arcs between them, and the sink; every capacity is 1. */
static Instance discharge_unit() {
    Instance x = start("discharge unit bipartite", DISCHARGE, 254);
    int side = 126;
    for (int v = 1; v <= side; v++) {
        x.arcs.push_back({0, v, 1});
        x.arcs.push_back({side + v, x.n - 1, 1});
    }
    while ((int)x.arcs.size() < 6 * side) {
        int a = below(side), b = below(side);
        x.arcs.push_back({1 + a, side + 1 + b, 1});
    }
    add_basins(x);
    mix(x.arcs);
    return x;
}

/* After Cherkassky and Goldberg's AK: two parts beside each other, of three chains of k arcs each. In the first every vertex of the first chain
   has an arc of capacity 1 to the second; in the second arcs lead along the second chain, each capacity one less than that before it. */
static Instance discharge_ak() {
    Instance x = start("discharge AK", DISCHARGE, 254);
    int k = 41, most = 20000;
    for (int part = 0; part < 2; part++) {
        int first = 1 + part * 126, second = first + k, third = second + k;
        x.arcs.push_back({0, first, HEAVIEST});
        x.arcs.push_back({third + k, x.n - 1, HEAVIEST});
        for (int i = 0; i < k; i++) {
            x.arcs.push_back({first + i, first + i + 1, part == 0 ? most - i : most});
            if (part == 0) {
                x.arcs.push_back({first + i, second + i + 1, 1});
                x.arcs.push_back({second + i + 1, second + i + 2, most});
            } else {
                x.arcs.push_back({second + i, third - i, i + 1});
                x.arcs.push_back({second + i, second + i + 1, most - i});
            }
            x.arcs.push_back({third + i, third + i + 1, most});
        }
    }
    return x;
}

/* Goldfarb and Grigoriadis' RMF: square frames of side times side vertices, wide arcs both ways between neighbours of a frame, and narrow
   arcs from each vertex of a frame to one of the next, no two to the same. */
static Instance discharge_rmf(const char *name, int side, int frames) {
    int size = side * side;
    Instance x = start(name, DISCHARGE, size * frames);
    auto both = [&](int a, int b) {
        x.arcs.push_back({a, b, HEAVIEST});
        x.arcs.push_back({b, a, HEAVIEST});
    };
    for (int front = 0; front < x.n; front += size) {
        for (int r = 0; r < side; r++)
            for (int c = 0; c < side; c++) {
                int v = front + r * side + c;
                if (c + 1 < side) both(v, v + 1);
                if (r + 1 < side) both(v, v + side);
            }
        if (front + size == x.n) continue;
        std::vector<int> heads;
        for (int i = 0; i < size; i++) heads.push_back(front + size + i);
        mix(heads);
        for (int i = 0; i < size; i++) x.arcs.push_back({front + i, heads[i], between(1, 1000)});
    }
    return x;
}

/* RLG, a random levelled graph: columns of so many rows, d arcs from each vertex to any of the next column. */
static Instance discharge_rlg(const char *name, int rows, int columns, int d) {
    Instance x = start(name, DISCHARGE, rows * columns + 2);
    for (int r = 0; r < rows; r++) {
        x.arcs.push_back({0, 1 + r, HEAVIEST});
        x.arcs.push_back({1 + (columns - 1) * rows + r, x.n - 1, HEAVIEST});
    }
    for (int c = 0; c + 1 < columns; c++)
        for (int i = 0; i < rows * d; i++) {
            int head = 1 + (c + 1) * rows + below(rows);
            x.arcs.push_back({1 + c * rows + i / d, head, between(1, HEAVIEST)});
        }
    mix(x.arcs);
    return x;
}

/* How many pumps and sites a pairing has. */
struct Sides { int pumps, sites; };
const Sides EVEN = {127, 127}, DENSE = {64, 64}, TWICE = {170, 85}, TENFOLD = {232, 23};

static Instance start_pairing(const std::string &name, Sides z) {
    Instance x = start(name, PAIRING, z.pumps + z.sites);
    x.s = z.pumps;
    return x;
}

/* The sites in a random order. Where pump i leads to the site i of it, counted round, there is a pairing unless sites are more than pumps. */
static std::vector<int> mixed_sites(Sides z) {
    std::vector<int> sites;
    for (int j = 0; j < z.sites; j++) sites.push_back(z.pumps + j);
    mix(sites);
    return sites;
}

/* Random arcs over a hidden pairing. */
static Instance pairing_random(const std::string &name, Sides z, int heaviest) {
    Instance x = start_pairing(name, z);
    std::vector<int> sites = mixed_sites(z);
    for (int i = 0; i < z.pumps; i++) x.arcs.push_back({i, sites[i % z.sites], below(heaviest + 1)});
    while ((int)x.arcs.size() < ARCS) {
        int a = below(z.pumps), b = below(z.sites);
        x.arcs.push_back({a, z.pumps + b, below(heaviest + 1)});
    }
    mix(x.arcs);
    return x;
}

/* The same, where each pump has a price of its own besides: all sites want the same pumps. */
static Instance pairing_priced(const std::string &name, Sides z, int heaviest) {
    Instance x = pairing_random(name, z, heaviest);
    std::vector<int> prices;
    for (int i = 0; i < z.pumps; i++) prices.push_back(below(30000));
    for (Record &e : x.arcs) e.w += prices[e.a];
    return x;
}

/* Pump i to site i at a high cost and to later sites at low ones: the only pairing takes every dear arc, and one
   mistake moves all pumps after it. */
static Instance pairing_chain() {
    Instance x = start_pairing("pairing chain", EVEN);
    int h = x.s;
    for (int i = 0; i < h; i++) {
        x.arcs.push_back({i, h + i, between(30000, HEAVIEST)});
        if (i + 1 < h) x.arcs.push_back({i, h + i + 1, below(10)});
    }
    while ((int)x.arcs.size() < ARCS) {
        int i = below(h), j = below(h);
        if (i != j) x.arcs.push_back({std::min(i, j), h + std::max(i, j), below(1000)});
    }
    mix(x.arcs);
    return x;
}

/* To the last k + 1 sites only the last k pumps lead. */
static Instance pairing_none(const std::string &name, Sides z, int k) {
    Instance x = start_pairing(name, z);
    while ((int)x.arcs.size() < ARCS) {
        int i = below(z.pumps), j = below(i < z.pumps - k ? z.sites - k - 1 : z.sites);
        x.arcs.push_back({i, z.pumps + j, below(HEAVIEST + 1)});
    }
    return x;
}

/* The last two pumps lead to the last site only. */
static Instance pairing_none_late() {
    Instance x = start_pairing("pairing none late", EVEN);
    int h = x.s;
    while ((int)x.arcs.size() < ARCS) {
        int i = below(h), j = i < h - 2 ? below(h) : h - 1;
        x.arcs.push_back({i, h + j, below(HEAVIEST + 1)});
    }
    return x;
}

/* The spare pumps lead to the first eighth of the sites only, and cheaply: few of them can be of use. The others lead anywhere, at any cost. */
static Instance pairing_tempting(const std::string &name, Sides z) {
    Instance x = start_pairing(name, z);
    while ((int)x.arcs.size() < ARCS) {
        int i = below(z.pumps);
        bool spare = i >= z.sites;
        int j = below(spare ? z.sites / 8 : z.sites);
        x.arcs.push_back({i, z.pumps + j, below(spare ? 100 : HEAVIEST + 1)});
    }
    mix(x.arcs);
    return x;
}

/* Each pump to the sites at most `reach` away from its own, at a cost by their numbers. Each site is the own one of as many pumps, or nearly. */
template <class Cost> static Instance pairing_by(const std::string &name, Sides z, int reach, Cost cost) {
    Instance x = start_pairing(name, z);
    for (int i = 0; i < z.pumps; i++) {
        int own = i * z.sites / z.pumps;
        for (int j = std::max(0, own - reach); j <= std::min(z.sites - 1, own + reach); j++) x.arcs.push_back({i, z.pumps + j, cost(i, j)});
    }
    mix(x.arcs);
    return x;
}

/* Such costs. */
static int any_cost(int, int) { return below(HEAVIEST + 1); }
static int product(int i, int j) { return i * j; }
static int sum(int i, int j) { return i + j; }

/* The same, where every pump and every site has a random factor, and a cost is the product of two. */
static Instance pairing_products(const std::string &name, Sides z, int reach) {
    std::vector<int> factors;
    state = 5;
    for (int i = 0; i < z.pumps + z.sites; i++) factors.push_back(below(181));
    return pairing_by(name, z, reach, [&](int i, int j) { return factors[i] * factors[z.pumps + j]; });
}

/* d arcs from each pump, one of them of a hidden pairing. */
static Instance pairing_sparse(const std::string &name, Sides z, int d) {
    Instance x = start_pairing(name, z);
    std::vector<int> sites = mixed_sites(z);
    for (int i = 0; i < z.pumps; i++)
        for (int k = 0; k < d; k++) {
            int site = k == 0 ? sites[i % z.sites] : z.pumps + below(z.sites);
            x.arcs.push_back({i, site, below(HEAVIEST + 1)});
        }
    mix(x.arcs);
    return x;
}

/* A chain through all vertices in a hidden order, the other arcs forward along it: no loop. Closed, the last record leads from its end back to its start. */
static Instance loops_chain(const char *name, bool hidden, bool closed) {
    Instance x = start(name, LOOPS, NODES);
    std::vector<int> order;
    for (int v = 0; v < NODES; v++) order.push_back(NODES - 1 - v);
    if (hidden) mix(order);
    for (int i = 1; i < NODES; i++) x.arcs.push_back({order[i - 1], order[i], below(HEAVIEST + 1)});
    while ((int)x.arcs.size() < ARCS - closed) {
        Record e = anywhere(0, NODES);
        x.arcs.push_back({order[std::min(e.a, e.b)], order[std::max(e.a, e.b)], e.w});
    }
    if (hidden) mix(x.arcs);
    if (closed) x.arcs.push_back({order[NODES - 1], order[0], 0});
    return x;
}

/* Random arcs forward along a hidden order, and with a basin as the last record. */
static Instance loops_random(const char *name, bool basin) {
    Instance x = start(name, LOOPS, NODES);
    std::vector<int> order;
    for (int v = 0; v < NODES; v++) order.push_back(v);
    mix(order);
    while ((int)x.arcs.size() < ARCS - basin) {
        Record e = anywhere(0, NODES);
        x.arcs.push_back({order[std::min(e.a, e.b)], order[std::max(e.a, e.b)], e.w});
    }
    if (basin) x.arcs.push_back({order[NODES - 1], order[NODES - 1], 0});
    return x;
}

/* Every arc forward between 91 of the vertices, and one of them twice: 4096 arcs. */
static Instance loops_dense() {
    Instance x = start("loops dense", LOOPS, NODES);
    std::vector<int> order;
    for (int v = 0; v < NODES; v++) order.push_back(v);
    mix(order);
    for (int i = 0; i < 91; i++)
        for (int j = i + 1; j < 91; j++) x.arcs.push_back({order[i], order[j], below(HEAVIEST + 1)});
    x.arcs.push_back(x.arcs[0]);
    mix(x.arcs);
    return x;
}

static Instance loops_anywhere() {
    Instance x = start("loops random, none avoided", LOOPS, NODES);
    while ((int)x.arcs.size() < ARCS) x.arcs.push_back(anywhere(0, NODES));
    return x;
}

static std::vector<Instance> instances() {
    return {
        random_arcs("route random", ROUTE), route_chain(), route_quadratic(),
        random_arcs("discharge random", DISCHARGE),
        discharge_fan("discharge fan 60", 60), discharge_fan("discharge fan 126", 126),
        discharge_layered("discharge layered 5x50 mixed", 5, 50, false),
        discharge_layered("discharge layered 5x50 reversed", 5, 50, true),
        discharge_layered("discharge layered 25x10 mixed", 25, 10, false),
        discharge_layered("discharge layered 25x10 reversed", 25, 10, true),
        discharge_layered("discharge layered 84x3 mixed", 84, 3, false),
        discharge_layered("discharge layered 84x3 reversed", 84, 3, true),
        discharge_grid("discharge grid 15x16", 15, 16),
        pairing_random("pairing random, costs to 32767", EVEN, HEAVIEST), pairing_random("pairing random, costs to 100", EVEN, 100),
        pairing_random("pairing random, costs to 1", EVEN, 1), pairing_by("pairing band", EVEN, 16, any_cost), pairing_chain(),
        pairing_none("pairing none", EVEN, 63),
        loops_chain("loops reversed chain", false, false), loops_chain("loops mixed chain", true, false), loops_chain("loops closed chain", true, true),
        loops_random("loops random", false), loops_random("loops random and a basin", true), loops_dense(), loops_anywhere(),
    };
}

/* Further families: what is hard for one method or another. */
static std::vector<Instance> further_instances() {
    const int all = NODES;
    auto distance = [](int i, int j) { return (i - j) * (i - j); };
    return {
        route_chain_mixed(), route_exponential(), route_parallel(),
        discharge_layered("discharge layered 10x25 mixed", 10, 25, false),
        discharge_layered("discharge layered 50x5 mixed", 50, 5, false), discharge_layered("discharge layered 50x5 reversed", 50, 5, true),
        discharge_acyclic(), discharge_complete(), discharge_unit(), discharge_ak(),
        discharge_rmf("discharge RMF 6x7", 6, 7), discharge_rmf("discharge RMF 4x15", 4, 15), discharge_rmf("discharge RMF 11x2", 11, 2),
        discharge_rlg("discharge RLG 15x16, 3", 15, 16, 3), discharge_rlg("discharge RLG 4x63, 3", 4, 63, 3),
        discharge_rlg("discharge RLG 50x5, 16", 50, 5, 16), discharge_rlg("discharge RLG 2x126, 2", 2, 126, 2),
        pairing_by("pairing 64 random", DENSE, all, any_cost), pairing_by("pairing 64 i*j", DENSE, all, product),
        pairing_by("pairing 64 (i-j)^2", DENSE, all, distance), pairing_by("pairing 64 -i*j", DENSE, all, [](int i, int j) { return 63 * 63 - i * j; }),
        pairing_products("pairing band products", EVEN, 16), pairing_by("pairing band i*j", EVEN, 16, product),
        pairing_by("pairing band -i*j", EVEN, 16, [](int i, int j) { return 126 * 126 - i * j; }),
        pairing_by("pairing band (i-j)^2", EVEN, 16, distance), pairing_by("pairing band i+j", EVEN, 16, sum),
        pairing_sparse("pairing sparse 4", EVEN, 4), pairing_sparse("pairing sparse 2", EVEN, 2), pairing_none_late(),
    };
}

static std::string pairing_name(Sides z, const std::string &kind) {
    return "pairing " + std::to_string(z.pumps) + "+" + std::to_string(z.sites) + " " + kind;
}

static void append(std::vector<Instance> &list, const std::vector<Instance> &more) { list.insert(list.end(), more.begin(), more.end()); }

/* Families with spare pumps; and one with the sides exchanged, which has no pairing. */
static std::vector<Instance> spare_of(Sides z, int reach) {
    Sides few = {z.sites, z.pumps};
    auto name = [&](const char *kind) { return pairing_name(z, kind); };
    return {
        pairing_random(name("random, costs to 32767"), z, HEAVIEST), pairing_random(name("random, costs to 100"), z, 100),
        pairing_random(name("random, costs to 1"), z, 1), pairing_by(name("band"), z, reach, any_cost), pairing_tempting(name("tempting"), z),
        pairing_none(name("none"), z, z.sites / 2), pairing_random(pairing_name(few, "none"), few, HEAVIEST),
    };
}

/* Further families with spare pumps. `dense` has few enough pumps and sites for every arc between them. */
static std::vector<Instance> further_spare_of(Sides z, int reach, Sides dense) {
    auto name = [&](const char *kind) { return pairing_name(z, kind); };
    auto falling = [](int i, int j) { return 16000 - i * j; };
    return {
        pairing_priced(name("priced"), z, 1000), pairing_priced(name("prices alone"), z, 0), pairing_none(name("none late"), z, 1),
        pairing_products(name("band products"), z, reach), pairing_by(name("band i*j"), z, reach, product),
        pairing_by(name("band -i*j"), z, reach, falling), pairing_by(name("band i+j"), z, reach, sum),
        pairing_sparse(name("sparse 4"), z, 4), pairing_sparse(name("sparse 2"), z, 2),
        pairing_by(pairing_name(dense, "i*j"), dense, NODES, product), pairing_by(pairing_name(dense, "-i*j"), dense, NODES, falling),
    };
}

static std::vector<Instance> spare_instances() {
    std::vector<Instance> list = spare_of(TWICE, 11);
    append(list, spare_of(TENFOLD, 8));
    return list;
}

static std::vector<Instance> further_spare_instances() {
    std::vector<Instance> list = further_spare_of(TWICE, 11, {90, 45});
    append(list, further_spare_of(TENFOLD, 8, {204, 20}));
    return list;
}

/* Judging plans against a verifier in C, and the helper with judging against LEMON, in one run. Ends with 1 if two outcomes differ.
   First a table for plans of full size, then damaged plans, of which both verifiers must say the same. A time for two calls is the sum
   of their medians.
   The helper, judging and the verifier in C start from the bytes of files, LEMON from a list of records or from a graph of it. */
#include <cstdio>
#include <map>

#include "measuring.h"
#include "verifier.h"

extern "C" uint64_t panel_judge(const uint8_t *net, size_t net_len, const uint8_t *ann, size_t ann_len, uint32_t first, uint32_t second);
extern "C" uint64_t panel_annotate(const uint8_t *net, size_t net_len, uint8_t *buffer, size_t buffer_len);

typedef std::vector<uint8_t> File;
struct Plan { File net, ann; };

const struct pair POINT = {1234567890, 987654321};

/* The places of the arc i in the two files, or of their ends. */
static size_t in_network(size_t i) { return 11 + 4 * i; }
static size_t in_annotation(const Instance &x, size_t i) { return 8 + 4 * (size_t)x.n + 6 * i; }

/* A field of so many bytes. */
static void put(File &file, size_t at, int size, int64_t k) {
    for (; size > 0; k >>= 8) file[at + (size_t)--size] = (uint8_t)k;
}

static File network_file(const Instance &x) {
    File file = {'D', 'R', 'N', 0, 1, (uint8_t)x.question, (uint8_t)x.n, (uint8_t)x.s, (uint8_t)x.t};
    file.resize(in_network(x.arcs.size()));
    put(file, 9, 2, (int64_t)x.arcs.size());
    for (size_t i = 0; i < x.arcs.size(); i++) {
        put(file, in_network(i), 1, x.arcs[i].a);
        put(file, in_network(i) + 1, 1, x.arcs[i].b);
        put(file, in_network(i) + 2, 2, x.arcs[i].w);
    }
    return file;
}

static uint64_t annotate(Plan &p) { return panel_annotate(p.net.data(), p.net.size(), p.ann.data(), p.ann.size()); }

/* A network file and the helper's annotation of it. */
static Plan planned(const Instance &x) {
    Plan p = {network_file(x), File(in_annotation(x, x.arcs.size()))};
    annotate(p);
    return p;
}

/* A slice of no bytes too needs an address. */
static const uint8_t *bytes(const File &file) { return file.empty() ? (const uint8_t *)"" : file.data(); }

static uint64_t ours(const Plan &p, struct pair point) {
    return panel_judge(bytes(p.net), p.net.size(), bytes(p.ann), p.ann.size(), point.first, point.second);
}
static uint64_t in_c(const Plan &p, struct pair point) { return judge_files(bytes(p.net), p.net.size(), bytes(p.ann), p.ann.size(), point); }

static std::string shown(uint64_t outcome) {
    if (outcome < NO_VALUE) return "value " + std::to_string(outcome);
    return outcome == NO_VALUE ? "none" : "refused " + std::to_string(outcome - NO_VALUE);
}

/* Prints one row of the table. Are all answers the same? */
static bool measure(const Instance &x, Plan p) {
    Graph graph(x);
    uint64_t length = 0, first = 0, second = 0;
    long long solved = 0, rebuilt = 0;
    std::vector<double> ms = medians({
        [&] { length = annotate(p); },
        [&] { solved = lemon_answer(x, graph); },
        [&] { rebuilt = lemon_answer(x, Graph(x)); },
    });
    /* call by call: a slow moment of the machine then falls on both */
    std::vector<double> judged = medians({[&] { first = ours(p, POINT); }, [&] { second = in_c(p, POINT); }}, 2000, 0);
    double helper = ms[0], lemon = ms[1], built = ms[2], judge = judged[0], c = judged[1], both = helper + judge;
    std::printf("| %s | %.3f | %.3f | %.2f | %.3f | %.3f | %.3f | %.3f | %.2f | %.3f | %.2f |\n", x.name.c_str(), judge, c, judge / c,
                judge * 1e3 / (double)x.arcs.size(), helper, both, lemon, both / lemon, built, both / built);
    std::fflush(stdout);
    uint64_t third = solved == NONE ? NO_VALUE : (uint64_t)solved;
    if (length == p.ann.size() && first == second && second == third && solved == rebuilt) return true;
    std::printf("!!! MISMATCH !!! %s: ours %s, C %s, LEMON %s\n", x.name.c_str(), shown(first).c_str(), shown(second).c_str(),
                shown(third).c_str());
    return false;
}

/* How many damaged plans were tried, of how many the verifiers differed, and how often each outcome came, 0 standing for all values. */
static int tried, differing;
static std::map<uint64_t, int> seen;

static void print_bytes(const char *name, const File &file) {
    std::printf("  %s", name);
    for (uint8_t b : file) std::printf(" %02X", b);
    std::printf("\n");
}

static void attempt(const Plan &p, struct pair point = POINT) {
    uint64_t first = ours(p, point), second = in_c(p, point);
    tried++;
    seen[first < NO_VALUE ? 0 : first]++;
    if (first == second || ++differing > 10) return; /* ten are printed */
    std::printf("!!! MISMATCH !!! at the points %u and %u: ours %s, C %s\n", point.first, point.second, shown(first).c_str(), shown(second).c_str());
    print_bytes("network", p.net);
    print_bytes("annotation", p.ann);
}

/* Each byte changed to each other value. */
static void change_bytes(Plan p, struct pair point) {
    for (File *file : {&p.net, &p.ann})
        for (uint8_t &b : *file) {
            for (int k = 1; k < 256; k++) b++, attempt(p, point);
            b++; /* as it was */
        }
}

/* Each byte of an arc changed to each other value in both files: the fingerprints agree, and later checks are reached. */
static void change_arcs(const Instance &x, Plan p) {
    for (size_t i = 0; i < 4 * x.arcs.size(); i++) {
        uint8_t &a = p.net[in_network(i / 4) + i % 4], &b = p.ann[in_annotation(x, i / 4) + i % 4];
        for (int k = 1; k < 256; k++) a++, b++, attempt(p);
        a++, b++;
    }
}

/* Node numbers, weights (in both files) and amounts at the ends of what is allowed, and just past them. */
static void change_fields(const Instance &x, const Plan &p) {
    for (int v = 0; v < x.n; v++)
        for (int64_t y : {-2147483648ll, -8322819ll, -8322818ll, -1ll, 0ll, 1ll, 2ll, 8322818ll, 8322819ll, 2147483647ll}) {
            Plan q = p;
            put(q.ann, 8 + 4 * (size_t)v, 4, y);
            attempt(q);
        }
    for (size_t i = 0; i < x.arcs.size(); i++)
        for (int w : {0, 32767, 32768, 65535})
            for (int amount : {0, 1, 2, 32767, 32768, 65535}) {
                Plan q = p;
                put(q.net, in_network(i) + 2, 2, w);
                put(q.ann, in_annotation(x, i) + 2, 2, w);
                put(q.ann, in_annotation(x, i) + 4, 2, amount);
                attempt(q);
            }
}

/* All node numbers moved by as much. Where pumps are to spare that changes the sum of check 16, and else it does not. */
static void move_numbers(const Instance &x, const Plan &p) {
    for (int by : {-8322818, -1, 1, 2, 8322818}) {
        Plan q = p;
        for (size_t i = 8; i < in_annotation(x, 0); i += 4) put(q.ann, i, 4, (int64_t)number32(&p.ann[i]) + by);
        attempt(q);
    }
}

/* Each choice of arcs, with an amount of 1 on those chosen and 0 on the others. */
static void choose_arcs(const Instance &x, Plan p) {
    for (int choice = 0; choice < 1 << x.arcs.size(); choice++) {
        for (size_t i = 0; i < x.arcs.size(); i++) put(p.ann, in_annotation(x, i) + 4, 2, choice >> i & 1);
        attempt(p);
    }
}

/* Each file cut off after each byte, and with one byte more. */
static void change_length(const Plan &p) {
    for (File Plan::*file : {&Plan::net, &Plan::ann})
        for (size_t size = 0; size <= (p.*file).size() + 1; size++) {
            Plan q = p;
            (q.*file).resize(size);
            attempt(q);
        }
}

/* Of the repeated arcs those listed, in that order. */
static Plan repeating(const Instance &x, const Plan &p, const std::vector<size_t> &list) {
    Plan q = {p.net, File(p.ann.begin(), p.ann.begin() + (long)in_annotation(x, 0))};
    put(q.ann, 6, 2, (int64_t)list.size());
    for (size_t i : list) q.ann.insert(q.ann.end(), &p.ann[in_annotation(x, i)], &p.ann[in_annotation(x, i)] + 6);
    return q;
}

/* Fewer and more arcs repeated than read, in the order of the file and in the other. */
static void change_count(const Instance &x, const Plan &p) {
    std::vector<size_t> list;
    for (size_t count = 0; count <= x.arcs.size() + 2; count++) {
        attempt(repeating(x, p, list));
        attempt(repeating(x, p, {list.rbegin(), list.rend()}));
        list.push_back(count % x.arcs.size());
    }
}

static uint32_t key(const Record &e) { return (uint32_t)e.a * 8388608u + (uint32_t)e.b * 32768u + (uint32_t)e.w; }

/* Pairs of points at both ends of the range and beyond. */
static void change_point(const Plan &p) {
    for (uint32_t first : {0u, 1u, PRIME - 1, PRIME, PRIME + 1, 4294967295u})
        for (uint32_t second : {0u, 1u, PRIME - 1, PRIME, PRIME + 1, 4294967295u}) attempt(p, {first, second});
}

/* So many random bytes of both files changed at once, at a random pair of points; as often as told. */
static void change_randomly(const Plan &p, int count, int times) {
    while (times-- > 0) {
        Plan q = p;
        for (int k = 0; k < count; k++) {
            size_t i = (size_t)below((int)(q.net.size() + q.ann.size())), size = q.net.size();
            (i < size ? q.net[i] : q.ann[i - size]) ^= (uint8_t)between(1, 255);
        }
        attempt(q, {(uint32_t)below((int)PRIME), (uint32_t)below((int)PRIME)});
    }
}

/* Pairing without arcs. All marks are alike but one at each place, alone and beside that of pump 0 or of the last site: each mark counts, on its side. */
static void mark_each(int n, int pumps) {
    Plan p = planned({"marks", PAIRING, n, pumps, 0, {}});
    for (bool rest : {false, true})
        for (int v = 0; v < n; v++)
            for (int beside : {v, 0, n - 1}) {
                for (int u = 0; u < n; u++) put(p.ann, 8 + 4 * (size_t)u, 4, (u == v || u == beside) != rest);
                attempt(p);
            }
}

/* Of each size, half of the junctions being pumps, or nearly; and of the greatest with each number of pumps. */
static void mark_all() {
    for (int n = 2; n < NODES; n++)
        for (int pumps = n / 2; pumps <= (n + 1) / 2; pumps++) mark_each(n, pumps);
    for (int pumps = 1; pumps < NODES; pumps++) mark_each(NODES, pumps);
}

/* A small plan of each of the seven certificates; of routes and discharges also with basins, at the source, at the sink and between,
   of pairings also with pumps to spare and with too few. */
static std::vector<Instance> small_instances() {
    std::vector<Record> arcs = {{0, 1, 2}, {1, 3, 5}, {0, 2, 4}, {2, 3, 2}, {1, 2, 1}};
    std::vector<Record> basins = {{0, 0, 3}, {0, 1, 2}, {1, 1, 0}, {1, 3, 5}, {0, 2, 4}, {2, 3, 2}, {1, 2, 1}, {3, 3, 1}, {1, 1, 0}};
    return {
        {"route", ROUTE, 4, 0, 3, arcs},
        {"discharge", DISCHARGE, 4, 0, 3, arcs},
        {"route with basins", ROUTE, 4, 0, 3, basins},
        {"discharge with basins", DISCHARGE, 4, 0, 3, basins},
        {"route none with basins", ROUTE, 4, 0, 3, {{0, 0, 2}, {1, 0, 4}, {3, 3, 5}, {2, 2, 0}}},
        {"basins alone", DISCHARGE, 2, 0, 1, {{0, 0, 3}, {1, 1, 2}}},
        {"pairing", PAIRING, 4, 2, 0, {{0, 2, 3}, {0, 3, 1}, {1, 2, 4}, {1, 3, 5}}},
        {"pairing with a spare pump", PAIRING, 3, 2, 0, {{0, 2, 5}, {1, 2, 3}}},
        {"pairing with spare pumps", PAIRING, 6, 4, 0, {{0, 4, 3}, {0, 5, 1}, {1, 4, 9}, {2, 5, 7}, {3, 5, 2}, {2, 4, 8}}},
        {"pairing with pumps of no cost", PAIRING, 5, 3, 0, {{0, 3, 0}, {1, 3, 0}, {1, 4, 0}, {2, 4, 0}, {0, 4, 0}}},
        {"pairing of one pump", PAIRING, 2, 1, 0, {{0, 1, 6}}},
        {"route none", ROUTE, 4, 0, 3, {{0, 1, 2}, {1, 0, 4}, {3, 2, 5}, {3, 1, 1}}},
        {"pairing none", PAIRING, 4, 2, 0, {{0, 2, 3}, {1, 2, 4}}},
        {"pairing none with spare pumps", PAIRING, 6, 4, 0, {{0, 4, 3}, {0, 5, 1}}},
        {"pairing none, and a site that is served", PAIRING, 7, 4, 0, {{0, 4, 3}, {0, 5, 1}, {1, 6, 2}, {2, 6, 2}, {1, 6, 7}}},
        {"pairing none by too few pumps", PAIRING, 3, 1, 0, {{0, 1, 1}, {0, 2, 1}}},
        {"loops", LOOPS, 4, 0, 0, arcs},
        {"loops none", LOOPS, 4, 0, 0, {{0, 1, 2}, {1, 3, 0}, {2, 1, 4}, {3, 2, 0}, {1, 3, 0}}},
        {"loops none by a basin", LOOPS, 3, 0, 0, {{0, 1, 2}, {2, 2, 0}}},
    };
}

static void damage_small() {
    for (const Instance &x : small_instances()) {
        Plan p = planned(x);
        change_bytes(p, POINT);
        uint32_t r = key(x.arcs.back()); /* a point where both products are 0 while that arc stands in both files */
        change_bytes(p, {r, r});
        change_bytes(p, {r, POINT.second});
        change_bytes(p, {POINT.first, r});
        change_arcs(x, p);
        change_fields(x, p);
        move_numbers(x, p);
        choose_arcs(x, p);
        change_length(p);
        change_count(x, p);
        change_point(p);
        change_randomly(p, 2, 2000);
    }
}

static void damage_large(Instance x, const Plan &p) {
    change_randomly(p, 1, 40);
    while ((int)x.arcs.size() <= ARCS) x.arcs.push_back(x.arcs[0]);
    attempt({network_file(x), p.ann});
}

/* Were there values, nones and each refusal of judging? 5 and 20 are none of its refusals. */
static bool all_seen() {
    bool all = seen[0] && seen[NO_VALUE];
    for (uint64_t k = 1; k < 20; k++) all = all && (k == 5 || seen[NO_VALUE + k]);
    return all;
}

static void print_seen() {
    std::printf("\nDamaged plans: %d; value %d, none %d", tried, seen[0], seen[NO_VALUE]);
    for (auto &entry : seen)
        if (entry.first > NO_VALUE) std::printf(", %s: %d", shown(entry.first).c_str(), entry.second);
    std::printf(".\n");
}

int main() {
    keep_memory();
    std::vector<Instance> list = instances();
    append(list, spare_instances());
    bool same = true;
    std::printf("| family | judge ms | C ms | ratio | judge µs a record | helper ms | helper and judge ms | LEMON ms | ratio | LEMON with building ms | ratio |\n");
    std::printf("|---|---|---|---|---|---|---|---|---|---|---|\n");
    for (const Instance &x : list) {
        Plan p = planned(x);
        same = measure(x, p) && same;
        damage_large(x, p);
    }
    damage_small();
    mark_all();
    print_seen();
    if (!all_seen()) std::printf("!!! Some outcome never came.\n");
    if (differing > 0) std::printf("!!! MISMATCH !!! %d of them come out differently.\n", differing);
    if (same && differing == 0) std::printf("The same answers from ours, C and LEMON for all %zu plans, and from ours and C for all damaged ones.\n", list.size());
    return same && differing == 0 && all_seen() ? 0 : 1;
}

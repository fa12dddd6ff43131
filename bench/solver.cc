/* The proved solver against LEMON on the same instances, in one run.
   Usage: solver FOLDER. Writes FOLDER/instances for networkx and FOLDER/times for the table.
   Our call takes the list of records and gives the whole certificate; its two buffers are not cleared between calls.
   LEMON's first time is that of its fastest algorithm, from a graph with its weights in place; the second also builds the graph. Both make
   the algorithm's object. */
#include <cstdio>
#include <cstdlib>

#include "measuring.h"
#include "verifier.h"

extern "C" uint8_t solver_certify(uint8_t question, uint8_t n, uint8_t s, uint8_t t, const uint32_t *records, size_t m,
                                  int32_t *numbers, size_t numbers_len, uint16_t *amounts, size_t amounts_len);

/* What one call of ours gave. */
struct Given {
    int claim;
    std::vector<int32_t> numbers;
    std::vector<uint16_t> amounts;
};

/* The answer that a certificate shows; gives 0, or the number of the check that refuses it. */
static int judge(const Instance &x, const Given &g, long long &answer) {
    session v;
    int why = open_session(&v, x.question, x.n, x.s, x.t, 5);
    for (const Record &e : x.arcs) if (!why) why = read_channel(&v, e.a, e.b, e.w);
    if (!why) why = end_reading(&v);
    if (!why) why = make_claim(&v, g.claim);
    for (int32_t y : g.numbers) if (!why) why = node_number(&v, y);
    for (size_t i = 0; i < x.arcs.size(); i++)
        if (!why) why = repeat_channel(&v, x.arcs[i].a, x.arcs[i].b, x.arcs[i].w, g.amounts[i]);
    uint64_t reply = why ? refusal(why) : finish(&v);
    answer = reply < NO_VALUE ? (long long)reply : NONE;
    return reply < NO_VALUE ? 0 : (int)(reply - NO_VALUE);
}

static FILE *create(const std::string &path) {
    FILE *file = std::fopen(path.c_str(), "w");
    if (!file) std::perror(path.c_str());
    return file;
}

/* All lists; the program ends if an instance is larger than any network may be. */
static std::vector<Instance> all_instances() {
    std::vector<Instance> list = instances();
    append(list, further_instances());
    append(list, spare_instances());
    append(list, further_spare_instances());
    for (const Instance &x : list)
        if ((int)x.arcs.size() > ARCS) std::fprintf(stderr, "%s: %zu arcs\n", x.name.c_str(), x.arcs.size()), std::exit(2);
    return list;
}

static void write_instance(FILE *list, const Instance &x) {
    std::fprintf(list, "%s\t%d\t%d\t%d\t%d", x.name.c_str(), x.question, x.n, x.s, x.t);
    for (const Record &e : x.arcs) std::fprintf(list, "\t%d %d %d", e.a, e.b, e.w);
    std::fprintf(list, "\n");
}

/* Measures one instance and writes its line; false if LEMON's answers differ. */
static bool measure(FILE *times, const Instance &x) {
    std::vector<uint32_t> records;
    for (const Record &e : x.arcs) records.push_back((uint32_t)e.a * 16777216u + (uint32_t)e.b * 65536u + (uint32_t)e.w);
    Given given = {0, std::vector<int32_t>(x.n, 7), std::vector<uint16_t>(x.arcs.size(), 7)};
    Graph graph(x);
    int count = algorithms(x.question);
    std::vector<long long> answers(2 * count);
    std::vector<std::function<void()>> calls = {[&] {
        given.claim = solver_certify((uint8_t)x.question, (uint8_t)x.n, (uint8_t)x.s, (uint8_t)x.t, records.data(), records.size(),
                                     given.numbers.data(), given.numbers.size(), given.amounts.data(), given.amounts.size());
    }};
    for (int k = 0; k < count; k++) calls.push_back([&, k] { answers[k] = lemon_answer(x, graph, k); });
    for (int k = 0; k < count; k++) calls.push_back([&, k] { answers[count + k] = lemon_answer(x, Graph(x), k); });
    std::vector<double> ms = medians(calls);
    auto built = ms.begin() + 1, building = built + count;
    long long answer;
    int refusal = judge(x, given, answer);
    std::fprintf(times, "%s\t%lld\t%lld\t%d\t%.6f\t%.6f\t%.6f\n", x.name.c_str(), answer, answers[0], refusal, ms[0],
                 *std::min_element(built, building), *std::min_element(building, ms.end()));
    return std::count(answers.begin(), answers.end(), answers[0]) == 2 * count;
}

int main(int count, char **words) {
    if (count != 2) return std::fprintf(stderr, "usage: solver FOLDER\n"), 2;
    keep_memory();
    FILE *list = create(std::string(words[1]) + "/instances"), *times = create(std::string(words[1]) + "/times");
    if (!list || !times) return 2;
    for (const Instance &x : all_instances()) {
        write_instance(list, x);
        if (!measure(times, x)) return std::fprintf(stderr, "%s: LEMON gave different answers\n", x.name.c_str()), 2;
    }
    return std::fclose(list) | std::fclose(times) ? 2 : 0;
}

"""Times networkx on the instances that bench/solver.cc wrote and prints the table.
Usage: solver_networkx.py FOLDER. A time is the median processor time of calls on a built graph, for 0.2 s and at least 3.
Its graphs hold one arc for each pair of vertices: of parallel lengths and costs the least counts, capacities add up."""
import sys
import time

try:
    import networkx
except ImportError:
    networkx = None

ROUTE, DISCHARGE, PAIRING, LOOPS = 1, 2, 3, 4
QUESTIONS = {ROUTE: "routes", DISCHARGE: "discharges", PAIRING: "pairings", LOOPS: "loops"}
NONE = -1


def take_up_spare(graph, n, spare):
    """A vertex that the spare pumps lead to, at no cost. With fewer pumps than sites nothing is added, and there is no flow."""
    if spare > 0:
        graph.add_node(n, demand=spare)
        graph.add_edges_from(((v, n) for v in range(n) if graph.nodes[v]["demand"] < 0), weight=0)


def build(question, n, s, arcs):
    graph = networkx.DiGraph()
    for v in range(n):
        graph.add_node(v, demand=(-1 if v < s else 1) if question == PAIRING else 0)
    if question == PAIRING:
        take_up_spare(graph, n, 2 * s - n)
    for a, b, w in arcs:
        if graph.has_edge(a, b):
            old = graph[a][b]["weight"]
            w = old + w if question == DISCHARGE else min(old, w)
        graph.add_edge(a, b, weight=w)
    return graph


def solve(question, s, t, graph):
    try:
        if question == ROUTE:
            way = networkx.shortest_path(graph, s, t, weight="weight", method="dijkstra")
            return sum(graph[a][b]["weight"] for a, b in zip(way, way[1:]))
        if question == DISCHARGE:
            return networkx.maximum_flow_value(graph, s, t, capacity="weight")
        if question == LOOPS:
            return 0 if networkx.is_directed_acyclic_graph(graph) else NONE
        return networkx.network_simplex(graph)[0]  # minimum_weight_full_matching would need scipy
    except (networkx.NetworkXNoPath, networkx.NetworkXUnfeasible):
        return NONE


def median(call):
    times = []
    while len(times) < 3 or sum(times) < 0.2:
        before = time.thread_time()
        answer = call()
        times.append(time.thread_time() - before)
    return answer, 1000 * sorted(times)[len(times) // 2]


def shown(answer):
    return "none" if answer == NONE else str(answer)


def read_times(folder):
    rows = {}
    for line in open(folder + "/times"):
        name, ours, lemon, refusal, *times = line.rstrip("\n").split("\t")
        rows[name] = int(ours), int(lemon), int(refusal), [float(t) for t in times]
    return rows


def kind(question, n, s):
    """What the families are summed up by."""
    return "pairings with spare pumps or too few" if question == PAIRING and 2 * s != n else QUESTIONS[question]


def sum_up(measured):
    """Prints what the table comes to; `measured` has kind, name, our time and LEMON's with building for each family."""
    for word in dict.fromkeys(row[0] for row in measured):
        ratios = [ours / built for asked, _, ours, built in measured if asked == word]
        print(f"{word}: {sum(ratio <= 1 for ratio in ratios)} of {len(ratios)} families at most 1 x LEMON with building, "
              f"{sum(ratio <= 1.5 for ratio in ratios)} at most 1.5 x")
    _, name, ours, built = max(measured, key=lambda row: row[2] / row[3])
    print(f"greatest ratio: {ours / built:.2f} x LEMON with building, {name}")
    _, name, ours, _ = max(measured, key=lambda row: row[2])
    print(f"slowest of ours: {ours:.3f} ms, {name}")


def main(folder):
    rows = read_times(folder)
    print("| family | arcs | ours ms | LEMON with building ms | ratio | LEMON without building ms | ratio | networkx ms |")
    print("|---|---|---|---|---|---|---|---|")
    bad, measured = [], []
    for line in open(folder + "/instances"):
        name, *numbers = line.rstrip("\n").split("\t")
        question, n, s, t = map(int, numbers[:4])
        arcs = [tuple(map(int, arc.split())) for arc in numbers[4:]]
        ours, lemon, refusal, (time_ours, time_lemon, time_built) = rows[name]
        measured.append((kind(question, n, s), name, time_ours, time_built))
        third, time_third = lemon, None
        if networkx:
            graph = build(question, n, s, arcs)
            third, time_third = median(lambda: solve(question, s, t, graph))
        last = "-" if time_third is None else f"{time_third:.1f}"
        print(f"| {name} | {len(arcs)} | {time_ours:.3f} | {time_built:.3f} | {time_ours / time_built:.2f} "
              f"| {time_lemon:.3f} | {time_ours / time_lemon:.2f} | {last} |", flush=True)
        if refusal or ours != lemon or lemon != third:
            given = f"no certificate (refusal {refusal})" if refusal else shown(ours)
            bad.append(f"{name}: ours {given}, LEMON {shown(lemon)}, networkx {shown(third) if networkx else 'not run'}")
    print("\nratio: ours / LEMON's fastest algorithm; ours starts from the list of records, so the time with building is the like one.")
    sum_up(measured)
    if not networkx:
        print("networkx is not installed and was not run.")
    for line in bad:
        print("!!! MISMATCH !!! " + line)
    if not bad:
        print(f"The same answers from ours{', LEMON and networkx' if networkx else ' and LEMON'} on all {len(rows)} instances; all our certificates hold.")
    return 1 if bad else 0


if __name__ == "__main__":
    sys.exit(main(sys.argv[1]))

"""Computes with networkx what crates/file_cases has to print for the families of networks, from the bytes in its file stdin.
Usage: families.py. Prints a line for each case there whose words are `h25604 @9`; ends with 1 if one of these lines is not in its file stdout,
so after a change of the cases its lines belong there."""
import pathlib
import sys

sys.dont_write_bytecode = True  # the folder stays as it is
from solver_networkx import build, shown, solve

CASES = pathlib.Path(__file__).resolve().parent.parent / "crates" / "file_cases"


def cases():
    """The label and the network file of each case."""
    for line in (CASES / "stdin").read_text().splitlines():
        if line.startswith("NETWORK "):
            file = bytes.fromhex(line.removeprefix("NETWORK "))
        elif line.endswith(": h25604 @9"):
            yield line.partition(":")[0], file


def expected(label, file):
    """The line of a case: how long the helper's annotation is, and the true answer."""
    question, n, s, t = file[5:9]
    arcs = [(file[i], file[i + 1], 256 * file[i + 2] + file[i + 3]) for i in range(11, len(file), 4)]
    answer = shown(solve(question, s, t, build(question, n, s, arcs)))
    word = "" if answer == "none" else "value "
    return f"{label}: length {8 + 4 * n + 6 * len(arcs)} (rest kept), {word}{answer}"


def main():
    printed = set((CASES / "stdout").read_text().splitlines())
    lines = [expected(label, file) for label, file in cases()]
    print("\n".join(lines))
    return 0 if printed.issuperset(lines) else 1


sys.exit(main())

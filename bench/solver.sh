#!/usr/bin/env bash
# The proved solver against LEMON and networkx: the same instances, one run, one table. Run by hand; ends with 1 if answers differ.
# Usage: bench/solver.sh [ARCHIVE]. Without an archive or object file, that of `rt lib` in crates/solver_export is made and taken.
set -euo pipefail
here=$(dirname "$(realpath "$0")")
work=$(mktemp -d)
trap 'rm -rf "$work"' EXIT
"$here/build.sh" "$work/solver" solver "$@"
"$work/solver" "$work"
python3 "$here/solver_networkx.py" "$work"

#!/usr/bin/env bash
# Nanoseconds for a read and for a repeated channel: the proved session against a verifier in C that does the same work in place.
# Run by hand, after `rt run < stdin` in crates/session_speed. Both are release builds, measured in one run, in processor time.
set -euo pipefail
cd "$(dirname "$0")/.."
rounds=${1:-2000}
work=$(mktemp -d)
trap 'rm -rf "$work"' EXIT
gcc -O3 -o "$work/session" bench/session.c
head -c "$rounds" /dev/zero | tr '\0' r > "$work/reads"
head -c "$rounds" /dev/zero > "$work/all"
TIMEFORMAT=%U
seconds() { { time "$@" > /dev/null; } 2>&1; }
ours() { crates/session_speed/out/session_speed < "$1"; }
for turn in 1 2 3; do
  a=$(seconds ours "$work/reads"); b=$(seconds ours "$work/all")
  c=$(seconds "$work/session" "$rounds" reads); d=$(seconds "$work/session" "$rounds" all)
  awk -v a="$a" -v b="$b" -v c="$c" -v d="$d" -v n="$((rounds * 4096))" 'BEGIN {
    printf "read: %.1f ns, C %.1f ns, ratio %.2f; repeat: %.1f ns, C %.1f ns, ratio %.2f\n",
      a / n * 1e9, c / n * 1e9, a / c, (b - a) / n * 1e9, (d - c) / n * 1e9, (b - a) / (d - c) }'
done

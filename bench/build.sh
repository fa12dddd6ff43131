#!/usr/bin/env bash
# Compiles bench/PROGRAM.cc with LEMON's headers and one of our archives. Usage: bench/build.sh OUTPUT PROGRAM [ARCHIVE].
# Without an archive or object file, that of `rt lib` in crates/PROGRAM_export is made and taken.
set -euo pipefail
output=$(realpath "$1") program=$2 archive=${3:+$(realpath "$3")}
cd "$(dirname "$0")/.."
if [ -z "$archive" ]; then
  (cd "crates/${program}_export" && rt lib) >&2
  archive=crates/${program}_export/out/lib${program}_export.a
fi
if ! echo '#include <lemon/core.h>' | g++ -E -x c++ - > /dev/null 2>&1; then
  { apt-get update && apt-get install -y --no-install-recommends liblemon-dev; } >&2
fi
# C++20 took away allocator::construct, which LEMON's maps call: so C++17. Only its headers are used.
g++ -std=c++17 -O3 -o "$output" "bench/$program.cc" "$archive"

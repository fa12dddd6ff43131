#!/usr/bin/env bash
# Judging against a verifier in C, and the helper with judging against LEMON: one run, one table; then damaged plans.
# Run by hand; ends with 1 if outcomes differ.
# Usage: bench/panel.sh [ARCHIVE]. Without an archive or object file, that of `rt lib` in crates/panel_export is made and taken.
set -euo pipefail
here=$(dirname "$(realpath "$0")")
work=$(mktemp -d)
trap 'rm -rf "$work"' EXIT
"$here/build.sh" "$work/panel" panel "$@"
"$work/panel"

#!/bin/bash
# Measures the solver beside minisat on the same clauses: processor seconds of each, and how many times minisat's the solver's are.
# It builds the program sat_dimacs, which proves it first where that is not kept. Needs rt, python3 and minisat.
set -euo pipefail

top=$(cd "$(dirname "$0")/.." && pwd)
files=$(mktemp -d)
trap 'rm -rf "$files"' EXIT

(cd "$top/crates/sat_dimacs" && rt run <stdin >"$files/build.log" 2>&1) || { tail "$files/build.log" >&2; exit 1; }
(cd "$files" && python3 "$top/bench/sat_files.py")

# Processor seconds of a command that reads a file as its input, those of the system not counted: the least of five runs. The
# output goes to the file that is named first.
seconds() {
    local output=$1 input=$2 run
    shift 2
    local TIMEFORMAT='%U'
    for run in 1 2 3 4 5; do
        { time timeout 300 "$@" <"$input" >"$output" 2>&1 || true; } 2>&1
    done | sort -n | head -n 1
}

printf '%-14s %-14s %8s %9s %8s %8s\n' clauses answer ours conflicts minisat ratio
for file in "$files"/*.cnf; do
    name=$(basename "$file" .cnf)
    ours=$(seconds "$files/ours" "$file" "$top/crates/sat_dimacs/out/sat_dimacs")
    theirs=$(seconds "$files/theirs" /dev/null minisat "$file")
    answer=$(sed -n 's/^s //p' "$files/ours")
    conflicts=$(sed -n 's/^conflicts *: *\([0-9]*\).*/\1/p' "$files/theirs")
    grep -qx "${answer:-none}" "$files/theirs" || answer="${answer:-none} (?)"
    ratio=$(awk -v a="$ours" -v b="$theirs" 'BEGIN { if (b > 0) printf "%.1f", a / b; else printf "-" }')
    printf '%-14s %-14s %8s %9s %8s %8s\n' "$name" "$answer" "$ours" "${conflicts:--}" "$theirs" "$ratio"
done

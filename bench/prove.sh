#!/bin/bash
# Measures whole runs of `svtv prove` beside yosys, abc, minisat and cadical, as far as these are installed: each goal of the suite at
# each of its sizes. What is printed, and what the words and the environment choose, is told at the head of prove.py. Where SVTV names no
# program, the one that ./svtv runs is built, which proves it first where that is not kept. Needs python3, and rt for building; without
# yosys no other program can be asked.
set -euo pipefail

top=$(cd "$(dirname "$0")/.." && pwd)
if [ -z "${SVTV:-}" ]; then
    (cd "$top/examples/and_gate" && ../../svtv prove d.sv t.csv g.txt) >&2
    SVTV=$top/crates/svtv_cli/out/svtv_cli
fi
SVTV=$(readlink -f "$SVTV") exec python3 "$top/bench/prove.py" "$@"

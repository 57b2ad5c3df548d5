#!/bin/bash
# Runs `svtv` on files that are meant to keep it busy, each kind at some sizes, and prints what it took and what stands out. The words
# choose kinds, and what the environment chooses is told at the head of hostile.py. Where SVTV names no program, the one that ./svtv runs
# is built, which proves it first where that is not kept. Needs python3, and rt for building.
set -euo pipefail

top=$(cd "$(dirname "$0")/.." && pwd)
if [ -z "${SVTV:-}" ]; then
    (cd "$top/examples/and_gate" && ../../svtv prove d.sv t.csv g.txt) >&2
    SVTV=$top/crates/svtv_cli/out/svtv_cli
fi
SVTV=$(readlink -f "$SVTV") exec python3 "$top/bench/hostile.py" "$@"

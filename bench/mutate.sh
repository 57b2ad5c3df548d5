#!/bin/bash
# Runs `svtv` on the examples and the cases of svtv_cases, changed by chance, 100,000 times, and refuses a crash, a status that the manual
# does not have, an output beside a refusal, and a message or a text that is not of its form. The words choose other runs, and what the
# environment chooses is told at the head of mutate.py. Where SVTV names no program, the one that ./svtv runs is built, which proves it
# first where that is not kept. Needs python3, and rt for building.
set -euo pipefail

top=$(cd "$(dirname "$0")/.." && pwd)
if [ -z "${SVTV:-}" ]; then
    (cd "$top/examples/and_gate" && ../../svtv prove d.sv t.csv g.txt) >&2
    SVTV=$top/crates/svtv_cli/out/svtv_cli
fi
[ $# -gt 0 ] || set -- 0 100000
SVTV=$(readlink -f "$SVTV") exec python3 "$top/bench/mutate.py" "$@"

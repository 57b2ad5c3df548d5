#!/bin/bash
# Measures the solver beside minisat and cadical on the clauses of each goal of a suite, as `svtv prove` or yosys makes them: what is
# printed, and what the words and the environment choose, is told at the head of goal_clauses.py. Where CLAUSES names no program, one is
# made (clauses.sh); where SOLVER is empty, sat_dimacs is built, which proves it first where that is not kept. Needs rt, python3,
# /usr/bin/time, minisat and cadical, and for BY=yosys yosys.
set -euo pipefail

top=$(cd "$(dirname "$0")/.." && pwd)
room=$(mktemp -d)
trap 'rm -rf "$room"' EXIT
if [ -z "${CLAUSES:-}" ] && [ "${BY:-svtv}" = svtv ]; then
    bash "$top/bench/clauses.sh" "$room/clauses" >&2
    CLAUSES=$room/clauses
fi
if [ -z "${SOLVER:-}" ]; then
    (cd "$top/crates/sat_dimacs" && rt run <stdin >"$room/build.log" 2>&1) || { tail "$room/build.log" >&2; exit 1; }
    SOLVER=$top/crates/sat_dimacs/out/sat_dimacs
fi
CLAUSES=$(readlink -f "${CLAUSES:-.}") SOLVER=$SOLVER python3 "$top/bench/goal_clauses.py" "$@"

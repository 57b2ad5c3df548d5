#!/bin/bash
# Makes the program OUT that writes the clauses which `svtv prove` asks its solver: `OUT DESIGN TABLE GOALS` (see clauses.rt.txt). The product
# has no such feature. So its source, clauses.rt.txt, is made a crate of a copy of this checkout, in which the crate of the commands shows
# two functions more, and is compiled there with run-time checks and without any proof (tools/unproved_binary.sh). Takes some minutes.
set -euo pipefail

[ $# = 1 ] || { echo "clauses.sh OUT" >&2; exit 2; }
top=$(cd "$(dirname "$0")/.." && pwd)
out=$(realpath -m "$1")
copy=$(mktemp -d)
trap 'rm -rf "$copy"' EXIT

cd "$top"
git ls-files -z | xargs -0 cp --parents -t "$copy"
cd "$copy"
crate=crates/svtv_clauses
mkdir -p $crate/src
cp bench/clauses.rt.txt $crate/src/main.rt
sed -i 's/^pub use dumping::dump;/&\npub use goals::load_goals;\npub use setup::{Setup, load_setup};/' crates/svtv_commands/src/lib.rt
commands=$(sed -n 's/^svtv_commands: //p' crates.txt)
prove=$(sed -n 's/^goal_prove: //p' crates.txt)
echo "svtv_clauses: $(printf '%s\n' svtv_commands $commands $prove | sort -u | xargs)" >>crates.txt

bash tools/unproved_binary.sh svtv_clauses "$out"

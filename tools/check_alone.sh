#!/usr/bin/env bash
# Checks or builds one crate over libraries that are built already (a gate run leaves them in crates/*/out/rlib), so nothing below is
# proved again and a running gate is not disturbed. What it says is no verdict: the gate's own run is.
# Use: check_alone.sh check|build REPO CRATE [LIBS] [-- rattle's flags, as --allow-holes, --only PATH, --test, --fix-imports]
#      LIBS: a folder of .rlib files of one's own, looked at first; build puts CRATE.rlib there (default: REPO/out/alone)
set -u
[ $# -ge 3 ] || { sed -n 2,6p "$0" >&2; exit 2; }
mode=$1 top=$(cd "$2" && pwd) crate=$3
shift 3
libs=$top/out/alone
[ $# -gt 0 ] && [ "$1" != "--" ] && { libs=$1; shift; }
[ "${1:-}" = "--" ] && shift
mkdir -p "$libs" "$top/crates/$crate/out" && libs=$(cd "$libs" && pwd)
kit=$(dirname "$(dirname "$(readlink -f "$(command -v rt)")")")
words=(-L "dependency=$libs")
for r in "$top"/crates/*/out/rlib; do words+=(-L "dependency=$r"); done
for c in $(sed -n "s/^$crate\( staticlib\)\?: *//p" "$top/crates.txt"); do
  for at in "$libs/$c.rlib" "$top/crates/$c/out/rlib/$c.rlib" "$kit/rlibs/$c.rlib"; do
    [ -e "$at" ] && { words+=(--extern "$c=$at"); break; }
  done
done
cd "$top/crates/$crate" || exit 2
root=src/lib.rt; [ -f $root ] || root=src/main.rt
common=(--crate-name "$crate" $root --extern "std=$kit/rlibs/std.rlib" -L "dependency=$kit/rlibs" "${words[@]}"
  --antt-project "$kit/rattle/logic/antt-project.json" --logic-built "$kit/logic_built" --jobs 1)
if [ "$mode" = check ]; then
  exec "$kit/bin/rattle" check "${common[@]}" --incremental out/incremental "$@"
else
  rm -rf "$libs/$crate.rlib"
  exec "$kit/bin/rattle" build "${common[@]}" --links "$crate=" --statements -o "$libs/$crate.rlib" "$@"
fi

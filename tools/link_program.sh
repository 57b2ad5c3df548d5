#!/usr/bin/env bash
# Proves one program over libraries that are built already, and builds it with LLVM. What it says is no verdict: the gate's own run is.
# Use: link_program.sh REPO CRATE LIBS OUT
#      LIBS: a folder of .rlib files, looked at before those that a gate has left in REPO; OUT: the program; OUT.log has what was said
set -eu
[ $# -eq 4 ] || { sed -n 2,4p "$0" >&2; exit 2; }
top=$(cd "$1" && pwd) crate=$2 libs=$(cd "$3" && pwd) out=$(realpath -m "$4")
kit=$(dirname "$(dirname "$(readlink -f "$(command -v rt)")")")
words=(-L "dependency=$libs")
for r in "$top"/crates/*/out/rlib; do [ -d "$r" ] && words+=(-L "dependency=$r"); done
for c in $(sed -n "s/^$crate: *//p" "$top/crates.txt"); do
  for at in "$libs/$c.rlib" "$top/crates/$c/out/rlib/$c.rlib" "$kit/rlibs/$c.rlib"; do
    [ -e "$at" ] && { words+=(--extern "$c=$at"); break; }
  done
done
cd "$top/crates/$crate"
common=(--crate-name "$crate" src/main.rt --extern "std=$kit/rlibs/std.rlib" -L "dependency=$kit/rlibs" "${words[@]}" --antt-project "$kit/rattle/logic/antt-project.json")
room=$(mktemp -d)
trap 'rm -rf "$room"' EXIT
"$kit/bin/rattle" check "${common[@]}" --logic-built "$kit/logic_built" --jobs 1 -o "$room/checked" >"$out.log" 2>&1
"$kit/bin/rattle" build "${common[@]}" --crate-checked "$room/checked" --toolchain "$kit/toolchain" --backend llvm -o "$room/program.o" >>"$out.log" 2>&1
"$kit/bin/rattle-link" --target x86_64-unknown-linux-gnu --toolchain "$kit/toolchain" -o "$out" "$room/program.o" "$kit/c/libos_c.a" "$kit/c/liblibc_c.a" >>"$out.log" 2>&1

# For the scripts at the top of the repository: calls a builder where the program that it makes is not there, or where a source may have
# changed since. What the builder finds by checksums is remembered by the names, sizes and times of the files, so that other calls cost
# a look at these alone. (Of the times that of the last change is taken, which nobody can set back.)
# Use: built TOP PROGRAM BUILDER..

_sources() { find "$1/crates" "$1/crates.txt" \( -name out -o -name must-fail \) -prune -o -type f -printf '%p %s %C@\n' | cksum; }
_program() { find "$1" -printf '%s %C@\n' 2>/dev/null; }

built() {
    top=$1 program=$2
    shift 2
    sources=$(_sources "$top")
    [ "$sources $(_program "$program")" = "$(cat "$program.seen" 2>/dev/null)" ] && return 0
    "$@" || return 1
    echo "$sources $(_program "$program")" 2>/dev/null >"$program.seen" || :
}

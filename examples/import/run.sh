#!/bin/sh
# Fetches the RTL of these examples from the source package nextpnr of Debian into a folder, imports it, proves the goals, and
# compares what is printed with the files out.txt.
#
#   run.sh FOLDER [SVTV]      SVTV is the program, `svtv` at the top of the repository where it is not given
#
# Each example has the words of the importer in import.txt, a table, goals, and what is printed.
set -u
here=$(cd "$(dirname "$0")" && pwd) || exit 2
top=$here/../..
mkdir -p "${1:?a folder is needed}" && folder=$(cd "$1" && pwd) || exit 2
svtv=${2:-$top/svtv}
"$top/tools/import/fetch.py" "$folder" nextpnr || exit 2
wrong=0
for name in uart alu insn; do
    # shellcheck disable=SC2046
    (cd "$folder/nextpnr/ice40/benchmark" && "$top/svtv-import" $(cat "$here/$name/import.txt") 2>/dev/null) > "$folder/$name.sv" || exit 2
    "$svtv" prove "$folder/$name.sv" "$here/$name/t.csv" "$here/$name/g.txt" > "$folder/$name.out"
    if diff "$here/$name/out.txt" "$folder/$name.out"; then echo "$name: as in out.txt"; else wrong=1; fi
done
exit $wrong

#!/bin/sh
# Measures finds in committed documents, in 25 segments and merged into one, beside SQLite FTS5,
# Xapian, Lucene and plain loops in C over the same lists.
#   bench/finds/run.sh crates/pk_find/out/pk_find [LINES [PICTURE]]
# The text, the stores and the peers lie in bench/finds/data. Without a picture's path none is drawn.
program=${1:?name the program}
here=$(dirname "$0")
data=$here/data
text=$("$here/../store/lines.sh" "${2:-100000}") || exit 1
"$here/peers.sh" "$data" || exit 1
cc -O3 -march=native "$here/limit.c" "$here/../posting/kernels.c" -o "$data/limit" || exit 1
python3 "$here/measure.py" "$program" "$text" "$data" || exit 1
if [ -n "$3" ]; then
    gnuplot -e "table='$data/table'; picture='$3'" "$here/picture.gnuplot"
fi

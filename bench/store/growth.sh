#!/bin/sh
# Measures how loads and finds of a log grow with its documents, beside SQLite FTS5.
#   bench/store/growth.sh crates/pk_find/out/pk_find [PICTURE [DOCUMENTS..]]
# By default 100,000, 1,000,000 and 3,000,000 documents; with an empty PICTURE none is drawn. The
# log, the peer and both files lie in bench/store/data.
program=${1:?name the program}
picture=$2
shift "$(($# < 2 ? $# : 2))"
[ $# -gt 0 ] || set -- 100000 1000000 3000000
here=$(dirname "$0")
data=$here/data
"$here/../finds/peers.sh" "$data" || exit 1
most=$(printf '%s\n' "$@" | sort -n | tail -n 1)
log=$data/log.$most
if [ ! -e "$log" ]; then
    python3 "$here/../mail/make_log.py" "$data/made" "$most" && mv "$data/made" "$log" || exit 1
fi
python3 "$here/growth.py" "$program" "$log" "$data" "$@" || exit 1
if [ -n "$picture" ]; then
    gnuplot -e "folder='$data'; picture='$picture'" "$here/growth.gnuplot"
fi

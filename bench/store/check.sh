#!/bin/sh
# Measures a check of a store of English text, beside SQLite FTS5's integrity-check, Xapian's
# xapian-check, and a plain read of the store's bytes.
#   bench/store/check.sh crates/pk_find/out/pk_find [LINES [RUNS [BYTES]]]
# A line has at most so many bytes, 300 by default. The text, the peers and the files lie in
# bench/store/data.
program=${1:?name the program}
here=$(dirname "$0")
text=$("$here/lines.sh" "${2:-100000}" "$4") || exit 1
"$here/../finds/peers.sh" "$here/data" || exit 1
exec python3 "$here/check.py" "$program" "$text" "${3:-5}"

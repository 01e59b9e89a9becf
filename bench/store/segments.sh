#!/bin/sh
# Measures a store of 64, 1,024 and 4,096 segments, beside SQLite FTS5 of as many transactions.
#   bench/store/segments.sh crates/pk_find/out/pk_find [LINES]
# The text and both files lie in bench/store/data.
program=${1:?name the program}
here=$(dirname "$0")
text=$("$here/lines.sh" "${2:-40960}") || exit 1
exec python3 "$here/segments.py" "$program" "$text"

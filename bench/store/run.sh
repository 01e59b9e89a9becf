#!/bin/sh
# Measures adding and committing English text to a store in a file, and asking it, beside SQLite
# FTS5 in a file.
#   bench/store/run.sh crates/pk_find/out/pk_find [LINES [RUNS]]
# The text and both files lie in bench/store/data.
program=${1:?name the program}
here=$(dirname "$0")
text=$("$here/lines.sh" "${2:-100000}") || exit 1
exec python3 "$here/measure.py" "$program" "$text" "${3:-3}"

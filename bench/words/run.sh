#!/bin/sh
# Measures adding and finding English text, with the program named, beside SQLite FTS5.
#   bench/words/run.sh crates/pk_find/out/pk_find [MEGABYTES [RUNS]]
# The text is made once, in bench/words/data.
program=${1:?name the program}
megabytes=${2:-67}
runs=${3:-3}
here=$(dirname "$0")
data=$here/data
"$here/../english.sh" "$data" || exit 1
python3 "$here/make_text.py" "$data/source" "$megabytes" > "$data/documents" || exit 1
exec python3 "$here/measure.py" "$program" "$data/documents" "$runs"

#!/bin/sh
# Measures finds of phrases and of prefixes of words in committed documents, in lines and in
# longer texts, beside SQLite FTS5, Xapian and Lucene, which keep positions of words.
#   bench/finds/phrases.sh crates/pk_find/out/pk_find [LINES [TEXTS]]
# The lines have at most 300 bytes, the texts 7,500. They, the stores and the peers lie in
# bench/finds/data, the English that they are cut from in bench/store/data.
program=${1:?name the program}
here=$(dirname "$0")
data=$here/data
english=$here/../store/data
"$here/../english.sh" "$english" || exit 1
"$here/peers.sh" "$data" || exit 1
# Small letters and digits with spaces between: so every side cuts the same words, and any phrase
# and any prefix finds the same.
LC_ALL=C tr 'A-Z' 'a-z' < "$english/source" | LC_ALL=C tr -cs 'a-z0-9' ' ' > "$data/plain"
for shape in "${2:-100000} 300" "${3:-4000} 7500"; do
    # Its two words are two arguments.
    python3 "$here/../store/make_lines.py" "$data/plain" $shape > "$data/texts" || exit 1
    python3 "$here/phrases.py" "$program" "$data/texts" "$data" || exit 1
done

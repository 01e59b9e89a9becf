#!/bin/sh
# Makes lines of English text of at most so many bytes, cut at spaces, and prints the file's path.
#   bench/store/lines.sh LINES [BYTES]
# The text lies in bench/store/data.
lines=${1:?say how many lines}
bytes=${2:-300}
here=$(dirname "$0")
data=$here/data
"$here/../english.sh" "$data" >&2 || exit 1
made=$data/lines.$lines.$bytes
if [ ! -e "$made" ]; then
    python3 "$here/make_lines.py" "$data/source" "$lines" "$bytes" > "$data/cut" || exit 1
    mv "$data/cut" "$made" || exit 1
fi
echo "$made"

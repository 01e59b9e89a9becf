#!/bin/sh
# The term dictionary beside SQLite's index and a sorted array, over 200,000 words, in one run.
#
#   bench/dict/run.sh
#
# Wants rt, rustc, gcc with SQLite's header (libsqlite3-dev), and once apt-get and dpkg-deb for the
# words, which are kept in bench/dict/data. BENCH names a folder to build in (a new one under the
# system's temporary folder).
set -eu

here=$(cd "$(dirname "$0")" && pwd)
top=$(cd "$here/../.." && pwd)
work=${BENCH:-$(mktemp -d)}
data=$here/data
package=wamerican-huge

if [ ! -s "$data/words" ]; then
    mkdir -p "$data"
    (cd "$data" && apt-get download "$package" && dpkg-deb -x "$package"_*.deb unpacked)
    LC_ALL=C sort -u "$data/unpacked/usr/share/dict/american-english-huge" \
        | head -200000 > "$data/words"
    rm -rf "$data/unpacked" "$data/$package"_*.deb
fi

bench=$work/crates/dict_bench
mkdir -p "$bench/src" "$bench/specs" "$bench/proofs/built"
(cd "$work" && git init -q .)
cp "$top/HANDLES" "$work/"
for crate in pk_lanes pk_vbyte pk_keys pk_posting pk_dict; do
    mkdir -p "$work/crates/$crate"
    for part in src specs proofs; do
        cp -R "$top/crates/$crate/$part" "$work/crates/$crate/"
    done
done
grep -E '^pk_(lanes|vbyte|keys|posting|dict):' "$top/crates.txt" > "$work/crates.txt"
echo 'dict_bench: pk_dict pk_posting' >> "$work/crates.txt"
cp "$here/main.rt.txt" "$bench/src/main.rt"
cp "$here/Invariants.antt.txt" "$bench/proofs/built/Invariants.antt"
: > "$bench/specs/Lib.antt"
: > "$bench/proofs/Lib.antt"

rustc -O -o "$work/sorted" "$here/sorted.rs"
gcc -O2 -o "$work/sqlite" "$here/sqlite.c" -lsqlite3
(cd "$bench" && rt run < "$data/words" > "$work/log" 2>&1) || { cat "$work/log" >&2; exit 1; }
for run in 1 2 3; do
    echo "dictionary"
    "$bench/out/dict_bench" < "$data/words"
    echo "sorted array"
    "$work/sorted" < "$data/words"
    echo "sqlite"
    "$work/sqlite" < "$data/words"
done

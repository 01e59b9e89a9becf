#!/bin/sh
# Builds the static library of a face: proved crates, callable from C.
#
#   face.sh FACE FOLDER CRATE..
#
# FACE is the source of the face, FOLDER an empty folder to build in, each CRATE one of the
# repository's; those that a crate stands on are named before it. Leaves FOLDER/libface.a. The face
# is no crate of the repository, so the repository's own checks do not carry it.
set -eu

face=$1
folder=$2
shift 2
here=$(cd "$(dirname "$0")/.." && pwd)

mkdir -p "$folder/crates/face/src" "$folder/crates/face/specs" "$folder/crates/face/proofs"
(cd "$folder" && git init -q .)
echo 'Handles allowed: none.' > "$folder/HANDLES"
: > "$folder/crates.txt"
for crate in "$@"; do
    mkdir -p "$folder/crates/$crate"
    for part in src specs proofs; do
        cp -R "$here/crates/$crate/$part" "$folder/crates/$crate/"
    done
    grep "^$crate:" "$here/crates.txt" >> "$folder/crates.txt"
done
echo "face staticlib: $*" >> "$folder/crates.txt"
cp "$face" "$folder/crates/face/src/lib.rt"
echo '-- Nothing is defined here.' > "$folder/crates/face/specs/Lib.antt"

cd "$folder/crates/face"
rt lib > "$folder/log" 2>&1 || { cat "$folder/log" >&2; exit 1; }
cp out/libface.a "$folder/libface.a"

#!/bin/sh
# Answers each session of this folder with the program named, and compares the replies.
#   examples/compare.sh crates/pk_find/out/pk_find
program=${1:?name the program}
cd "$(dirname "$0")" || exit 1
case $program in /*) ;; *) program=$OLDPWD/$program ;; esac
store=$(mktemp -u) || exit 1
trap 'rm -f "$store"' EXIT
status=0
for lines in *.lines; do
    name=${lines%.lines}
    rm -f "$store"
    "$program" create "$store" --units 64 > /dev/null || exit 1
    if "$program" run "$store" < "$lines" | cmp -s - "$name.replies"; then
        echo "$name: as written"
    else
        echo "$name: differs"
        status=1
    fi
done
exit $status

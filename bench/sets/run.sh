#!/bin/sh
# The operations of pk_sets beside the same in C, in one run.
#
#   bench/sets/run.sh
#
# Wants rt and a C compiler for x86-64. CC names the compiler (gcc), BENCH a folder to build in (a new
# one under the system's temporary folder).
set -eu

here=$(cd "$(dirname "$0")" && pwd)
kit=$(dirname "$(rt doc)")
work=${BENCH:-$(mktemp -d)}

"$here/../face.sh" "$here/face.txt" "$work" pk_sets
cc=${CC:-gcc}
$cc -O3 -msse4.1 -Wall -c "$here/kernels.c" -o "$work/kernels.o"
$cc -O2 -Wall -c "$here/main.c" -o "$work/main.o"
$cc -o "$work/bench" "$work/main.o" "$work/kernels.o" "$work/libface.a" "$kit/c/liblibc_c.a" -lm
"$work/bench"

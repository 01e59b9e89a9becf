#!/bin/sh
# Measures loads of a log over 1, 2 and 4 workers, and searches through the engine, beside one store
# and beside four stores without an engine. Nothing is installed.
#   bench/shards/run.sh crates/pk_find/out/pk_find [LINES [ROUNDS]]
# The log and all that is made of it lie in bench/shards/data.
program=${1:?name the program}
lines=${2:-300000}
rounds=${3:-3}
here=$(cd "$(dirname "$0")" && pwd)
data=$here/data
clients=$here/../../clients/python
mkdir -p "$data"
python3 "$here/../mail/make_log.py" "$data/log" "$lines" || exit 1
PYTHONPATH=$clients:$clients/tests/shards RUBEWOLA_PROGRAM=$(realpath "$program") \
    exec "${RUBEWOLA_PYTHON:-/usr/bin/python3}" -W ignore "$here/measure.py" "$data" "$rounds"

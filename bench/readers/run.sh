#!/bin/sh
# Measures finds of 1 and of 4 sessions that read beside one that writes, and what the writer loses,
# beside SQLite FTS5 in WAL mode and Xapian.
#   bench/readers/run.sh crates/pk_find/out/pk_find [LINES]
# By default 300,000 lines of a syslog. The log and the stores lie in bench/readers/data. The peers run
# by /usr/bin/python3, or the Python that RUBEWOLA_PYTHON names; of Debian Xapian's is python3-xapian.
program=${1:?name the program}
lines=${2:-300000}
here=$(dirname "$0")
data=$here/data
log=$data/log.$lines
mkdir -p "$data" || exit 1
if [ ! -e "$log" ]; then
    python3 "$here/../mail/make_log.py" "$data/made" "$lines" && mv "$data/made" "$log" || exit 1
fi
python3 "$here/measure.py" "$program" "$log" "$lines" "$data" "${RUBEWOLA_PYTHON:-/usr/bin/python3}"

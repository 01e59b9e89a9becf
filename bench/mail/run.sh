#!/bin/sh
# Measures loading and searching 10,000 mails, beside notmuch, mu and SQLite FTS5, as far as they
# are there, and a log of 300,000 lines, by a client that is installed below bench/mail/data alone.
#   bench/mail/run.sh crates/pk_find/out/pk_find [MAILS [LINES]]
# The text, the mails and all that is made of them lie in bench/mail/data.
program=${1:?name the program}
mails=${2:-10000}
lines=${3:-300000}
here=$(cd "$(dirname "$0")" && pwd)
data=$here/data
"$here/../english.sh" "$data" || exit 1
rm -rf "$data/mails"
python3 "$here/make_mails.py" "$data/source" "$data/mails" "$mails" || exit 1
python3 "$here/make_log.py" "$data/log" "$lines" || exit 1
make --silent -C "$here/../.." install PREFIX="$data/installed" PROGRAM="$(realpath "$program")" || exit 1
PYTHONPATH=$data/installed/lib/rubewola RUBEWOLA=$data/installed/bin/rubewola \
    RUBEWOLA_PROGRAM=$(realpath "$program") exec python3 "$here/measure.py" "$data" "$mails"

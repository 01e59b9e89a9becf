#!/bin/sh
# The tests of the repository: the seals of the mutants, without which nothing else is run; the
# merge gate; tests of the program that it built, of its command lines and of its readers; readers
# beside writers for a minute; sessions that are killed in their midst; the rows of the engine and of
# the lower layers, on the players that it built; each request for memory refused; the Python client's
# tests, and those of archives over machines; the tests of these tools; what the gate cost, which goes
# into a file that GATE= names too; and what was skipped. The last line is 'N passed, M failed', each
# of these but the gate counting as one.
cd "$(dirname "$0")/.." || exit 1
log=$(mktemp) || exit 1
costs=$(mktemp) || exit 1
RUBEWOLA_SKIPPED=$(mktemp) || exit 1
export RUBEWOLA_SKIPPED
trap 'rm -f "$log" "$costs" "$RUBEWOLA_SKIPPED"' EXIT
if ! python3 tools/seals.py; then
    echo "0 passed, 1 failed"
    exit 1
fi

# A check by several jobs takes some seconds of a processor more for each: one for each check, and a
# check for each processor and 5 GB of memory.
processors=$(nproc)
memory=$(awk '/^MemAvailable/ { print int($2 / 5000000) }' /proc/meminfo)
[ "$memory" -ge "$processors" ] || processors=$memory
[ "$processors" -gt 0 ] || processors=1
RT_JOBS=${RT_JOBS:-$processors} tools/gate_time.py ${GATE:+--into "$GATE"} rt ci 2>&1 >"$costs" | tee "$log"
last=$(grep -x '[0-9]* passed, [0-9]* failed' "$log" | tail -n 1)
if [ -z "$last" ]; then
    cat "$costs"
    exit 1
fi
passed=$(expr "$last" : '\([0-9][0-9]*\) passed' + 1)
failed=$(expr "$last" : '.*, \([0-9][0-9]*\) failed')
count() {
    if "$@"; then passed=$((passed + 1)); else failed=$((failed + 1)); fi
}
refuse_memory() {
    python3 tools/refuse_memory.py && python3 -m tests.memory
}
count python3 tools/commands_test.py crates/pk_find/out/pk_find
count python3 tools/program_test.py crates/pk_find/out/pk_find
count python3 tools/readers_test.py crates/pk_find/out/pk_find
count python3 tools/reading_soak.py crates/pk_find/out/pk_find 60
count python3 tools/kill_test.py crates/pk_find/out/pk_find
count python3 tools/run_tests.py rows
count refuse_memory
count python3 tools/run_tests.py client
count tools/shards_python.sh -W ignore tools/run_tests.py shards
count python3 tools/run_tests.py tools
cat "$costs"
cat "$RUBEWOLA_SKIPPED"
echo "$passed passed, $failed failed"
[ "$failed" -eq 0 ]

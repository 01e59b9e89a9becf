#!/usr/bin/env python3
"""Tests in some minutes what no proof says, over programs that nothing has proved.

usage: tools/smoke.py      at the top of the repository

The seals and the tests of tools/ need no program. Beside them the players and the program are built
as they are (tools/unproved.py); then the engine's scripts and sweeps are played by the one player,
but for a few long ones and in two settings each, the rows of the lower layers by the other, and the
client's tests run over the program, but for long ones, the quickest first. Four minutes after the start
no test is begun, and a minute later what still runs is broken off, so a slow machine tries less. The
last line says what was not shown: how many tests were left out as long, for want of time or skipped,
what was broken off, and what none of this shows; the status is 1 where a part failed.
"""
import collections
import concurrent.futures
import os
import pathlib
import re
import signal
import subprocess
import sys
import tempfile
import time
from typing import NamedTuple

NEVER_SHOWN = ("proofs and contracts, wrong bodies, test functions, long rows and other settings, most "
            "failing calls, damage byte by byte, refused memory, killed processes, archives over "
            "several machines, speed; make test shows these, but speed")
BEGUN_FOR, BROKEN_OFF_AT = 240, 300  # Seconds from the start on.
START = time.time()

PASSED, FAILED, BROKEN_OFF, NOT_BUILT = "passed", "FAILED", "BROKEN OFF", "NOT BUILT"

# What tools/run_tests.py says of tests that did not run, and what the last line says of them.
UNRUN = {
    r"^(\d+) of \d+ tests of (\w+) were left out for want of time$": "for which there was no time",
    r"^(\d+) tests of (\w+) were left out as long$": "which are long",
    r"^(\d+) tests of (\w+) were skipped$": "which were skipped",
}


class Ended(NamedTuple):
    """A part, how it ended, and what it said."""
    part: str
    how: str
    said: str = ""


def ran(part, *command, **settings):
    """Runs a part, and prints what it said and how it ended."""
    begun = time.time()
    settings["RUBEWOLA_UNTIL"] = str(START + BEGUN_FOR)
    child = subprocess.Popen(command, stdin=subprocess.DEVNULL, stdout=subprocess.PIPE,
                             stderr=subprocess.STDOUT, env={**os.environ, **settings},
                             start_new_session=True)
    try:
        said, _ = child.communicate(timeout=START + BROKEN_OFF_AT - begun)
        how = FAILED if child.returncode else PASSED
    except subprocess.TimeoutExpired:
        os.killpg(child.pid, signal.SIGTERM)
        said, _ = child.communicate()
        how = BROKEN_OFF
    said = said.decode(errors="replace")
    print(f"{said}{part}: {how}, {time.time() - begun:.0f} s", flush=True)
    return Ended(part, how, said)


def over(crate, setting, suite, parts, folder):
    """A suite over a program that is built for it, its parts side by side; how all ended."""
    file = f"{folder}/{crate}"
    built = ran(f"building {crate}", sys.executable, "tools/unproved.py", crate, file)
    if built.how != PASSED:
        return [built, Ended(suite, NOT_BUILT)]

    def play(part):
        return ran(f"{suite} {part}/{parts}", sys.executable, "tools/run_tests.py", suite,
                   f"{part}/{parts}", RUBEWOLA_QUICK="1", **{setting: file})
    with concurrent.futures.ThreadPoolExecutor(parts) as pool:
        return [built, *pool.map(play, range(1, parts + 1))]


def not_shown(ended):
    """What was to be shown, and was not."""
    for said, why in UNRUN.items():
        tests = collections.Counter()
        for part in ended:
            for count, suite in re.findall(said, part.said, re.MULTILINE):
                tests[suite] += int(count)
        yield from (f"{count} tests of {suite}, {why}" for suite, count in tests.items())
    for part in ended:
        if part.how == BROKEN_OFF:
            yield f"what was left of {part.part}, which was broken off"
        if part.how == NOT_BUILT:
            yield f"{part.part}, whose program was not built"


def last_line(ended, seconds):
    """How many parts passed, and what was not shown."""
    passed = sum(part.how == PASSED for part in ended)
    unshown = "; ".join([*not_shown(ended), NEVER_SHOWN])
    return f"{passed} passed, {len(ended) - passed} failed in {seconds:.0f} s. Not shown: {unshown}"


def main():
    os.chdir(pathlib.Path(__file__).resolve().parent.parent)
    with tempfile.TemporaryDirectory() as folder, concurrent.futures.ThreadPoolExecutor(4) as pool:
        os.chmod(folder, 0o755)  # Tests run the program as another user too.
        parts = [
            pool.submit(over, "pk_find", "RUBEWOLA_PROGRAM", "client", 4, folder),
            pool.submit(over, "pk_player", "RUBEWOLA_PLAYER", "rows", 1, folder),
            pool.submit(over, "pk_layers", "RUBEWOLA_LAYERS", "layers", 1, folder),
            pool.submit(lambda: [ran("seals", sys.executable, "tools/seals.py"),
                                 ran("tools", sys.executable, "tools/run_tests.py", "tools")]),
        ]
        ended = [each for part in parts for each in part.result()]
    print(last_line(ended, time.time() - START))
    sys.exit(any(part.how != PASSED for part in ended))


if __name__ == "__main__":
    main()

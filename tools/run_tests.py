#!/usr/bin/env python3
"""Runs a suite of tests in Python, and tells what was skipped.

usage: tools/run_tests.py SUITE [K/N]      at the top of the repository; K/N: the Kth of N parts

    rows      the engine's rows, over the built player, and those of the lower layers
    layers    those of the lower layers alone, over the program that answers them
    client    the client's tests, over the built program
    shards    those of archives over several machines, by a Python that has distributed
    tools     the tests of tools/

Behind the tests each one that was skipped is named with its reason, and the command that installs
what they want: the packages of tools/packages.txt. RUBEWOLA_SKIPPED names a file to which these lines
are added. With RUBEWOLA_MUST_RUN=1 the status is 1 where a test was skipped that a package mends.
With RUBEWOLA_QUICK=1 long tests are left out; with RUBEWOLA_UNTIL, a moment in seconds since 1970, no
test is begun behind it. How many were left out so is told in the last lines.
"""
import os
import pathlib
import re
import sys
import time
import unittest

TOP = pathlib.Path(__file__).resolve().parent.parent
CLIENT = TOP / "clients/python"
PROGRAM = TOP / "crates/pk_find/out/pk_find"

# Where each suite's tests are, the folder from which they are imported, and what they import.
SUITES = {
    "rows": ("tests", ".", []),
    "layers": ("tests/layers", ".", []),
    "client": ("clients/python/tests", None, [CLIENT]),
    "shards": ("clients/python/tests/shards", None, [CLIENT, CLIENT / "tests"]),
    "tools": ("tools/tests", None, []),
}
# The modules that RUBEWOLA_QUICK=1 leaves, in this order: the others are long, or have many rows.
QUICK = {
    "rows": ["tests.test_rows", "tests.test_player", "tests.test_scripts", "tests.test_sweeps"],
    "layers": ["tests.layers.test_scripts", "tests.layers.test_segments"],
    "client": [f"test_{name}" for name in (
        "browser side_by_side formats shard_numbers tables config queries places filters jsonlines "
        "starts orders folders following digests accents commands mailboxes readers shard_sessions "
        "maildirs examples page mails harm logs").split()],
}
INSTALL = "apt-get install -y --no-install-recommends"


class Result(unittest.TextTestResult):
    """A result of tests that are begun up to a moment alone."""

    until = float(os.environ.get("RUBEWOLA_UNTIL", "inf"))
    is_stopped = False

    @property
    def shouldStop(self):  # noqa: N802, the name that unittest asks
        return self.is_stopped or time.time() > self.until

    @shouldStop.setter
    def shouldStop(self, value):  # noqa: N802
        self.is_stopped = value


def module_of(suite):
    """The module of a suite's first test."""
    while isinstance(suite, unittest.TestSuite):
        suite = next(iter(suite), None)
    return type(suite).__module__


def folder_of(module):
    """What a module's name has before its last part: those of one suite have the same."""
    return module.rpartition(".")[0]


def chosen(suite, name, part):
    """The tests of a part of the modules, the quick ones alone where these are asked for, and how
    many others the part has."""
    number, parts = map(int, part.split("/"))
    modules, others = [each for each in suite if each.countTestCases()], []
    if name in QUICK and os.environ.get("RUBEWOLA_QUICK") == "1":
        quick, folder = QUICK[name], folder_of(QUICK[name][0])
        others = [each for each in modules
                  if module_of(each) not in quick and folder_of(module_of(each)) == folder]
        modules = [each for each in modules if module_of(each) in quick]
        modules.sort(key=lambda each: quick.index(module_of(each)))
    left = sum(each.countTestCases() for each in others[number - 1::parts])
    return unittest.TestSuite(modules[number - 1::parts]), left


def packages():
    """The packages of the list."""
    lines = (TOP / "tools/packages.txt").read_text("utf-8").splitlines()
    return [line.split()[0] for line in lines if line and not line.startswith("#")]


def mending(reason, names):
    """The package that a reason names, if it is one of these."""
    return next((name for name in names if re.search(rf"(?<![\w-]){name}(?![\w-])", reason)), None)


def skipped(result):
    """The skipped tests of a result, those of one class and one reason together, each with the
    reason."""
    together = {}
    for test, reason in result.skipped:
        place, _, name = test.id().rpartition(".")
        together.setdefault((place, reason), []).append(name)
    for (place, reason), names in together.items():
        yield f"{place} {', '.join(names)}".strip(), reason


def tell(suite, result):
    """Names what was skipped; answers whether a package would have mended any of it."""
    names, wanted = packages(), set()
    lines = []
    for test, reason in skipped(result):
        wanted.add(mending(reason, names))
        lines.append(f"skipped in {suite}, {test}: {reason}")
    wanted.discard(None)
    if lines:
        lines.append(f"{len(result.skipped)} tests of {suite} were skipped")
    if wanted:
        lines.append(f"what they want: {INSTALL} {' '.join(sorted(wanted))}")
    for line in lines:
        print(line)
    file = os.environ.get("RUBEWOLA_SKIPPED")
    if file and lines:
        with open(file, "a", encoding="utf-8") as out:
            out.writelines(f"{line}\n" for line in lines)
    return bool(wanted)


def main():
    words = sys.argv[1:]
    if len(words) not in (1, 2) or words[0] not in SUITES:
        sys.exit(__doc__.partition("usage: ")[2].partition("\n")[0])
    suite, part = words[0], words[1] if words[1:] else "1/1"
    start, top, paths = SUITES[suite]
    os.chdir(TOP)
    before = os.environ.get("PYTHONPATH")
    os.environ["PYTHONPATH"] = os.pathsep.join([*map(str, paths), *([before] if before else [])])
    os.environ.setdefault("RUBEWOLA_PROGRAM", str(PROGRAM))
    sys.path[:0] = [str(path) for path in paths]
    found = unittest.defaultTestLoader.discover(start, top_level_dir=top)
    tests, long = chosen(found, suite, part)
    count = tests.countTestCases()
    result = unittest.TextTestRunner(resultclass=Result).run(tests)
    lacks = tell(suite, result)
    if long:
        print(f"{long} tests of {suite} were left out as long")
    if time.time() > result.until:
        left = count - result.testsRun
        print(f"{left} of {count} tests of {suite} were left out for want of time")
    sys.exit(not result.wasSuccessful() or lacks and os.environ.get("RUBEWOLA_MUST_RUN") == "1")


if __name__ == "__main__":
    main()

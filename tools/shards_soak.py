#!/usr/bin/env python3
"""Kills what an archive over machines runs, by chance, until a load of it is whole.

    tools/shards_soak.py [LINES [KILLS [SEED]]]

A scheduler and three workers on loopback, a load of LINES lines (40,000) into three shards, and up to
KILLS kills (30) with SIGKILL, each once a shard has taken something since the last: of a session, a
worker, a worker with its nanny and sessions, the scheduler, or the loader, drawn with SEED (2). What has
ended is started again, as systemd would, and the same load is run again until it ends well. At each count
between, nothing may be missing that an earlier `complete to` told; in the end each line has to be there
once, under its own number.

PYTHONPATH names the client and its tests, RUBEWOLA_PROGRAM the program; `make soak` does. It prints one
line, and ends with 1 where something was missing; what was killed is told on standard error.
"""

import os
import random
import re
import signal
import subprocess
import sys
import tempfile
import time
from collections import Counter
from pathlib import Path

sys.path.insert(0, str(Path(__file__).resolve().parents[1] / "clients/python/tests/shards"))

from machines import SHARDS, Machines  # noqa: E402

NAMES, BLOCK, UNITS = "abc", 64, 262_144
SORTS = ["session", "worker", "worker", "nanny", "scheduler", "loader"]
RUNS = 60  # Of the loader, at most.
LONG = 300  # Seconds that no single command takes.


class Soak:
    """A load, and what is killed in it."""

    def __init__(self, folder, lines, kills, seed):
        self.chance, self.left, self.done = random.Random(seed), kills, Counter()
        self.lines = [f"line {n} {self.chance.randrange(10**6)}" for n in range(1, lines + 1)]
        self.log, self.loader, self.acknowledged = folder / "log", None, 0
        self.log.write_text("".join(f"{line}\n" for line in self.lines))
        self.machines = Machines(folder, NAMES)
        self.machines.write(self.machines.file, [
            (1, [(name, f"disk-{name}", folder / name) for name in NAMES])], BLOCK)

    def run(self, *words):
        """What a command says, and its status."""
        return subprocess.run([*SHARDS, self.machines.file, *words], capture_output=True,
                              encoding="utf-8", timeout=LONG, check=False)

    def kill_one(self, loader):
        """Kills what chance names, if it is there."""
        sort, name = self.chance.choice(SORTS), self.chance.choice(NAMES)
        try:
            if sort == "session":
                os.kill(self.machines.sessions(name)[0], signal.SIGKILL)
            elif sort == "worker":
                os.kill(self.machines.worker(name), signal.SIGKILL)
            elif sort == "loader":
                loader.kill()
            else:
                self.machines.kill(name if sort == "nanny" else sort)
        except (LookupError, OSError):
            return  # It has ended since another was killed.
        self.left -= 1
        self.done[sort] += 1

    def load(self):
        """One run of the loader with kills in its midst: its status and what it told."""
        line = [*SHARDS, self.machines.file, "--wait", "30", "load-log", self.log]
        loader = self.loader = subprocess.Popen(line, stdout=subprocess.DEVNULL,
                                                stderr=subprocess.PIPE, encoding="utf-8")
        ends, before = time.monotonic() + LONG, self.written()
        while loader.poll() is None and self.left and time.monotonic() < ends:
            if self.written() == before:
                time.sleep(0.05)
                self.machines.up()  # Workers end some seconds after their scheduler.
                continue
            time.sleep(self.chance.uniform(0, 0.5))
            if loader.poll() is None:
                self.kill_one(loader)
            time.sleep(0.5)
            self.machines.up()
            before = self.written()
        return loader.communicate(timeout=LONG)[1], loader.returncode

    def written(self):
        """What changes whenever a shard has taken something."""
        return [(self.log.parent / name).stat().st_mtime_ns for name in NAMES]

    def judge(self, told):
        """Ends where something is missing that was told as complete."""
        for number in map(int, re.findall(r"complete to (\d+)", told)):
            if number < self.acknowledged:
                sys.exit(f"LOST: complete to {self.acknowledged}, and then to {number}")
            self.acknowledged = number
        for count in map(int, re.findall(r"(?m)^count (\d+)", told)):
            if count < self.acknowledged:
                sys.exit(f"LOST: complete to {self.acknowledged}, and {count} are there")

    def until_whole(self):
        """Runs the load until it ends well, and gives how often that was."""
        for run in range(1, RUNS + 1):
            self.machines.settle()
            told, status = self.load()
            print(f"loader: status {status}, {dict(self.done)}: {told.strip()[-160:]}",
                  file=sys.stderr)
            self.judge(told)
            if status == 0:
                return run
            self.machines.settle()
            counted = self.run("--wait", "60", "counts")
            self.judge(counted.stdout)
            print(f"counts: status {counted.returncode}, {counted.stdout.split()[-1:]}",
                  file=sys.stderr)
        sys.exit(f"the load was not whole after {RUNS} runs")

    def stop(self):
        """Ends all that it started."""
        if self.loader and self.loader.poll() is None:
            self.loader.kill()
            self.loader.wait()
        self.machines.stop()

    def fault(self):
        """What is wrong with the shards, if anything."""
        self.machines.settle()
        shown = self.run("--wait", "60", "search", "line").stdout.splitlines()
        wanted = [f"{number}: {line}" for number, line in enumerate(self.lines, 1)]
        return "" if shown == wanted else f"{len(shown)} lines where {len(wanted)} are wanted"


def main():
    """Runs it all."""
    signal.signal(signal.SIGTERM, lambda *_: sys.exit("it was ended"))  # And all that it started.
    lines, kills, seed = [*map(int, sys.argv[1:]), *[40_000, 30, 2][len(sys.argv) - 1:]]
    with tempfile.TemporaryDirectory() as folder:
        soak = Soak(Path(folder), lines, kills, seed)
        try:
            soak.machines.settle()
            soak.run("create", "--units", str(UNITS))
            runs = soak.until_whole()
            fault = soak.fault()
        finally:
            soak.stop()
    killed = ", ".join(f"{count} {sort}" for sort, count in sorted(soak.done.items()))
    print(f"shards soak: {lines} lines, {runs} runs, killed: {killed}; {fault or 'whole'}")
    sys.exit(1 if fault else 0)


if __name__ == "__main__":
    main()

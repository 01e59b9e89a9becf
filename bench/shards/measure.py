"""Measures loads and searches of a log over 1, 2 and 4 workers, beside one store and the plain way.

    measure.py DATA ROUNDS

DATA/log is the log. Each round loads it into one store, into four stores side by side by xargs, and
by an engine over 1, 2 and 4 workers on loopback; times are of whole commands. Of the engine it prints
the processor time of each process too: the busiest one bounds a load where processors are free. The
first round then asks: each shard alone over a pipe, and all through the engine. Each line begins with the load that the
system tells of, since other work makes times longer.
"""

import os
import pickle
import resource
import shutil
import signal
import statistics
import subprocess
import sys
import time
from pathlib import Path

from machines import SHARDS, Machines
from rubewola import Store
from rubewola_shards import answers
from rubewola_shards.archive import Archive, _archive
from rubewola_shards.fleet import Fleet
from rubewola_shards.inputs import Lines, batches, tasks_of

RUBEWOLA = [sys.executable, "-m", "rubewola"]
QUERIES = ["64999", "root AND accepted", "dhcprequest"]
UNITS, ASKED, COMMANDS, LAST = 1_048_576, 101, 3, 10


def say(*words):
    """Prints a line, with the system's load."""
    print(f"[load {os.getloadavg()[0]:4.1f}]", *words, flush=True)


def emptied(folder):
    """A folder, with nothing in it."""
    shutil.rmtree(folder, ignore_errors=True)
    folder.mkdir(parents=True)
    return folder


def seconds(*line):
    """How long a command takes; its output where something was found or done."""
    begin = time.perf_counter()
    ran = subprocess.run([*map(str, line)], capture_output=True, encoding="utf-8", check=False)
    taken = time.perf_counter() - begin
    if ran.returncode:
        sys.exit(f"{line}: {ran.stderr}")
    return taken


def milliseconds(call):
    """The median of many calls."""
    taken = []
    for _ in range(ASKED):
        begin = time.perf_counter()
        call()
        taken.append(time.perf_counter() - begin)
    return statistics.median(taken) * 1e3


def command_time(*line):
    """The median seconds of a whole command."""
    return statistics.median(seconds(*line) for _ in range(COMMANDS))


def one_store(data):
    """The plain loader, which decodes in as many processes as there are processors."""
    taken = seconds(*RUBEWOLA, "load-log", emptied(data / "one") / "s", data / "log")
    say(f"one store: load {taken:.1f} s")
    return taken


def four_stores(data):
    """The plain way: four parts of the log, loaded side by side."""
    parts, stores = emptied(data / "parts"), emptied(data / "four")
    seconds("split", "-n", "l/4", data / "log", parts / "part")
    line = f"{sys.executable} -m rubewola load-log --jobs 1 {stores}/$(basename $1) $1"
    taken = seconds("sh", "-c", f"ls {parts}/* | xargs -P 4 -I@ sh -c '{line}' sh @")
    say(f"four stores by xargs: load {taken:.1f} s")
    return taken


def by_workers(data, count, asks):
    """The engine, with so many workers of a shard each; where it `asks`, searches too."""
    folder = emptied(data / f"workers-{count}")
    machines = Machines(folder, "abcd"[:count])
    try:
        begin = time.perf_counter()
        machines.settle()
        up = time.perf_counter() - begin
        line = [*SHARDS, machines.file]
        seconds(*line, "create", "--units", UNITS)
        seconds(*line, "open")
        before, loader = processor_times(machines), resource.getrusage(resource.RUSAGE_CHILDREN)
        taken = seconds(*line, "load-log", data / "log")
        spent = [after - first for first, after in zip(before, processor_times(machines))]
        spent.append(sum(resource.getrusage(resource.RUSAGE_CHILDREN)[:2]) - sum(loader[:2]))
        say(f"{count} workers: up in {up:.1f} s, load {taken:.1f} s; processor time of each worker "
            f"{' '.join(f'{value:.1f}' for value in spent[:count])}, of each session "
            f"{' '.join(f'{value:.1f}' for value in spent[count:-1])}, of the loader {spent[-1]:.1f}, "
            f"of the busiest {max(spent):.1f} s")
        if asks:
            ask(machines, line)
        return taken
    finally:
        machines.stop()


def shares(data):
    """What of a load is the loader's own, and what its workers do, by processor time in one process."""
    archive = _archive({"scheduler": "tcp://127.0.0.1:1", "group": [
        {"first": 1, "shards": [{"name": "a", "disk": "a", "path": "/a"}]}]}, data)
    source, count, own, decoding = Lines(str(data / "log")), 0, 0.0, 0.0
    begin = time.process_time()
    for _, items in batches(archive, source, 1):
        tasks = tasks_of(source, items, True)
        pickle.dumps(tasks, pickle.HIGHEST_PROTOCOL)
        packed = time.process_time()
        count += sum(len(function(*given)) for function, *given in tasks)
        own, decoding = own + packed - begin, decoding + time.process_time() - packed
        begin = time.process_time()
    say(f"{count} lines: processor time of the loader {own:.2f} s, of decoding {decoding:.2f} s")


def processor_times(machines):
    """Seconds of processor time that each worker and then each session has taken."""
    pids = [machines.worker(name) for name in machines.names]
    pids += [machines.sessions(name)[0] for name in machines.names]
    told = [Path(f"/proc/{pid}/stat").read_text().rpartition(")")[2].split() for pid in pids]
    return [(int(fields[11]) + int(fields[12])) / os.sysconf("SC_CLK_TCK") for fields in told]


def ask(machines, line):
    """Searches of each shard alone, and of all."""
    seconds(*line, "close")
    alone = {query: [] for query in QUERIES}
    for name in machines.names:
        with Store(machines.folder / name, wait=9) as store:
            for query in QUERIES:
                alone[query].append(milliseconds(lambda: store.find(query)))
    with Fleet(Archive.read(machines.file)) as fleet:
        for query in QUERIES:
            found = answers.find(fleet, query, LAST, say)
            taken = milliseconds(lambda: answers.find(fleet, query, LAST, say))
            slowest = max(alone[query])
            say(f"{len(machines.names)} workers: {query!r}, {found.count} found: slowest shard "
                f"{slowest:.2f} ms, engine {taken:.2f} ms, {taken - slowest:.2f} ms more")
            shown = milliseconds(lambda: answers.replies(fleet, found.numbers))
            say(f"{len(machines.names)} workers: their last {len(found.numbers)} texts "
                f"{shown:.2f} ms")
    seconds(*line, "open")
    say(f"{len(machines.names)} workers: a whole search of {QUERIES[0]!r} "
        f"{command_time(*line, 'search', '--limit', LAST, QUERIES[0]):.2f} s")


def ask_plainly(data):
    """The same searches of one store, and of four by xargs."""
    path = data / "one" / "s"
    with Store(path) as store:
        for query in QUERIES:
            say(f"one store: {query!r}: {milliseconds(lambda: store.find(query)):.2f} ms by a pipe")
    whole = command_time(*RUBEWOLA, "search", "--limit", LAST, path, QUERIES[0])
    say(f"one store: a whole search of {QUERIES[0]!r} {whole:.2f} s")
    found = f"{sys.executable} -m rubewola search --limit {LAST} $1 {QUERIES[0]} || [ $? = 1 ]"
    whole = command_time("sh", "-c", f"ls {data}/four/* | xargs -P 4 -I@ sh -c '{found}' sh @")
    say(f"four stores by xargs: a whole search of {QUERIES[0]!r} {whole:.2f} s")


def main():
    """Takes all measurements in turn."""
    signal.signal(signal.SIGTERM, lambda *_: sys.exit("it was ended"))  # And all that it started.
    data, rounds, loads = Path(sys.argv[1]), int(sys.argv[2]), {}
    shares(data)
    for at in range(rounds):
        taken = {"one store": one_store(data), "four stores": four_stores(data)}
        if at == 0:
            ask_plainly(data)
        taken |= {f"{count} workers": by_workers(data, count, at == 0) for count in (1, 2, 4)}
        for name, value in taken.items():
            loads.setdefault(name, []).append(value)
    for name, values in loads.items():
        ratios = [f"{one / value:.2f}" for one, value in zip(loads["1 workers"], values)]
        say(f"{name}: {', '.join(f'{value:.1f}' for value in values)} s; "
            f"as fast as 1 worker: {', '.join(ratios)}")


if __name__ == "__main__":
    main()

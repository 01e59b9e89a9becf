"""Measures a first load of a maildir, its disk, finds, a kill in its midst and a second writer.

    measure.py DATA MAILS [shards | log | growth | starts | line | beside | once]

With `shards`, `log`, `starts` or `line` it measures these alone, with `growth` how fast each fifth
of a load of the log is, with `beside` whole searches while a log is loaded, with `once` one load of
each, its disk and finds.
DATA/mails/maildir has the mails, DATA/log a syslog.
Each system is a command line that loads all of them, one that counts those with a word, and a
folder that it keeps; absent ones are skipped. Systems take turns in loading. Times are of whole
processes, with the files in the system's cache.
"""

import itertools
import os
import pathlib
import platform
import re
import shutil
import signal
import sqlite3
import statistics
import subprocess
import sys
import time
from concurrent.futures import ThreadPoolExecutor

from rubewola import Reader, Store, commits
from rubewola.documents import document
from rubewola.logs import Mark, _Digests
from rubewola.maildirs import Maildirs
from rubewola.mails import mail
from rubewola.words import SIGN

LOADS = int(os.environ.get("LOADS", "3"))
ASKED = 9
SHARDS = 4
WORDS = ["zymotic", "water"]
STARTS = 21
SEARCHING = (1, 4)  # Processes that search at once beside a load.
MARKED = 2_048  # Lines of which the last has marks.
# Documents of a store into which one line is loaded, so many times.
LINES, LINE_LOADS = [int(count) for count in os.environ.get("LINES", "1000 1000000").split()], 5
FTS = [sys.executable, os.path.abspath(__file__), "fts"]
# The installed client; RUBEWOLA names it.
RUBEWOLA = [os.environ.get("RUBEWOLA", "rubewola")]


class System:
    """A search engine by its command lines."""

    def __init__(self, name, folder, load, count, prepare=None):
        self.name, self.folder, self.load, self.count = name, folder, load, count
        self.prepare = prepare

    def clear(self):
        """Begins anew."""
        shutil.rmtree(self.folder, ignore_errors=True)
        self.folder.mkdir(parents=True)
        if self.prepare:
            self.prepare()

    def start(self):
        """Starts a load, in a process group of its own."""
        return subprocess.Popen(self.load, stdout=subprocess.PIPE, stderr=subprocess.STDOUT,
                                stdin=subprocess.DEVNULL, start_new_session=True, text=True)

    def ask(self, word):
        """How many mails have a word, and what the answer was where that is no number."""
        ran = subprocess.run([part.replace("WORD", word) for part in self.count], text=True,
                             capture_output=True, check=False)
        said = ran.stdout.strip()
        return int(said) if said.isdigit() else len(said.splitlines())

    def disk(self):
        """The bytes that the system holds for its files."""
        return sum(path.stat().st_blocks * 512 for path in self.folder.rglob("*"))


def systems(data):
    """Those that are there."""
    mails, made = data / "mails" / "maildir", data / "stores"
    found = [System("Rubewola", made / "rubewola",
                    [*RUBEWOLA, "load-maildir", str(made / "rubewola" / "s"), str(mails)],
                    [*RUBEWOLA, "search", "--count", str(made / "rubewola" / "s"), "WORD"])]
    alone = str(made / "alone" / "s")
    found.append(System("Rubewola, `--jobs 1`", made / "alone",
                        [*RUBEWOLA, "load-maildir", "--jobs", "1", alone, str(mails)],
                        [*RUBEWOLA, "search", "--count", alone, "WORD"]))
    if shutil.which("notmuch"):
        config = made / "notmuch" / "config"

        def prepare():
            config.write_text(f"[database]\npath={made / 'notmuch'}\nmail_root={mails}\n"
                              "[user]\nname=bench\nprimary_email=bench@example.org\n"
                              "[new]\ntags=\n[maildir]\nsynchronize_flags=false\n")
        line = ["notmuch", f"--config={config}"]
        found.append(System("notmuch", made / "notmuch", [*line, "new", "--quiet"],
                            [*line, "count", "WORD"], prepare))
    if shutil.which("mu"):
        home = f"--muhome={made / 'mu'}"

        def init():
            line = ["mu", "init", home, f"--maildir={mails}"]
            subprocess.run(line, capture_output=True, check=True)
        found.append(System("mu", made / "mu", ["mu", "index", home, "--quiet"],
                            ["mu", "find", home, "--fields=l", "WORD"], init))
    base = str(made / "fts" / "base")
    return found + [System("SQLite FTS5", made / "fts", [*FTS, "load", base, str(mails)],
                           [*FTS, "count", base, "WORD"])]


def fts(what, path, argument):
    """SQLite FTS5 as a command line: the same texts, in transactions of 4,096 mails."""
    base = sqlite3.connect(path, isolation_level=None, timeout=0)
    base.execute("PRAGMA synchronous=FULL")
    if what == "count":
        query = "SELECT count(*) FROM mails WHERE mails MATCH ?"
        print(base.execute(query, (f'"{argument}"',)).fetchone()[0])
        return
    base.execute("CREATE VIRTUAL TABLE IF NOT EXISTS mails USING fts5(text, detail=none)")
    done = base.execute("SELECT count(*) FROM mails").fetchone()[0]
    texts = mail_texts(argument, done) if what == "load" else open(argument, encoding="utf-8")
    for text in texts:
        base.execute("BEGIN")
        batch = itertools.chain([text], itertools.islice(texts, 4_095))
        base.executemany("INSERT INTO mails VALUES (?)", ((text,) for text in batch))
        base.execute("COMMIT")


def mail_texts(folder, done):
    """The texts of a maildir's mails with the words of their fields, but for those done before."""
    for path in Maildirs(folder).paths[done:]:
        parsed = mail(pathlib.Path(path).read_bytes())
        yield document("maildir", parsed.text, parsed.words, with_parts=False)[0].decode()


def timed(system, word):
    """The median milliseconds of a count, and the number."""
    times = []
    for _ in range(ASKED):
        start = time.perf_counter()
        number = system.ask(word)
        times.append(time.perf_counter() - start)
    return f"{statistics.median(times) * 1e3:.0f} ms ({number:,})"


def starts(data, word):
    """A table of whole processes that answer how many mails have a word, beside Python's start;
    they take turns. The stores are those that are there."""
    interpreter = open(shutil.which(RUBEWOLA[0]), encoding="utf-8").readline()[2:].split()
    asked = {"Python alone, `-SI -c pass`": [*interpreter, "-c", "pass"]}
    asked |= {system.name: [part.replace("WORD", word) for part in system.count]
              for system in systems(data) if system.name in ("Rubewola", "notmuch", "mu")}
    times = {name: [] for name in asked}
    for _ in range(STARTS):
        for name, line in asked.items():
            start = time.perf_counter()
            subprocess.run(line, check=False, capture_output=True)
            times[name].append((time.perf_counter() - start) * 1e3)
    floor = min(next(iter(times.values())))
    rows = [f"| {name} | {min(taken):.1f} | {statistics.median(taken):.1f} "
            f"| {min(taken) / floor:.2f} |" for name, taken in times.items()]
    return "\n".join([f"Starts, `{word}`, whole processes in turns:", "",
                      f"| | least of {STARTS}, ms | median | times Python's |",
                      "|---|---|---|---|", *rows])


def log_systems(data):
    """Those that load a log."""
    made, log = data / "stores", str(data / "log")
    one, base = str(made / "lines" / "s"), str(made / "fts-lines" / "base")
    return [System("Rubewola", made / "lines", [*RUBEWOLA, "load-log", one, log],
                   [*RUBEWOLA, "search", "--count", one, "WORD"]),
            System("Rubewola, `--jobs 1`", made / "lines-1",
                   [*RUBEWOLA, "load-log", "--jobs", "1", str(made / "lines-1" / "s"), log],
                   [*RUBEWOLA, "search", "--count", str(made / "lines-1" / "s"), "WORD"]),
            System("SQLite FTS5", made / "fts-lines", [*FTS, "load-log", base, log],
                   [*FTS, "count", base, "WORD"])]


def logs(data):
    """A table of loading a log."""
    size, count = (data / "log").stat().st_size, sum(1 for _ in open(data / "log", "rb"))
    measured = log_systems(data)
    seconds = best_loads(measured)
    rows = [f"| {system.name} | {least:.1f} s | {count / least:,.0f} "
            f"| {system.disk() / 1e6:.1f} MB | {timed(system, 'dhcprequest')} |"
            for system, least in zip(measured, seconds)]
    return "\n".join([f"A syslog of {count:,} lines, {size / 1e6:.1f} MB:", "",
                      "| | first load | lines a second | disk | find dhcprequest |",
                      "|---|---|---|---|---|", *rows])


def growth(data):
    """How many lines a second each fifth of a load of the log took, by the lines that tell of its
    commits, and the segments at its end."""
    system, start = log_systems(data)[0], time.perf_counter()
    system.clear()
    commits = [(0, 0.0)]
    for line in (running := system.start()).stdout:
        if told := re.match(r"(?:rubewola: )?(?:loaded )?([\d,]+) (?:loaded|documents)", line):
            commits.append((int(told[1].replace(",", "")), time.perf_counter() - start))
    running.wait()
    whole, seconds = commits[-1]
    rates = []
    for fifth in range(5):
        (first, begin), *_, (last, end) = (
            one for one in commits if whole * fifth <= 5 * one[0] <= whole * (fifth + 1))
        rates.append((last - first) / (end - begin))
    segments = Store.check(system.folder / "s").segments
    return (f"{whole:,} lines in {seconds:.0f} s, {segments} segments; lines a second in each fifth: "
            f"{', '.join(f'{rate:,.0f}' for rate in rates)}; the last to the first "
            f"{rates[-1] / rates[0]:.2f}")


def filled(path, log, count):
    """Writes a log of so many lines, and a store that has them, as a loader of short documents leaves
    it: with the marks of the log, and with the loader's commits and tidies."""
    digests, first = _Digests(), ""
    with open(log, "wb") as out, Store.create(path, max(524_288, 2 * count)) as store:
        for begin in range(0, count, MARKED):
            lines = [b"line %d\n" % at for at in range(begin, min(begin + MARKED, count))]
            if not first:
                digests.take(lines[0])
                first = digests.digest
            digests.take(b"".join(lines[0 if begin else 1:]))
            out.writelines(lines)
            texts = [b"%b\v\x1d%b" % (line[:-1], f"{SIGN}log".encode()) for line in lines]
            mark = " ".join(Mark(first, digests.size, digests.digest, str(log)).words())
            texts[-1] += f" {mark}".encode()
            commits.add(store, texts)


def one_line(data):
    """What a load of one line takes in a small store and in a large one, and of that of processors:
    of a log of its own, and of the log that the store has."""
    rows = ["| documents in the store | a line of another log | a line more of this one | most memory |",
            "|---|---|---|---|"]
    for count in LINES:
        folder = data / "line"
        shutil.rmtree(folder, ignore_errors=True)
        folder.mkdir(parents=True)
        large, small, store = folder / "large.log", folder / "small.log", folder / "store"
        filled(store, large, count)
        told, most = [], 0
        for log in (small, large):
            took, spent = [], []
            for at in range(LINE_LOADS):
                with open(log, "a", encoding="ascii") as out:
                    out.write(f"one more {at}\n")
                begin = time.monotonic()
                with subprocess.Popen([*RUBEWOLA, "load-log", store, log], stderr=subprocess.PIPE,
                                      text=True) as load:
                    assert "loaded 1 documents" in (said := load.stderr.read()), said
                    _, _, used = os.wait4(load.pid, 0)
                    load.returncode = 0
                took.append(time.monotonic() - begin)
                spent.append(used.ru_utime + used.ru_stime)
                most = max(most, used.ru_maxrss)
            told.append(f"{statistics.median(took):.2f} s, {statistics.median(spent):.2f} s")
        rows.append(f"| {count:,} | {' | '.join(told)} | {most / 1024:.0f} MB "
                    f"| load {os.getloadavg()[0]:.1f}")
        print(rows[-1], file=sys.stderr)
    return "\n".join(rows)


def searched(line, clients, goes_on):
    """The milliseconds of whole searches, one behind the other by each client while it goes on."""
    def ask(_):
        times = []
        while goes_on():
            start = time.perf_counter()
            subprocess.run(line, check=True, stdout=subprocess.DEVNULL)
            times.append((time.perf_counter() - start) * 1e3)
        return times
    with ThreadPoolExecutor(clients) as pool:
        return sorted(itertools.chain.from_iterable(pool.map(ask, range(clients))))


def beside(data, word):
    """A table of whole searches in a store of mails, with nothing beside them and while a log is
    loaded into it."""
    system, rows = systems(data)[0], []
    line = [part.replace("WORD", word) for part in system.count]
    for clients in SEARCHING:
        load(system)
        ends = time.perf_counter() + 3
        alone = searched(line, clients, lambda ends=ends: time.perf_counter() < ends)
        start = time.perf_counter()
        running = subprocess.Popen([*RUBEWOLA, "load-log", system.folder / "s", data / "log"],
                                   stderr=subprocess.DEVNULL)
        times = searched(line, clients, lambda running=running: running.poll() is None)
        seconds = time.perf_counter() - start
        if running.returncode:
            sys.exit("measure: the load failed")
        told = " | ".join(f"{statistics.median(some):.0f} | {max(some):.0f}"
                          for some in (alone, times))
        rows.append(f"| {clients} | {told} | {len(times)} | {seconds:.1f} s "
                    f"| load {os.getloadavg()[0]:.1f}")
    return "\n".join(["| searching | alone: median, ms | worst | beside a load: median, ms | worst "
                      "| searches | the load |", "|---|---|---|---|---|---|---|", *rows])


def best_loads(measured):
    """The least seconds of a load of each system, which take turns."""
    rounds = [[load(system) for system in measured] for _ in range(LOADS)]
    return [min(times) for times in zip(*rounds)]


def load(system):
    """The seconds of a whole load."""
    system.clear()
    start = time.perf_counter()
    said, _ = (running := system.start()).communicate()
    if running.returncode:
        sys.exit(f"measure: {system.name}: {said}")
    return time.perf_counter() - start


def killed(system, seconds, word, wanted):
    """What is there after a kill at two thirds, and whether a second load gives the whole."""
    system.clear()
    running = system.start()
    time.sleep(seconds * 2 / 3)
    os.killpg(running.pid, signal.SIGKILL)
    running.communicate()
    time.sleep(0.5)
    left = system.ask(word)
    again, _ = (second := system.start()).communicate()
    whole = second.returncode == 0 and system.ask(word) == wanted
    return f"{left:,} of {wanted:,} left, then {'whole' if whole else again.strip()[-60:]}"


def second(system, seconds, word, wanted):
    """What a second load says while the first runs, and whether the first is unharmed."""
    system.clear()
    first = system.start()
    time.sleep(min(seconds / 4, 1))
    said, _ = (other := system.start()).communicate()
    first.communicate()
    ends = "waits" if not other.returncode else f"refused: {said.strip().splitlines()[-1]}"
    return f"{ends}; {'the first is whole' if system.ask(word) == wanted else 'the first is not'}"


def in_session(data, words):
    """Milliseconds of finds in an open store, and of opening it."""
    start = time.perf_counter()
    with Reader(data / "stores" / "rubewola" / "s") as store:
        opening, told = time.perf_counter() - start, []
        for word in words:
            start = time.perf_counter()
            store.find(word)
            told.append(f"{word} {(time.perf_counter() - start) * 1e3:.0f} ms")
    return f"Rubewola, in an open store: {', '.join(told)}; opened in {opening * 1e3:.0f} ms"


def side_by_side(lines):
    """The seconds that command lines take at once."""
    start = time.perf_counter()
    running = [subprocess.Popen(line, stdout=subprocess.DEVNULL, stderr=subprocess.DEVNULL)
               for line in lines]
    for one in running:
        one.wait()
    return time.perf_counter() - start


def shards(data, word):
    """One store beside SHARDS of the same mails, loaded and searched side by side."""
    made, whole = data / "stores" / "shards", data / "mails" / "maildir"
    for path in (made, data / "mails" / "shards"):
        shutil.rmtree(path, ignore_errors=True)
    made.mkdir(parents=True)
    names = sorted(os.listdir(whole / "cur"))
    for at, name in enumerate(names):
        folder = data / "mails" / "shards" / str(at * SHARDS // len(names)) / "cur"
        folder.mkdir(parents=True, exist_ok=True)
        os.link(whole / "cur" / name, folder / name)
    parts = [(str(made / str(n)), str(data / "mails" / "shards" / str(n))) for n in range(SHARDS)]
    one = (str(made / "one"), str(whole))
    told = []
    for what, line in [("load", lambda s, d: [*RUBEWOLA, "load-maildir", s, d]),
                       (f"find {word}", lambda s, d: [*RUBEWOLA, "search", "--count", s, word])]:
        alone, many = side_by_side([line(*one)]), side_by_side([line(*part) for part in parts])
        told.append(f"{what} {alone:.1f} s alone, {many:.1f} s so ({alone / many:.1f} times)")
    return f"Rubewola, {SHARDS} shards side by side: {'; '.join(told)}"


def once(data, words):
    """A table of one load of each system, and of finds."""
    print("| | first load | disk | find " + " | find ".join(words) + " |\n|---|---|---|---|---|")
    for system in systems(data):
        row = [f"{load(system):.1f} s", f"{system.disk() / 1e6:.1f} MB",
               *(timed(system, word) for word in words)]
        print(f"| {system.name} | " + " | ".join(row) + f" | load {os.getloadavg()[0]:.1f}", flush=True)


def main():
    """Measures, and prints a table."""
    data, count = pathlib.Path(sys.argv[1]).absolute(), int(sys.argv[2])
    words = WORDS
    bytes_of = sum(path.stat().st_size for path in (data / "mails" / "maildir").rglob("*:2,*"))
    model = [line.split(":")[1].strip() for line in open("/proc/cpuinfo") if "model name" in line]
    print(f"{count:,} mails, {bytes_of / 1e6:.1f} MB; the best of {LOADS} loads, medians of "
          f"{ASKED} finds; "
          f"{len(model)} x {(model or ['?'])[0]}; Python {platform.python_version()}; "
          f"SQLite {sqlite3.sqlite_version}; {time.strftime('%Y-%m-%d')}; "
          f"load {os.getloadavg()[0]:.1f}\n")
    print(f"| | first load | disk | find {words[0]} | find {words[1]} | killed | second writer |\n"
          "|---|---|---|---|---|---|---|")
    measured = systems(data)
    for system, seconds in zip(measured, best_loads(measured)):
        row = [system.name, f"{seconds:.1f} s", f"{system.disk() / 1e6:.1f} MB",
               *(timed(system, word) for word in words)]
        if system.name == "Rubewola":
            note = in_session(data, words)
        wanted = system.ask(words[1])
        asked = (system, seconds, words[1], wanted)
        row += [killed(*asked), second(*asked)]
        print("| " + " | ".join(row) + f" | load {os.getloadavg()[0]:.1f}", flush=True)
    print(f"\n{note}\n{shards(data, words[1])}", flush=True)
    print(f"\n{logs(data)}\n\n{starts(data, words[0])}\nload {os.getloadavg()[0]:.1f}")


if __name__ == "__main__":
    if sys.argv[1] == "fts":
        fts(*sys.argv[2:])
    elif sys.argv[3:] == ["log"]:
        print(logs(pathlib.Path(sys.argv[1]).absolute()))
    elif sys.argv[3:] == ["growth"]:
        print(growth(pathlib.Path(sys.argv[1]).absolute()))
    elif sys.argv[3:] == ["starts"]:
        print(starts(pathlib.Path(sys.argv[1]).absolute(), WORDS[0]))
    elif sys.argv[3:] == ["line"]:
        print(one_line(pathlib.Path(sys.argv[1]).absolute()))
    elif sys.argv[3:] == ["beside"]:
        print(beside(pathlib.Path(sys.argv[1]).absolute(), WORDS[1]))
    elif sys.argv[3:] == ["once"]:
        once(pathlib.Path(sys.argv[1]).absolute(), WORDS)
    elif sys.argv[3:]:
        print(shards(pathlib.Path(sys.argv[1]).absolute(), "water"))
    else:
        main()

"""Measures the page over a store of `run.sh`: opening it, each kind of request, requests a second.

    page.py STORE

RUBEWOLA names the installed client, RUBEWOLA_PROGRAM the program, PYTHONPATH the client's package.
Times are medians, beside them the processor time of the server and its programs, by request;
requests come over HTTP, one after the other or from several clients at once.
"""

import os
import re
import statistics
import subprocess
import sys
import time
from concurrent.futures import ThreadPoolExecutor
from urllib.request import urlopen

from rubewola import Reader

ASKED, CLIENTS, SECONDS = 21, 4, 5
KINDS = {"the empty page": "", "a document": "doc/0/1", "a rare word": "?q=zymotic",
         "a word": "?q=water", "all": "?q=NOT+zymoticx"}


def median(what):
    """The median milliseconds of what is done."""
    times = []
    for _ in range(ASKED):
        start = time.perf_counter()
        what()
        times.append(time.perf_counter() - start)
    return statistics.median(times) * 1e3


def spent(process):
    """The processor seconds of a process and of those that it has waited for."""
    with open(f"/proc/{process}/stat", encoding="utf-8", errors="replace") as told:
        times = told.read().rpartition(")")[2].split()[11:15]
    return sum(map(int, times)) / os.sysconf("SC_CLK_TCK")


def rate(address, clients):
    """Requests a second for a rare word, of so many clients."""
    ends = time.perf_counter() + SECONDS

    def ask(_):
        count = 0
        while time.perf_counter() < ends:
            urlopen(address).read()
            count += 1
        return count
    with ThreadPoolExecutor(clients) as pool:
        return sum(pool.map(ask, range(clients))) / SECONDS


def main():
    """Measures, and prints a table."""
    path = os.path.abspath(sys.argv[1])
    server = subprocess.Popen([os.environ.get("RUBEWOLA", "rubewola"), "serve", path],
                              stdout=subprocess.PIPE, stderr=subprocess.DEVNULL, text=True)
    address = server.stdout.readline().strip()
    try:
        print(f"load {os.getloadavg()[0]:.1f}\n\n| request | found | ms | of a processor |\n"
              f"|---|---|---|---|\n"
              f"| opening and closing the store | | {median(lambda: Reader(path).close()):.1f} | |")
        for name, rest in KINDS.items():
            found = re.search("<h2>([\\d,]+) found", urlopen(address + rest).read().decode())
            before = spent(server.pid)
            took = median(lambda rest=rest: urlopen(address + rest).read())
            own = (spent(server.pid) - before) / ASKED * 1e3
            print(f"| {name} | {found[1] if found else ''} | {took:.1f} | {own:.1f} |", flush=True)
        rates = [rate(address + KINDS["a rare word"], clients) for clients in (1, CLIENTS)]
        print(f"\n{rates[0]:.0f} requests a second of one client, {rates[1]:.0f} of {CLIENTS}; "
              f"load {os.getloadavg()[0]:.1f}")
    finally:
        server.kill()
        server.communicate()


if __name__ == "__main__":
    main()

"""A scheduler and workers as processes on loopback, and the file of an archive over them."""

import contextlib
import logging
import os
import signal
import socket
import subprocess
import sys
import time
from pathlib import Path

SHARDS = [sys.executable, "-m", "rubewola_shards"]
START = 300  # Seconds in which workers are there, also on a machine that has much other work.


def write_archive(file, scheduler, groups, block, tls=None):
    """Writes the file of an archive: its groups are pairs of a first number, and of shards by
    their names, disks and paths."""
    told = [f'scheduler = "{scheduler}"', f"block = {block}"]
    if tls:
        told += ["[tls]", *(f'{name} = "{path}"' for name, path in tls.items())]
    for first, shards in groups:
        rows = ",\n".join(f'{{ name = "{name}", disk = "{disk}", path = "{path}" }}'
                          for name, disk, path in shards)
        told += ["[[group]]", f"first = {first}", f"shards = [{rows}]"]
    Path(file).write_text("\n".join(told) + "\n")


def children(pid):
    """The processes that a process started."""
    found = []
    for task in Path(f"/proc/{pid}/task").iterdir():
        with contextlib.suppress(FileNotFoundError, ProcessLookupError):  # A thread that has ended.
            found += map(int, (task / "children").read_text().split())
    return found


def _is_python(pid):
    """Whether a process is one of Python's own, as one that decodes; or has ended."""
    try:
        return b"multiprocessing" in Path(f"/proc/{pid}/cmdline").read_bytes()
    except (FileNotFoundError, ProcessLookupError):
        return True


class Machines:
    """A scheduler and workers, each with one disk and by its name: worker `a` has `disk-a`. Only
    processes that this object started, and theirs, are ended, each by its number."""

    def __init__(self, folder, names, tls=None):
        self.folder, self.names, self.tls = Path(folder), names, tls
        self.processes = {}
        logging.disable()  # Dask logs each connection that fails.
        with socket.socket() as free:
            free.bind(("127.0.0.1", 0))
            port = free.getsockname()[1]
        self.address = f"{'tls' if tls else 'tcp'}://127.0.0.1:{port}"
        self.file = self.folder / "machines.toml"
        self.write(self.file, [(1, [(name, f"disk-{name}", self.folder / name) for name in names])])

    def write(self, file, groups, block=4_096):
        """Writes the file of an archive over these machines."""
        write_archive(file, self.address, groups, block, self.tls)

    def start(self, name, *words):
        """Starts a scheduler or a worker."""
        with open(self.folder / f"{name}.log", "ab") as log:
            self.processes[name] = subprocess.Popen(
                [*SHARDS, self.file, *words], stdin=subprocess.DEVNULL, stdout=log, stderr=log,
                start_new_session=True)

    def up(self):
        """What systemd would do: starts what is not there or has ended."""
        for name in ("scheduler", *self.names):
            if name not in self.processes or self.processes[name].poll() is not None:
                if name == "scheduler":
                    self.start(name, "scheduler", "--pages", "0")
                else:
                    self.start(name, "worker", "--folder", self.folder, f"disk-{name}")

    def disks(self):
        """The disks that the workers have; raises where no scheduler is there."""
        from distributed import Client
        from rubewola_shards.archive import Archive
        from rubewola_shards.fleet import security
        with Client(self.address, timeout=3, security=security(Archive.read(self.file))) as client:
            workers = client.scheduler_info()["workers"].values()
        return {disk for worker in workers for disk in worker["resources"]}

    def settle(self):
        """Starts what has ended until all is there: a worker may end a while after its scheduler."""
        ends, wanted = time.monotonic() + START, {f"disk-{name}" for name in self.names}
        while time.monotonic() < ends:
            self.up()
            try:
                if self.disks() == wanted:
                    return
            except OSError:
                pass
            time.sleep(0.05)
        raise TimeoutError(f"{wanted} are not there in {START} s")

    def worker(self, name):
        """The number of a worker's process, which its nanny started."""
        for child in children(self.processes[name].pid):
            if b"spawn_main" in Path(f"/proc/{child}/cmdline").read_bytes():
                return child
        raise LookupError(name)

    def sessions(self, name):
        """The numbers of the programs of a worker's sessions."""
        return [child for child in children(self.worker(name)) if not _is_python(child)]

    def all_of(self, name):
        """A process and all that it started, itself first."""
        found = [self.processes[name].pid]
        for pid in found:
            try:
                found += children(pid)
            except (FileNotFoundError, ProcessLookupError):
                pass
        return found

    def kill(self, name):
        """Ends a scheduler, or a nanny with its worker and the sessions, as where a machine dies."""
        for pid in self.all_of(name):
            try:
                os.kill(pid, signal.SIGKILL)
            except ProcessLookupError:
                pass
        self.processes.pop(name).wait()

    def stop(self):
        """Ends all."""
        for name in [*self.processes]:
            self.kill(name)

"""The scheduler and the workers of an archive: Dask's own, started so that nobody else reaches them.

Who reaches a port of theirs can run any program, since they take pickles. So without certificates
they listen on this machine alone; and their pages, which have no password, never elsewhere. Without
`--dashboard-address` Dask would open the ports of its pages on all addresses, even with
`--no-dashboard`.
"""

from __future__ import annotations

import argparse
import os
import sys
from typing import NoReturn
from urllib.parse import urlsplit

from .archive import Archive, refuse_clear

PAGES = "127.0.0.1"
PLENTY = 1_000_000  # Of a disk's resource: each session takes one.
# A worker that is no daemon of its nanny's may have processes: those that decode.
SETTINGS = {"SCHEDULER__WORKER_TTL": "30s", "COMM__TIMEOUTS__TCP": "15s", "WORKER__DAEMON": "False"}


def scheduler(archive: Archive, given: argparse.Namespace) -> NoReturn:
    """Becomes the scheduler, which listens where the archive says."""
    address = urlsplit(archive.scheduler)
    _become(archive, "scheduler", "--protocol", address.scheme, "--host", str(address.hostname),
            "--port", str(address.port), "--dashboard-address", f"{PAGES}:{given.pages}")


def worker(archive: Archive, given: argparse.Namespace) -> NoReturn:
    """Becomes a worker that has disks. Its nanny starts it again where it is killed."""
    refuse_clear(archive, given.host)
    resources = " ".join(f"{disk}={PLENTY}" for disk in given.disks)
    _become(archive, "worker", archive.scheduler, "--host", given.host, "--resources", resources,
            "--dashboard-address", f"{PAGES}:0", "--local-directory", given.folder,
            "--nthreads", "1", "--memory-limit", "0")


def _become(archive: Archive, role: str, *words: str) -> NoReturn:
    tls = [("--tls-ca-file", "ca"), ("--tls-cert", "cert"), ("--tls-key", "key")]
    flags = [word for flag, name in tls if archive.tls for word in (flag, archive.tls[name])]
    settings = {**SETTINGS, "COMM__REQUIRE_ENCRYPTION": str(bool(archive.tls))}
    os.execve(sys.executable, [sys.executable, "-m", "dask", role, *words, *flags],
              {**os.environ, **{f"DASK_DISTRIBUTED__{name}": v for name, v in settings.items()}})

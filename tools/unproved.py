#!/usr/bin/env python3
"""Builds a program that nothing has proved, for quick tests.

usage: tools/unproved.py CRATE FILE      at the top of the repository; CRATE: pk_find, pk_player
       or pk_layers

`rt try` builds a program from its sources, with checks of each access and each sum, runs it, and
keeps no file. While it runs, busy with lines that it is given here, its executable is copied to FILE.
That one is some times slower than a proved program, and ends where a check fails. It takes two
minutes or so of one processor. What is tried with it shows nothing of what proofs show.
"""
import os
import pathlib
import shutil
import signal
import struct
import subprocess
import sys
import tempfile
import time

LOOK_EACH = 0.05
UNITS = 64

# What keeps each program busy for a second or more, with less than 1 MiB of output.
BUSY = {
    "pk_player": "!script busy\n!disk 32768\n!create => created\n" + "find a => found 0:\n" * 4_000,
    "pk_layers": f"rising {','.join(map(str, range(2_000)))}\n" * 1_000,
    "pk_find": "find a\n" * 4_000,
}


def store():
    """The bytes of a store without documents, as docs/FORMATS.md has them."""
    body = b"PKSRCH02" + struct.pack("<QIIQI", 1, UNITS, 1, 1, 0)
    return (b"\xa7" + bytes(1023) + body).ljust(UNITS * 512, b"\0")


def executable(folder):
    """The executable that was linked below a folder, once the system's loader runs it."""
    for number in filter(str.isdigit, os.listdir("/proc")):
        try:
            words = pathlib.Path("/proc", number, "cmdline").read_bytes()
        except OSError:  # It has ended meanwhile.
            continue
        words = words.decode(errors="replace").split("\0")
        if pathlib.Path(words[0]).name.startswith("ld-linux"):
            for word in words[1:]:
                if pathlib.Path(word).is_relative_to(folder):
                    return word
    return None


def build(crate, file):
    """Copies the executable of a crate's program to a file; tells why there is none."""
    with tempfile.TemporaryDirectory(prefix="unproved-") as name:
        folder = pathlib.Path(name).resolve()
        (folder / "empty").write_bytes(store())
        (folder / "lines").write_text(BUSY[crate])
        command = ["rt", "try", "--steps", "1"]
        if crate == "pk_find":
            command += ["--data", f"store={folder}/empty", "--", "run", "store"]
        with open(folder / "lines", "rb") as lines, open(folder / "said", "wb") as said:
            child = subprocess.Popen(command, cwd=f"crates/{crate}", stdin=lines, stdout=said,
                                     stderr=said, env={**os.environ, "TMPDIR": name})
            try:
                while child.poll() is None:
                    found = executable(folder)
                    if found:
                        shutil.copyfile(found, file)
                        pathlib.Path(file).chmod(0o755)
                        return None
                    time.sleep(LOOK_EACH)
            finally:
                child.terminate()
                child.wait()
        return (folder / "said").read_text(errors="replace")[-2000:] or "rt try ran no program"


def main():
    if len(sys.argv) != 3 or sys.argv[1] not in BUSY:
        sys.exit(__doc__.partition("usage: ")[2].partition("\n")[0])
    # So that what was started ends, and the folder goes, where this is ended.
    signal.signal(signal.SIGTERM, lambda number, _: sys.exit(128 + number))
    why = build(sys.argv[1], pathlib.Path(sys.argv[2]).resolve())
    if why:
        sys.exit(f"tools/unproved.py: {why}")


if __name__ == "__main__":
    main()

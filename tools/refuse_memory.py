"""What only Rust can ask, and sessions of the built program, with each request for memory refused.

    tools/refuse_memory.py

Tests are run again and again, with the first request for memory refused, then the second, and so on
until a run meets no refusal. The test programs are those that `rt ci` leaves in crates/*/out. Those
whose name has `short_of_memory` are to pass each time: they assert that what was refused is
answered so, and that nothing is lost. Those of worked rows pass, or end as want of memory.

So are a creation, a session, one that only reads and a check of the built program on a real file.
What is refused memory in the midst of a session is asked again; then the file is opened again, and
has all documents.
The last line is `N passed, M failed`, in runs.
"""
import glob
import os
import subprocess
import sys
import tempfile
from concurrent.futures import ThreadPoolExecutor

import preload
import refusals

TOP = os.path.dirname(os.path.dirname(os.path.abspath(__file__)))
MARK = "short_of_memory"

# The tests of the layers' worked rows, which end with want of memory as it comes; and how they tell
# of it: of a disk's record, as a call that failed.
WORKED = {
    "tests_disk": ("space::the_first_run_that_fits_is_taken",),
}
ENDINGS = ("error: AllocError\n", "error: AllocFailed { .. }\n", "error: Memory\n", "error: Disk\n")
PROGRAM = os.path.join(TOP, "crates/pk_find/out/pk_find")

# A session, each line with its reply.
SESSION = (
    ("add red apple", "added 1"),
    ("add red pear", "added 2"),
    ("commit", "committed"),
    ("add green apple", "added 3"),
    ("find apple AND NOT red", "found 1: 3"),
    ("commit", "committed"),
    ("delete 1", "deleted 1"),
    ("add Straße", "added 4"),
    ("commit", "committed"),
    ("find red", "found 1: 2"),
    ("show 4", "text Straße"),
    ("merge", "merged"),
    ("find NOT pear", "found 2: 3 4"),
    ("tidy", "tidied"),
    ("count", "count 3 next 5"),
    ("quit", "bye"),
)

# What the file has then.
LEFT = (
    ("count", "count 3 next 5"),
    ("show 1", "refused no such document"),
    ("show 2", "text red pear"),
    ("show 3", "text green apple"),
    ("show 4", "text Straße"),
    ("find NOT zzz", "found 3: 2 3 4"),
)
CHECKED = "ok 3 documents next 5 segments 1\n"

# How a command ends that is refused memory.
SHORT = (1, "", "pk_find: memory\n")


def tests_of(program):
    """The tests of a program that are run: by their name, and whether they answer want of memory as
    it comes."""
    crate = os.path.basename(program).removesuffix("_tests")
    listed = subprocess.run([program, "--list"], capture_output=True, text=True, check=True).stdout
    names = [line.removesuffix(": test") for line in listed.splitlines() if line.endswith(": test")]
    yield from ((name, False) for name in names if MARK in name)
    for name in WORKED.get(crate, ()):
        if name not in names:
            raise ValueError(f"{crate} has no test {name}")
        yield name, True


def test_run(program, name, is_worked):
    """A run of a test: whether it told of want of memory, and what it said where it failed."""
    def run(environment):
        with tempfile.TemporaryDirectory() as place:
            ran = subprocess.run([program, name], env=environment, cwd=place, capture_output=True,
                                 timeout=60, check=False)
        said = ran.stderr.decode(errors="replace").strip()
        is_short = is_worked and ran.returncode != 0 and said.startswith(ENDINGS)
        is_right = ran.returncode == 0 or is_short
        return is_short, None if is_right else f"it ended with {ran.returncode}: {said[-200:]}"
    return run


def ended(environment, *words, lines=""):
    """The status of the program, what it printed, and what it told as a fault."""
    ran = subprocess.run([PROGRAM, *words], input=lines, env=environment, encoding="utf-8",
                         capture_output=True, timeout=60, check=False)
    return ran.returncode, ran.stdout, ran.stderr


def session(environment, path, command="run", lines=SESSION):
    """Whether a session of these lines told of want of memory, and what is wrong with it. A line
    that is refused memory is asked again."""
    with subprocess.Popen([PROGRAM, command, path], env=environment, bufsize=0,
                          stdin=subprocess.PIPE, stdout=subprocess.PIPE,
                          stderr=subprocess.PIPE) as ran:
        refused = 0
        for line, reply in lines:
            got = asked(ran, line)
            if got == "refused memory":
                refused += 1
                got = asked(ran, line)
            if got is None and line == lines[0][0] and not refused:
                told = ran.stderr.read().decode()
                is_right = (ran.wait(), told) == (SHORT[0], SHORT[2])
                return True, None if is_right else f"it told {told}"
            if got != reply:
                return refused > 0, f"{line}: {got} for {reply}"
        ran.stdin.close()
        is_right = ran.wait() == 0 and refused <= 1
        return refused > 0, None if is_right else f"it ended with {ran.returncode}"


def asked(ran, line):
    """The reply to a line; None where the program has ended."""
    try:
        ran.stdin.write(f"{line}\n".encode())
    except BrokenPipeError:
        return None
    return ran.stdout.readline().decode().rstrip("\n") or None


def is_left(path):
    """Whether a file has all that the session committed."""
    told = ended(None, "run", path, lines="".join(f"{line}\n" for line, _ in LEFT))
    return told == (0, "".join(f"{reply}\n" for _, reply in LEFT), "") \
        and ended(None, "check", path) == (0, CHECKED, "")


def made(place):
    """A file with a new store."""
    path = os.path.join(place, "store")
    ended(None, "create", path, "--units", "256")
    return path


def creation_run(environment):
    """A creation: it is made, or there is no store."""
    with tempfile.TemporaryDirectory() as place:
        path = os.path.join(place, "store")
        told = ended(environment, "create", path, "--units", "256")
        counted = ended(None, "run", path, lines="count\n")
        left = [(1, "", f"pk_find: {why}\n") for why in ("missing", "not a store")]
        is_right = counted in left if told == SHORT else \
            (told, counted) == ((0, "created 256 units\n", ""), (0, "count 0 next 1\n", ""))
        return told == SHORT, None if is_right else f"{told}, then {counted}"


def session_run(environment):
    """A session, behind which the file is opened again. One that had no memory to begin is begun
    again."""
    with tempfile.TemporaryDirectory() as place:
        path = made(place)
        is_short, fault = session(environment, path)
        if not fault and ended(None, "run", path, lines="count\n")[1] == "count 0 next 1\n":
            _, fault = session(None, path)
        return is_short, fault or (None if is_left(path) else "the file has something else")


def reading_run(environment):
    """A session that only reads what the session left."""
    with tempfile.TemporaryDirectory() as place:
        path = made(place)
        _, fault = session(None, path)
        is_short, wrong = session(environment, path, "read", LEFT)
        return is_short, fault or wrong


def check_run(environment):
    """A check of what the session left."""
    with tempfile.TemporaryDirectory() as place:
        path = made(place)
        _, fault = session(None, path)
        told = ended(environment, "check", path)
        is_right = told in (SHORT, (0, CHECKED, ""))
        return told == SHORT, fault or (None if is_right else f"it told {told}")


def runs():
    """All that is run, by its name."""
    for program in sorted(glob.glob(os.path.join(TOP, "crates", "*", "out", "*_tests"))):
        for name, is_worked in tests_of(program):
            yield f"{os.path.basename(program)} {name}", test_run(program, name, is_worked)
    yield "pk_find create", creation_run
    yield "pk_find run", session_run
    yield "pk_find read", reading_run
    yield "pk_find check", check_run


def main():
    """Runs them, side by side."""
    passed = failed = 0
    with tempfile.TemporaryDirectory() as place, \
            ThreadPoolExecutor(len(os.sched_getaffinity(0))) as pool:
        shim = preload.built("refuse_memory", place)
        found = [(name, pool.submit(refusals.each, shim, run)) for name, run in runs()]
        for name, future in found:
            refused, faults = future.result()
            for request, fault in faults[:5]:
                print(f"{name}, request {request} refused: {fault}")
            print(f"{name}: {refused} requests", flush=True)
            passed, failed = passed + refused + 1 - len(faults), failed + len(faults)
    print(f"{passed} passed, {failed} failed")
    return 1 if failed or not passed else 0


if __name__ == "__main__":
    sys.exit(main())

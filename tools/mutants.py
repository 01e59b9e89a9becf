#!/usr/bin/env python3
"""Tries the mutants: wrong bodies that the prover must refuse, and that the merge gate leaves out.

usage: tools/mutants.py [CRATE ..]      at the top of the repository

A mutant is an edit `mutants/CRATE/NAME.edit`, written as those of must-fail/. Each of the named
crates, or of all, is proved first, over what earlier checks left. Then its mutants are tried in a copy
of the tree, as many crates side by side as there are processors and 5 GB of memory for each:

  - those that change the bodies of different functions by one check together (`batches.py`): one is
    refused where that tells of a goal of its own function, and not only of a name that it took away;
  - all of which that says nothing, one by one, by `rt must-fail`.

A mutant that is not refused is told with its crate and why, and the status is 1; so is one that is
refused only since a proof names what it took away, which says nothing of the contract. A crate whose
mutants were all refused gets its line of mutants/SEALS, which `tools/seals.py` compares.
"""
import concurrent.futures
import datetime
import os
import pathlib
import re
import shutil
import subprocess
import sys
import tempfile
import threading
import time

import batches
import seals

MEMORY_EACH = 5e9
RESULT = re.compile(r"rt: must-fail (\w+)/(\S+\.edit): (.*)")
REFUSED = "refused, as it must be"
SAYS_LITTLE = "only because a proof file names"
HEAD = """\
# Crate, number of its mutants, the day on which all of them were refused, and the sum of its
# contracts, of the pages of specs/ that they reach and of the mutants. tools/mutants.py writes a line.
"""
WRITING = threading.Lock()


def workers():
    """How many crates are tried side by side."""
    told = pathlib.Path("/proc/meminfo").read_text("ascii")
    kilobytes = int(re.search(r"^MemAvailable:\s+(\d+)", told, re.M)[1])
    return max(1, min(len(os.sched_getaffinity(0)), int(1024 * kilobytes // MEMORY_EACH)))


def is_proved(crate):
    """Whether the crate is proved as it stands; its libraries are built on the way."""
    ran = subprocess.run(["rt", "check", "--jobs", "1"], cwd=f"crates/{crate}",
                         stdin=subprocess.DEVNULL, capture_output=True, text=True, check=False)
    if ran.returncode:
        print(ran.stdout[-3000:] + ran.stderr[-3000:], file=sys.stderr)
    return ran.returncode == 0


def linked(source, to):
    """A file of the copy. What is built is linked where it can be: a new build writes a new file."""
    try:
        if "/out/" in source:
            os.link(source, to)
            return
    except OSError:
        pass
    shutil.copy2(source, to)


def left_out(folder, names):
    """What the copy has no need of: edits, programs, and the kept work of checks."""
    name = os.path.basename(folder)
    if name == "out":
        return [it for it in names if it != "rlib"]
    return ["must-fail"] if os.path.basename(os.path.dirname(folder)) == "crates" else []


def copy_of(top, room, crate):
    """A copy of the tree without must-fail edits."""
    copy = pathlib.Path(room, crate)
    copy.mkdir()
    for name in ("crates.txt", "HANDLES"):
        shutil.copy2(top / name, copy / name)
    shutil.copytree(top / "crates", copy / "crates", ignore=left_out, copy_function=linked)
    return copy


def told_of(folder, texts):
    """What a check tells of a crate of the copy with these texts in place of its own."""
    own = {path: (folder / path).read_text("utf-8") for path in texts}
    try:
        for path, text in texts.items():
            (folder / path).write_text(text, "utf-8")
        ran = subprocess.run(["rt", "check", "--jobs", "1"], cwd=folder, stdin=subprocess.DEVNULL,
                             stdout=subprocess.PIPE, stderr=subprocess.STDOUT, text=True,
                             errors="replace", check=False)
    finally:
        for path, text in own.items():
            (folder / path).write_text(text, "utf-8")
    return batches.Told(folder.name, ran.stdout)


def try_batch(folder, batch):
    """What a check of all these changes tells of each; nothing, where it comes to no verdict."""
    texts = {}
    if any(seals.applied(change.edit, folder, texts) for change in batch):
        return {}
    told = told_of(folder, texts)
    if not told.is_verdict:
        return {}
    return {change: told.verdict(change, texts[change.path]) for change in batch}


def try_together(folder, changes):
    """Tries the changes in batches: the edits that were refused."""
    refused, queue, waits = [], [changes], {}
    while queue:
        batch, rest = batches.batch_of(queue.pop(), folder.name, waits)
        told = try_batch(folder, batch)
        again = [it for it in batch if it in told and told[it][0] == batches.WAITS and it not in waits]
        waits |= {it: told[it][1] for it in again}
        refused += [it.edit for it in batch if it in told and told[it][0] == batches.REFUSED]
        queue += [part for part in (rest, again) if part]
        queue += batches.halves(batch) if not told and len(batch) > 1 else []
    return refused


def try_alone(copy, crate, edits):
    """Tries edits one by one: what was said of each, by its name."""
    folder = copy / "crates" / crate / "must-fail"
    folder.mkdir()
    for edit in edits:
        shutil.copy2(edit, folder)
    ran = subprocess.run(["rt", "must-fail", crate], cwd=copy, stdin=subprocess.DEVNULL,
                         capture_output=True, text=True, check=False)
    return results(ran.stdout)


def results(said):
    """What `rt must-fail` said of each edit, by its name."""
    return {found[2]: found[3] for found in map(RESULT.match, said.splitlines()) if found}


def survivors(edits, told):
    """The edits that were not refused at a goal, with what was said of each."""
    for edit in edits:
        answer = told.get(edit.name, "it was not tried")
        if not answer.startswith(REFUSED) or SAYS_LITTLE in answer:
            yield edit.name, answer


def write_seal(tree, crate):
    """Puts the crate's line into SEALS."""
    with WRITING:
        lines = {name: " ".join([name, *line]) for name, line in tree.seals().items()}
        day = datetime.date.today().isoformat()
        lines[crate] = f"{crate} {len(tree.mutants(crate))} {day} {tree.sum_of(crate)}"
        new = tree.top / f"{seals.SEALS}.new"
        known = [lines[name] for name in sorted(lines) if name in tree.crates()]
        new.write_text(HEAD + "".join(f"{line}\n" for line in known), "utf-8")
        new.replace(tree.top / seals.SEALS)


def try_mutants(tree, room, crate):
    """Tries the mutants of a crate that is proved: those that were not refused, with what was said."""
    copy, edits = copy_of(tree.top, room, crate), tree.mutants(crate)
    folder = copy / "crates" / crate
    changes = [change for edit in edits if (change := batches.change_of(edit, folder))]
    refused = set(try_together(folder, changes)) if changes else set()
    left = [edit for edit in edits if edit not in refused]
    failed = list(survivors(left, try_alone(copy, crate, left))) if left else []
    shutil.rmtree(copy)
    return failed


def try_crate(tree, room, crate):
    """Tries the mutants of one crate; whether all were refused."""
    start = time.monotonic()
    if not is_proved(crate):
        print(f"{crate}: it is not proved as it stands, so nothing was tried", flush=True)
        return False
    before = tree.sum_of(crate)
    failed = try_mutants(tree, room, crate)
    for name, answer in failed:
        print(f"{crate}: mutants/{crate}/{name} survived: {answer}", flush=True)
    seconds = time.monotonic() - start
    tried = len(tree.mutants(crate))
    print(f"{crate}: {tried - len(failed)} of {tried} mutants refused, {seconds:.0f} s", flush=True)
    if failed:
        return False
    if seals.Tree(tree.top).sum_of(crate) != before:
        print(f"{crate}: it was changed meanwhile, so it gets no seal", flush=True)
        return False
    write_seal(tree, crate)
    return True


def main(names):
    tree, start = seals.Tree(pathlib.Path.cwd()), time.monotonic()
    unknown = set(names) - set(tree.crates())
    if unknown:
        sys.exit(f"no mutants of {', '.join(sorted(unknown))}: there is no such folder in mutants/")
    crates = sorted(names or tree.crates(), key=lambda crate: -len(tree.mutants(crate)))
    with tempfile.TemporaryDirectory(prefix="mutants-") as room:
        with concurrent.futures.ThreadPoolExecutor(workers()) as pool:
            refused = list(pool.map(lambda crate: try_crate(tree, room, crate), crates))
    tried = sum(len(tree.mutants(crate)) for crate in crates)
    minutes = (time.monotonic() - start) / 60
    print(f"{tried} mutants of {len(crates)} crates tried in {minutes:.1f} minutes of the clock, "
          f"{refused.count(False)} crates failed")
    sys.exit(0 if all(refused) else 1)


if __name__ == "__main__":
    main(sys.argv[1:])

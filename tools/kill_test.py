#!/usr/bin/env python3
"""Kills the program in the middle of sessions, and looks at what it left.

    tools/kill_test.py PATH-OF-pk_find

Each of 50 runs makes a store in a new file, plays one fixed script of 200 commands over a pipe and
is killed with SIGKILL at its own point: either after so many replies, with the whole script sent, or
in the middle of a commit, with the script sent up to that commit. The file is then opened again. It
has to hold what it held after the last commit that was answered, or after the one under way, and a
check has to tell the same. One run more, without a kill, shows that the script is answered as it
should be.

Then 200 growths of one store are killed, each with its own pause behind its start. Each leaves the
units that the store had or those that were asked for, a growth that was told the latter, and all
that is committed; what is committed behind it stays, too.

It prints one line, and ends with 1 where a run failed; why is told on standard error.
"""

import os
import signal
import subprocess
import sys
import tempfile
import time

KILLS = 50
COMMANDS = 200
UNITS = 1024
GROWTHS, PAUSES, MORE = 200, 40, 64  # Of the store that grows; units that each growth adds.


def play(commands):
    """What the commands are answered, and the collection on the disk after each: its documents'
    words by number, and the next number."""
    words, next_number, kept = {}, 1, ({}, 1)
    replies, marks = [], []
    for command in commands:
        name, _, rest = command.partition(" ")
        if name == "add":
            words[next_number] = rest.split()[0]
            reply, next_number = f"added {next_number}", next_number + 1
        elif name == "delete":
            del words[int(rest)]
            reply = f"deleted {rest}"
        elif name == "find":
            reply = found(words, rest)
        elif name == "count":
            reply = f"count {len(words)} next {next_number}"
        else:
            kept = (dict(words), next_number)
            reply = "committed"
        replies.append(reply)
        marks.append(kept)
    return replies, marks


def found(words, word):
    """The reply to the search for one word."""
    numbers = [n for n in sorted(words) if words[n] == word]
    return "".join([f"found {len(numbers)}:"] + [f" {n}" for n in numbers])


def script():
    """The commands: adds, each with a word of its own, deletions of what is not committed, searches
    and counts, and a commit every few lines."""
    commands, added = [], 0
    while len(commands) < COMMANDS:
        turn = len(commands) // 8
        commands.append(f"add w{added + 1} red apple {turn}")
        commands.append(f"add w{added + 2} green pear")
        commands.append(f"find w{added + 1}")
        commands.append(f"delete {added + 2}" if turn % 2 else f"find w{max(added - 3, 1)}")
        commands.append("commit" if turn % 3 else "count")
        commands.append(f"add w{added + 3}" + " long" * (40 * turn))
        commands.append(f"find w{added + 2}")
        commands.append("commit")
        added += 3
    return commands


def check(mark, numbers):
    """The commands that look at a store, and their replies where it holds this collection."""
    words, next_number = mark
    commands = ["count"] + [f"find w{n}" for n in numbers]
    replies = [f"count {len(words)} next {next_number}"] + [found(words, f"w{n}") for n in numbers]
    return commands, replies


def session(program, path, commands):
    """The replies to a whole session."""
    lines = "".join(f"{command}\n" for command in commands)
    ran = subprocess.run([program, "run", path], input=lines, capture_output=True, text=True,
                         timeout=30, check=False)
    return ran.stdout.splitlines()


def is_sound(program, path, mark):
    """Whether a check of the store tells that it holds so many documents, and this next number."""
    ran = subprocess.run([program, "check", path], capture_output=True, text=True, timeout=30,
                         check=False)
    wanted = f"ok {len(mark[0])} documents next {mark[1]} segments "
    return ran.returncode == 0 and ran.stdout.startswith(wanted)


def killed_session(program, path, commands, after, pause):
    """The replies that got out of a session that is killed once so many of them were read."""
    ran = subprocess.Popen([program, "run", path], stdin=subprocess.PIPE, stdout=subprocess.PIPE)
    ran.stdin.write("".join(f"{command}\n" for command in commands).encode())
    ran.stdin.flush()
    out, more = b"", b"-"
    while more and out.count(b"\n") < after:
        more = os.read(ran.stdout.fileno(), 4096)
        out += more
    time.sleep(pause)
    ran.send_signal(signal.SIGKILL)
    out += ran.stdout.read()
    ran.stdin.close()
    ran.wait()
    return out[:out.rfind(b"\n") + 1].decode().splitlines()


def points(commands):
    """Where each run is killed: the commands that are sent, how many replies are read first, and a
    pause after them. Every other run is killed at a commit, before its reply is read."""
    commits = [i for i, command in enumerate(commands) if command == "commit"]
    for kill in range(KILLS):
        if kill % 2:
            at = commits[kill * len(commits) // KILLS]
            yield commands[:at + 1], at, (kill // 2 % 5) * 0.0002
        else:
            yield commands, kill * (COMMANDS - 8) // KILLS + 1, 0


def fault_of(program, path, commands, point, wanted):
    """What is wrong with one run that is killed, if anything."""
    replies, marks = wanted
    subprocess.run([program, "create", path, "--units", str(UNITS)], capture_output=True, check=True)
    got = killed_session(program, path, *point)
    if got != replies[:len(got)] or len(got) < point[1]:
        return f"wrong replies before the kill: {got[-3:]}"
    allowed = [marks[len(got) - 1] if got else ({}, 1)]
    if len(got) < len(point[0]) and commands[len(got)] == "commit":
        allowed.append(marks[len(got)])
    numbers = range(1, max(mark[1] for mark in marks) + 3)
    left = session(program, path, check(allowed[0], numbers)[0])
    held = [mark for mark in allowed if left == check(mark, numbers)[1]]
    if not held:
        return f"after {len(got)} replies the file holds something else: {left[:3]}"
    if not is_sound(program, path, held[0]):
        return f"after {len(got)} replies a check does not tell what the file holds"
    return None


def growth(program, path, units):
    """What a growth to so many units tells."""
    ran = subprocess.run([program, "grow", path, "--units", str(units)], capture_output=True,
                         text=True, timeout=30, check=False)
    return ran.stdout


def killed_growth(program, path, units, pause):
    """What got out of a growth that is killed after a pause."""
    with subprocess.Popen([program, "grow", path, "--units", str(units)],
                          stdout=subprocess.PIPE) as ran:
        time.sleep(pause)
        ran.send_signal(signal.SIGKILL)
        return ran.stdout.read().decode()


def length_of_growth(program, path):
    """The seconds that a growth takes: the median of five, each by a unit."""
    seconds = []
    for units in range(UNITS + 1, UNITS + 6):
        start = time.monotonic()
        growth(program, path, units)
        seconds.append(time.monotonic() - start)
    return sorted(seconds)[2]


def fault_of_growth(program, path, units, pause, mark):
    """Whether a killed growth from so many units was done, and what is wrong with it, if anything."""
    printed = killed_growth(program, path, units + MORE, pause)
    is_done = growth(program, path, units) != f"has {units} units\n"
    if is_done and growth(program, path, units + MORE) != f"has {units + MORE} units\n":
        return is_done, "the store has other units"
    if printed == f"grown to {units + MORE} units\n" and not is_done:
        return is_done, "a growth that was told is lost"
    commands, replies = check(mark, range(1, mark[1] + 1))
    if session(program, path, commands) != replies or not is_sound(program, path, mark):
        return is_done, "the store holds something else"
    return is_done, None


def failed_growths(program, path):
    """How many of the killed growths failed."""
    words, units, failed = {}, UNITS + 5, 0
    subprocess.run([program, "create", path, "--units", str(UNITS)], capture_output=True, check=True)
    seconds = length_of_growth(program, path)
    for kill in range(GROWTHS):
        if kill % 10 == 0:
            number = kill // 10 + 1
            words[number] = f"w{number}"
            session(program, path, [f"add w{number} red", "commit"])
        pause = 1.25 * seconds * (kill % PAUSES) / PAUSES
        is_done, fault = fault_of_growth(program, path, units, pause, (words, len(words) + 1))
        units += MORE * is_done
        if fault:
            failed += 1
            print(f"growth {kill}: {fault}", file=sys.stderr)
    return failed


def main():
    """Runs them all."""
    program, commands, failed = os.path.abspath(sys.argv[1]), script(), 0
    wanted = play(commands)
    with tempfile.TemporaryDirectory() as folder:
        whole = os.path.join(folder, "whole")
        subprocess.run([program, "create", whole, "--units", str(UNITS)], capture_output=True,
                       check=True)
        if session(program, whole, commands) != wanted[0]:
            sys.exit("kill test: the script is not answered as it should be")
        for kill, point in enumerate(points(commands)):
            fault = fault_of(program, os.path.join(folder, f"s{kill}"), commands, point, wanted)
            if fault:
                failed += 1
                print(f"kill {kill}: {fault}", file=sys.stderr)
        failed += failed_growths(program, os.path.join(folder, "grown"))
    print(f"kill test: {KILLS} sessions and {GROWTHS} growths killed, {failed} failed")
    sys.exit(1 if failed else 0)


if __name__ == "__main__":
    main()

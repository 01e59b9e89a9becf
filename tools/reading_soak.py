#!/usr/bin/env python3
"""Reads beside a writer that is killed, for a while, and judges each answer.

    tools/reading_soak.py PATH-OF-pk_find [SECONDS [SEED]]      3600 seconds where none are given

A writer commits as fast as it can, tidies and merges, and is killed with SIGKILL at moments drawn by
the seed and begun anew. Each commit adds some documents and deletes others, so that an answer tells
of which commit it is; what it is to be is computed from the script of the writer, which stands here.
Four processes read meanwhile, each ended and begun anew now and then, and are asked all the time.

Each answer has to be that of one commit, begun before the answer came, and none older than what was
acknowledged, or answered to a reader, before it was asked. What a commit that was killed would have
written is allowed until the next session tells that it isn't there, and no reader may have seen it
then. `refused disk` alone is no answer; one question in a hundred may get it.

It prints one line at the end, and ends with 1 where an answer was wrong; why is told on standard
error. TMPDIR tells where the store is: in memory there are more commits in a second.
"""

import contextlib
import os
import random
import signal
import subprocess
import sys
import tempfile
import threading
import time

READERS = 4
UNITS = 65_536
BASE = 300  # Documents that are never deleted.
KINDS = 7  # Of these, each with its own word.
LIVE = 60  # About as many documents live beside them.
TIDY, MERGE = 40, 250  # After so many commits.
KILL = 60  # Of so many commits and merges one is killed.
PAUSE = 0.004  # The seconds behind which it is, at most.
QUESTIONS = 300  # After so many a reader is begun anew.
MOST_REFUSED = 0.01  # Of all questions.
PATIENCE = 120  # Seconds for one answer, at most.


def text_of(commit, number):
    """The document that a commit adds under a number."""
    words = " ".join(f"w{(commit * 31 + place * 17) % 997}" for place in range(8))
    return f"x c{commit} {number} {words}"


def base_text(number):
    """The document of the base under a number: it has no word of a commit."""
    return f"b{number % KINDS} " + text_of(0, number).partition(" c0 ")[2]


class State:
    """What is committed: for each live number beside the base the commit that added it."""

    def __init__(self, added, following):
        self.added, self.following = added, following

    def next(self, commit, draw):
        """The numbers that a commit adds and deletes, and the state behind it. Two commits on one
        state add different numbers."""
        adds = list(range(self.following, self.following + 1 + commit % 3))
        live = sorted(self.added)
        deletes = draw.sample(live, len(adds)) if len(live) > LIVE else []
        added = {number: by for number, by in self.added.items() if number not in deletes}
        added.update((number, commit) for number in adds)
        return adds, deletes, State(added, adds[-1] + 1)

    def answer(self, question):
        """The reply to a question."""
        name, _, rest = question.partition(" ")
        if name == "count":
            return f"count {BASE + len(self.added)} next {self.following}"
        if name == "show":
            number = int(rest)
            if number <= BASE:
                return f"text {base_text(number)}"
            if number not in self.added:
                return "refused no such document"
            return f"text {text_of(self.added[number], number)}"
        if rest[0] == "b":
            numbers = [number for number in range(1, BASE + 1) if number % KINDS == int(rest[1:])]
        else:
            numbers = [number for number in sorted(self.added)
                       if rest == "x" or rest == f"c{self.added[number]}"]
        return "".join([f"found {len(numbers)}:"] + [f" {number}" for number in numbers])


class History:
    """The commits that were begun, by number, and what is known of them."""

    def __init__(self):
        self.lock = threading.Lock()
        self.states = {0: State({}, BASE + 1)}
        self.begun = self.sure = 0  # The last that was begun; the last that is known to be in force.
        self.floors = {}  # The oldest commit that each reader may be told of.
        self.seconds, self.ends = 0.0, None
        self.faults = []
        self.answers = self.refused = self.commits = self.kills = self.busy = 0
        self.longest = 0.0

    def is_over(self):
        """Whether no more is to be asked."""
        return bool(self.faults) or time.monotonic() > self.ends

    def fault(self, what):
        """Notes what is wrong."""
        with self.lock:
            self.faults.append(what)

    def begin(self, state):
        """Notes a commit before it is asked for; its number was taken by the writer."""
        with self.lock:
            self.begun += 1
            self.states[self.begun] = state
            oldest = min(self.floors.values(), default=self.sure)
            for commit in [commit for commit in self.states if commit < min(oldest, self.sure)]:
                del self.states[commit]

    def is_known(self, commit):
        """Notes that a commit is in force."""
        with self.lock:
            self.sure = max(self.sure, commit)

    def is_lost(self, commit):
        """Notes that a killed commit isn't there, and tells whether a reader has seen it."""
        with self.lock:
            del self.states[commit]
            return self.sure == commit

    def floor(self, reader):
        """The oldest commit that a reader may be told of from now on."""
        with self.lock:
            self.floors[reader] = self.sure
            return self.sure

    def judge(self, floor, question, reply):
        """Whether a reply is that of a commit from this one on. Where it is of one alone, no later
        reply may be of an older one."""
        with self.lock:
            fits = [commit for commit, state in self.states.items()
                    if floor <= commit <= self.begun and state.answer(question) == reply]
            if len(fits) == 1:
                self.sure = max(self.sure, fits[0])
            return bool(fits)


class Lines:
    """A process that answers lines."""

    def __init__(self, program, *words):
        self.process = subprocess.Popen([program, *words], stdin=subprocess.PIPE,
                                        stdout=subprocess.PIPE, stderr=subprocess.PIPE, text=True)

    def send(self, lines):
        """Sends lines. That it has ended is told by its reply."""
        with contextlib.suppress(BrokenPipeError):
            self.process.stdin.write("".join(f"{line}\n" for line in lines))
            self.process.stdin.flush()

    def reply(self):
        """The next reply, or nothing of one that was cut short."""
        line = self.process.stdout.readline()
        return line[:-1] if line.endswith("\n") else None

    def end(self):
        """Ends it; its status, and what it told."""
        _, told = self.process.communicate()
        return self.process.returncode, told


class Writer:
    """The sessions that commit, one after the other."""

    def __init__(self, program, path, history, draw):
        self.program, self.path, self.history, self.draw = program, path, history, draw
        self.state, self.commit, self.session = history.states[0], 0, None

    def run(self):
        """Commits until the time is over."""
        try:
            while not self.history.is_over():
                self.session = self.session or self.begin()
                self.turn()
            if self.session:
                self.session.end()
        except Exception as why:  # pylint: disable=broad-except
            self.history.fault(f"the writer: {why!r}")

    def begin(self):
        """A new session. While a reader keeps writers away there is none."""
        while True:
            session = Lines(self.program, "run", self.path)
            session.send(["count"])
            reply = session.reply()
            if reply is not None:
                self.look(reply)
                return session
            told = session.end()
            if told != (1, "pk_find: in use\n"):
                raise AssertionError(f"a session ended with {told}")
            self.history.busy += 1

    def look(self, reply):
        """Takes up what a new session has: the state, or the one of the commit that was killed."""
        last = self.history.begun
        if self.commit < last and reply == self.history.states[last].answer("count"):
            self.commit, self.state = last, self.history.states[last]
        elif reply != self.state.answer("count"):
            raise AssertionError(f"behind commit {self.commit} a session has {reply}")
        elif self.commit < last and self.history.is_lost(last):
            raise AssertionError(f"a reader has seen commit {last}, which is lost")
        self.history.is_known(self.commit)

    def turn(self):
        """A commit, or a merge or a tidy behind it."""
        number = self.history.begun + 1
        adds, deletes, state = self.state.next(number, self.draw)
        lines = [f"add {text_of(number, add)}" for add in adds]
        lines += [f"delete {delete}" for delete in deletes]
        replies = [f"added {add}" for add in adds] + [f"deleted {delete}" for delete in deletes]
        self.history.begin(state)
        if self.ask(lines + ["commit"], replies + ["committed"]):
            self.commit, self.state = number, state
            self.history.is_known(number)
            self.history.commits += 1
            if not self.session:  # It was killed behind its last reply.
                return
            if number % MERGE == 0:
                self.ask(["merge"], ["merged"])
            elif number % TIDY == 0:
                self.ask(["tidy"], ["tidied"])

    def ask(self, lines, replies):
        """Sends lines, and tells whether they were answered; now and then the session is killed."""
        self.session.send(lines)
        if self.draw.randrange(KILL) == 0:
            time.sleep(self.draw.random() * PAUSE)
            self.session.process.send_signal(signal.SIGKILL)
            self.history.kills += 1
            got = []
            while (reply := self.session.reply()) is not None:
                got.append(reply)
            self.session.end()
            self.session = None
        else:
            got = [self.session.reply() for _ in replies]
        if got != replies[:len(got)] or self.session and None in got:
            raise AssertionError(f"{got} in place of {replies}")
        return len(got) == len(replies)


class Reader:
    """The processes that read, one after the other, of one place among the readers."""

    def __init__(self, program, path, history, place):
        self.program, self.path, self.history, self.place = program, path, history, place
        self.draw = random.Random(place)

    def run(self):
        """Asks until the time is over."""
        try:
            while not self.history.is_over():
                self.session()
        except Exception as why:  # pylint: disable=broad-except
            self.history.fault(f"reader {self.place}: {why!r}")

    def session(self):
        """One process that reads."""
        session = Lines(self.program, "read", self.path)
        for _ in range(self.draw.randrange(1, QUESTIONS)):
            if self.history.is_over():
                break
            self.ask(session)
        told = session.end()
        if told != (0, ""):
            raise AssertionError(f"it ended with {told}")

    def question(self):
        """What is asked."""
        kind, begun = self.draw.randrange(8), self.history.begun
        if kind == 0:
            return "count"
        if kind == 1:
            return f"find b{self.draw.randrange(KINDS)}"
        if kind == 2:
            return f"find c{begun + 1 - self.draw.randrange(LIVE)}"
        if kind == 3:
            return f"show {BASE + 2 * max(begun, 1) - self.draw.randrange(LIVE)}"
        return "find x"

    def ask(self, session):
        """One question, and what its reply is worth."""
        question = self.question()
        floor = self.history.floor(self.place)
        begun = time.monotonic()
        session.send([question])
        reply = session.reply()
        self.history.longest = max(self.history.longest, time.monotonic() - begun)
        if time.monotonic() - begun > PATIENCE:
            self.history.fault(f"reader {self.place}: {question} took too long")
        if reply == "refused disk":
            self.history.refused += 1
        elif reply is None:
            raise AssertionError(f"no reply to {question}: {session.end()}")
        elif not self.history.judge(floor, question, reply):
            self.history.fault(f"reader {self.place}, from commit {floor} on, {question}: {reply}")
        else:
            self.history.answers += 1


def load(program, path):
    """Makes the store, with its base."""
    subprocess.run([program, "create", path, "--units", str(UNITS)], capture_output=True, check=True)
    lines = "".join(f"add {base_text(number)}\n" for number in range(1, BASE + 1))
    told = subprocess.run([program, "run", path], input=lines + "commit\n", capture_output=True,
                          text=True, check=True).stdout
    if not told.endswith(f"added {BASE}\ncommitted\n"):
        sys.exit("reading soak: the base was not loaded")


def soak(program, path, seconds, seed):
    """The history of a store that is written and read for some seconds."""
    load(program, path)
    history = History()
    history.ends = time.monotonic() + seconds
    workers = [Writer(program, path, history, random.Random(seed))]
    workers += [Reader(program, path, history, place) for place in range(READERS)]
    threads = [threading.Thread(target=worker.run) for worker in workers]
    for thread in threads:
        thread.start()
    for thread in threads:
        thread.join()
    checked = subprocess.run([program, "check", path], capture_output=True, text=True, check=False)
    live = BASE + len(workers[0].state.added)
    if not history.faults and not checked.stdout.startswith(f"ok {live} documents next "):
        history.fault(f"the check tells {checked.stdout}{checked.stderr}")
    if history.refused > MOST_REFUSED * (history.refused + history.answers):
        history.fault(f"{history.refused} refused beside {history.answers} answers")
    return history


def main():
    program = os.path.abspath(sys.argv[1])
    seconds, seed = (int(word) for word in (sys.argv[2:] + ["3600", "1"][len(sys.argv) - 2:]))
    with tempfile.TemporaryDirectory() as folder:
        history = soak(program, os.path.join(folder, "s"), seconds, seed)
    for fault in history.faults:
        print(fault, file=sys.stderr)
    print(f"reading soak: {seconds} s, {history.commits} commits, {history.kills} kills, "
          f"{history.answers} answers of {READERS} readers, the longest after "
          f"{history.longest:.1f} s, {history.refused} refused as disk, {history.busy} sessions "
          f"kept away, {len(history.faults)} failed")
    sys.exit(1 if history.faults or not history.answers else 0)


if __name__ == "__main__":
    main()

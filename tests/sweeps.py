"""Sweeps: a session in which each call of the device fails in its turn, and what a crash leaves.

The calls are those from the opening behind `!fail each` to the closing. Each fails alone, and with
all later ones, in each setting. What is wanted then follows from the session, as it is written
without a failing call, and from four rules:

- The line whose call fails is answered `disk` or `refused disk`, and those before it as written.
- Where a read failed nothing has changed. Where it failed alone, the same line asked again is
  answered, and all that follows.
- Behind a write or a sync that failed each line is refused as `reopen` until the store is opened
  again; what asks it nothing keeps its own reply.
- A crash leaves what was committed. Where one of the last two calls of a commit failed, which open
  a gate and sync it, the gate is open or not, as the crash leaves its byte: then the new commit is
  there, or the old one. So it is with the last two calls of a creation.

What there is then is told by `model.Store`, and asked by every word, number and count, and a check.
"""

from __future__ import annotations

from . import model, scripts

# What is left at open positions, and whether a gate that was being opened is open then.
CRASHES = (("!crash A7", True), ("!crash 00", False), ("!crash FF", False), ("!crash", True))

FAULTS = ("disk", "refused disk")

# Where all later calls fail, too, the store is opened behind a crash while calls fail from the
# first on, from the second on, and so on, each time with a crash: in this setting, and so often.
OPENED_IN = scripts.BLOCKS[0]
OPENINGS = 40


class Sweep:
    """A sweep's lines: those before the opening, and the session, with what each is answered."""

    def __init__(self, row: scripts.Row) -> None:
        texts = row.texts
        at = texts.index("!fail each")
        self.before = [text for text in texts[:at] if not text.startswith("holds ")]
        pairs = [text.partition(" => ") for text in texts[at + 1:]]
        self.session = [(asked, scripts.spelled(wanted)) for asked, _, wanted in pairs]
        self.calls = dict(self.session).get("!calls")
        self.session = [pair for pair in self.session if pair[0] != "!calls"]
        if self.session[-1][0] != "!close":
            raise ValueError(f"{row.title}: the session ends with `!close`")
        self.start = model.Store()
        for text in texts[:at]:
            if text.startswith("holds "):
                self.start.hold(text)
            elif not text.startswith("!") or text == "!open => opened":
                self.start.answer(text.split(" => ")[0])
        self.start = self.start.marked()
        self.is_new = self.session[0][0] == "!create"

    @property
    def lines(self) -> list[str]:
        """What is asked in the session."""
        return [asked for asked, _ in self.session]

    def questions(self) -> list[str]:
        """What is asked of what is left: each count, word and number."""
        end = self.start.copy()
        added = [scripts.spelled(text.partition(" ")[2]) for text in self.lines
                 if text.startswith("add ")]
        texts = [*self.start.texts.values(), *added]
        words = {word for text in texts for word in model.words_of(text)}
        for asked, _ in self.session:
            end.answer(asked)
        numbers = range(0, end.next + 1)
        finds = [f"find {word}" for word in sorted(words)] + ["find NOT zzz"]
        return ["count", *finds, *(f"show {number}" for number in numbers)]


class Fault(Exception):
    """What was answered otherwise, with the lines up to it."""


def told(sweep: Sweep, setting: str, plan: str, script: list[str], got: list[str], place: int,
         wanted: str) -> str:
    """A difference, for whoever reads it."""
    shown = script[len(sweep.before) + len(setting.splitlines()):place]
    answers = got[len(sweep.before) + len(setting.splitlines()):place]
    lines = "".join(f"    {short(text)} => {short(answer)}\n"
                    for text, answer in zip(shown, answers))
    return (f"in the setting {setting.replace(chr(10), ', ')}, with {plan}, behind\n{lines}"
            f"  {short(script[place])}\n  wanted: {short(wanted)}\n  got:    {short(got[place])}\n")


def short(text: str) -> str:
    """A text as it is told: of a long one its beginning."""
    return text if len(text) <= 200 else f"{text[:80]} .. of {len(text)} characters"


class Run:
    """The sweep in one setting."""

    def __init__(self, sweep: Sweep, setting: str) -> None:
        self.sweep, self.setting = sweep, setting
        self.head = [*setting.splitlines(), *(text.split(" => ")[0] for text in sweep.before)]
        self.asked: list[tuple[list[str], list[str | None], str]] = []

    def want(self, plan: str, script: list[str], wanted: list[str | None]) -> None:
        """Notes a script and what its lines are to be answered; None for anything."""
        self.asked.append((self.head + script, [None] * len(self.head) + wanted, plan))

    def check(self) -> None:
        """Plays the scripts that were noted."""
        played = scripts.answers([script for script, _, _ in self.asked])
        for (script, wanted, plan), got in zip(self.asked, played):
            for place, (one, other) in enumerate(zip(wanted, got)):
                one = one.wanted(other) if isinstance(one, Later) else one
                if one is not None and not is_as(one, other):
                    raise Fault(told(self.sweep, self.setting, plan, script, got, place, one))
        self.asked = []

    def calls(self) -> str:
        """The calls of the session, none of which fails: each line is answered as it is written."""
        script = self.head + [*self.sweep.lines, "!calls"]
        wanted = [*(scripts.spelled(text.partition(" => ")[2]) for text in self.sweep.before),
                  *(wanted for _, wanted in self.sweep.session)]
        got = scripts.answers([script])[0]
        at = len(self.setting.splitlines())
        for place, (one, other) in enumerate(zip(wanted, got[at:]), at):
            if one != other:
                plan = "no failing call"
                raise Fault(told(self.sweep, self.setting, plan, script, got, place, one))
        if self.sweep.calls is not None and self.setting in scripts.BLOCKS \
                and got[-1] != self.sweep.calls:
            raise Fault(f"in the setting {self.setting}\n  !calls\n  wanted: {self.sweep.calls}\n"
                        f"  got:    {got[-1]}\n")
        return got[-1]

    def meeting(self, count: int) -> list[int]:
        """The line that each call belongs to: the first that is refused where it fails and all
        later ones do."""
        played = scripts.answers([self.head + [f"!stop {k}"] + self.sweep.lines
                                  for k in range(1, count + 1)])
        met = []
        for k, got in enumerate(played, 1):
            answered = got[len(self.head) + 1:]
            place = next((n for n, answer in enumerate(answered) if answer in FAULTS), None)
            if place is None:
                raise Fault(f"in the setting {self.setting}, no line tells that call {k} fails\n")
            met.append(place)
        return met

    def unread(self, calls: str, met: list[int]) -> list[str]:
        """The checks, and the first merge, of which no read fails."""
        read = {place for place, call in zip(met, calls) if call == "r"}
        lines = self.sweep.lines
        first = lines.index("merge") if "merge" in lines else None
        return [asked for place, asked in enumerate(lines)
                if (asked == "!check" or place == first) and place not in read]


def is_as(wanted: str, got: str) -> bool:
    """Whether an answer is the wanted one; `..` at its end stands for anything."""
    return got.startswith(wanted[:-2]) if wanted.endswith("..") else got == wanted


def is_of_store(asked: str, wanted: str) -> bool:
    """Whether a line asks the store something."""
    return wanted != "bye" and not wanted.startswith(("refused query", "refused unknown"))


def refused(asked: str, wanted: str) -> str:
    """What a line is answered while the store is to be opened again."""
    if asked == "!close" or not is_of_store(asked, wanted):
        return wanted
    return "reopen" if asked == "!check" else "refused reopen"


def fault_of(asked: str) -> str:
    """What a line is answered whose call fails."""
    return "disk" if asked.startswith("!") else "refused disk"


def answer_of(store: model.Store, asked: str, wanted: str) -> str:
    """What a line is answered by a store of these documents."""
    if asked == "!check":
        return store.check() + ".."
    if not is_of_store(asked, wanted):
        return wanted
    return store.answer(asked)


def left(store: model.Store | None, questions: list[str]) -> tuple[list[str], list[str]]:
    """What is asked of what is left, and what is answered; where there is no store, None."""
    if store is None:
        return ["!open"], ["not a store"]
    other = store.copy()
    return (["!open", *questions, "!check"],
            ["opened", *(other.answer(text) for text in questions), other.check() + ".."])


class Later:
    """A line behind a read that failed, where all later calls fail, too: it is answered if it makes
    no call. An addition and a count make none; a commit of something has to make one."""

    def __init__(self, store: model.Store, asked: str, written: str) -> None:
        self.store, self.asked, self.written = store, asked, written

    def wanted(self, got: str) -> str | None:
        """What is wanted of a line that was answered so; None where it may be answered so."""
        fault = fault_of(self.asked)
        needs_call = self.asked == "commit" and self.store.is_changed()
        if needs_call or (got == fault and not self.asked.startswith(("add ", "count"))):
            return fault
        return answer_of(self.store, self.asked, self.written)


class Case:
    """A failing call, with the line that it belongs to and what the store has committed."""

    def __init__(self, run: Run, calls: str, met: list[int], k: int) -> None:
        sweep, self.run, self.k = run.sweep, run, k
        self.place, self.is_read = met[k - 1], calls[k - 1] == "r"
        self.asked = sweep.session[self.place][0]
        self.store = sweep.start.copy()
        self.answers = [answer_of(self.store, *pair) for pair in sweep.session[:self.place]]
        old = self.store.marked()
        new = self.store.copy()
        new.mark()
        later = met[k:]
        is_gate = self.place not in later[1:2] and self.asked in ("commit", "!create")
        self.old = None if self.asked == "!create" else old
        self.new = new if is_gate and not self.is_read else self.old
        self.rest = sweep.session[self.place + 1:]

    def left(self, opens: bool) -> model.Store | None:
        """What a crash leaves, by whether it leaves an opened gate."""
        return self.new if opens else self.old

    def want(self, plan: str, lines: list[str], wanted: list[str], kept, questions) -> None:
        """Notes a session, with each crash behind it."""
        for crash, opens in CRASHES:
            kept_now = kept(opens)
            asked, answers = left(kept_now, questions)
            self.run.want(plan, [plan, *lines, crash, *asked],
                          ["", *wanted, "", *answers])

    def want_openings(self, plan, lines, wanted, asked, answers) -> None:
        """Notes the same with crashes in the midst of openings."""
        again, told_again = [], []
        for call in range(1, OPENINGS):
            again += [f"!stop {call}", "!open", "!close", "!crash A7"]
            told_again += ["", None, None, ""]
        self.run.want(plan, [plan, *lines, "!crash A7", *again, *asked],
                      ["", *wanted, "", *told_again, *answers])

    def stopped(self, questions: list[str]) -> None:
        """This call fails, and all later ones."""
        lines, wanted = [*self.run.sweep.lines], [*self.answers, fault_of(self.asked)]
        if self.asked in ("!open", "!create"):
            lines = lines[:self.place + 1]
        elif not self.is_read:
            wanted += [refused(*pair) for pair in self.rest]
        plan = f"!stop {self.k}"
        for crash, opens in CRASHES:
            store = self.store.copy()
            later = [Later(store, *pair) for pair in self.rest] \
                if self.is_read and self.asked not in ("!open", "!create") else []
            asked, answers = left(self.left(opens), questions)
            self.run.want(plan, [plan, *lines, crash, *asked], ["", *wanted, *later, "", *answers])
        if self.run.setting == OPENED_IN and self.new is not None:
            wanted += [None] * (len(lines) - len(wanted))
            self.want_openings(plan, lines, wanted, *left(self.new, questions))

    def failed(self, questions: list[str]) -> None:
        """This call fails, it alone."""
        plan = f"!fail {self.k}"
        lines, wanted = [*self.run.sweep.lines], [*self.answers, fault_of(self.asked)]
        if self.is_read or self.asked in ("!open", "!create"):
            self.again(plan, questions)
        if self.is_read and self.asked not in ("!open", "!create"):
            self.passed_over(plan, lines, wanted, questions)
        if self.asked in ("!open", "!create"):
            self.want(plan, lines[:self.place + 1], wanted, self.left, questions)
        elif not self.is_read:
            self.want(plan, lines, wanted + [refused(*pair) for pair in self.rest], self.left,
                      questions)
            self.opened(plan, questions)

    def again(self, plan: str, questions: list[str]) -> None:
        """The line is asked again, at once and behind questions."""
        if self.asked == "!create" and self.new is not None:
            return
        sweep = self.run.sweep
        for between in (["count"], [text for text in questions]):
            store, wanted = self.store.copy(), [*self.answers, fault_of(self.asked)]
            lines = sweep.lines[:self.place + 1]
            if self.asked not in ("!open", "!create"):
                lines += between
                wanted += [store.answer(text) for text in between]
            for pair in sweep.session[self.place:]:
                lines.append(pair[0])
                wanted.append("created" if pair[0] == "!create" else answer_of(store, *pair))
            self.want(plan, lines, wanted, lambda opens, store=store: store.marked(), questions)

    def passed_over(self, plan, lines, wanted, questions) -> None:
        """The line is not asked again, and the rest is answered as without it."""
        store = self.store.copy()
        wanted = wanted + [answer_of(store, *pair) for pair in self.rest]
        self.want(plan, lines, wanted, lambda opens: store.marked(), questions)

    def opened(self, plan: str, questions: list[str]) -> None:
        """The store is opened again without a crash, and the rest is asked, from this line on."""
        sweep, store = self.run.sweep, self.left(True).copy()
        lines = [*sweep.lines[:self.place + 1], "!close", "!open", *questions]
        wanted = [*self.answers, fault_of(self.asked), "", "opened",
                  *(store.answer(text) for text in questions)]
        for pair in sweep.session[self.place:]:
            lines.append(pair[0])
            wanted.append(answer_of(store, *pair))
        asked, answers = left(store.marked(), questions)
        self.run.want(plan, [plan, *lines, "!crash A7", *asked], ["", *wanted, "", *answers])


def tried(count: int) -> list[int]:
    """Which of so many calls fail: each, or a few of them where the player is slow."""
    if not scripts.IS_QUICK:
        return [*range(1, count + 1)]
    return sorted({1 + (count - 1) * part // 3 for part in range(4)}) if count else []


def sweep_in(row: scripts.Row, setting: str) -> None:
    """Plays a sweep in one setting."""
    sweep = Sweep(row)
    run = Run(sweep, setting)
    calls = run.calls()
    met = run.meeting(len(calls))
    if setting in scripts.BLOCKS and (unread := run.unread(calls, met)):
        raise Fault(f"in the setting {setting} no read of these fails: {unread}\n")
    questions = sweep.questions()
    for k in tried(len(calls)):
        case = Case(run, calls, met, k)
        case.stopped(questions)
        case.failed(questions)
    run.check()

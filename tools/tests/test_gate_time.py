"""What a table of the gate's costs comes to on the machine of an earlier one."""
import pathlib
import signal
import subprocess
import sys
import tempfile
import time
import unittest

TOOLS = pathlib.Path(__file__).resolve().parent.parent
sys.path.insert(0, str(TOOLS))

import gate_time  # noqa: E402

EARLIER = """\
What `rt ci` took on 1 May 2026, by tools/gate_time.py: a processor, load 4, 4, 4

| crate | proof, s | tests, s | edits, s | together, min |
|---|---|---|---|---|
| `changed` | 100 | 0 | 0 | 1.7 |
| `gone` | 100 | 0 | 0 | 1.7 |
| `high` | 60 | 20 | 10 | 1.5 |
| `low` | 10 | 0 | 0 | 0.2 |
| all of these | 270 | 20 | 10 | 5.0 |

running, and what ended between two looks: 0.1 min
5.1 processor minutes in 2.0 minutes of the clock on 4 processors; the gate may take 140
"""
NOW = """\
What `rt ci` took on 2 May 2026, by tools/gate_time.py: a processor, load 4, 4, 4

| crate | proof, s | tests, s | edits, s | together, min |
|---|---|---|---|---|
| `changed` | 900 | 0 | 0 | 15.0 |
| `high` | 120 | 45 | 20 | 3.1 |
| `low` | 15 | 0 | 0 | 0.2 |
| `new` | 70 | 0 | 0 | 1.2 |
| all of these | 1105 | 45 | 20 | 19.5 |

running, and what ended between two looks: 0.5 min
20.0 processor minutes in 6.0 minutes of the clock on 4 processors; the gate may take 140
"""


class Beside(unittest.TestCase):
    def test_crates_that_stay_are_the_yardstick(self):
        """200 s for 100, so twice as slow; what is changed, new or gone says nothing of that."""
        self.assertEqual(
            gate_time.beside(EARLIER, NOW, {"changed"}),
            "the 2 crates that have not changed took 2.00 of their time of 1 May 2026, when all took "
            "5.1: on that machine this is 10.0 minutes\n")

    def test_nothing_is_told_where_all_have_changed(self):
        self.assertEqual(gate_time.beside(EARLIER, NOW, {"changed", "high", "low"}), "")

    def test_a_file_that_no_commit_has_is_no_yardstick(self):
        with tempfile.NamedTemporaryFile() as file:
            self.assertIsNone(gate_time.changed_since(file.name))


class Shared(unittest.TestCase):
    def yardstick(self, alone, beside):
        work = gate_time.Yardstick()
        work.alone, work.beside = alone, beside
        return work

    def test_minutes_of_processors_that_share_nothing(self):
        """Beside the command it took twice as long, so each of its minutes is half of one."""
        self.assertEqual(
            self.yardstick(0.1, [0.15, 0.25]).told(260),
            "a fixed piece of work took 0.100 s of a processor alone and 0.200 beside it: of "
            "processors that share nothing this is 130.0 minutes")

    def test_no_minute_is_more_than_one(self):
        self.assertIn("this is 260.0 minutes", self.yardstick(0.2, [0.1]).told(260))

    def test_a_command_that_ends_at_once(self):
        _, _, _, status, work = gate_time.watch(["true"])
        self.assertEqual(status, 0)
        self.assertGreater(work.alone, 0)
        self.assertIn("of processors that share nothing", work.told(1))


class BrokenOff(unittest.TestCase):
    SLOW_TO_END = "trap 'sleep 1; exit 3' TERM; echo begun; while :; do sleep 0.1; done"

    def test_interrupts_lose_no_table(self):
        """Also where it ran with interrupts ignored, and is told twice."""
        for before in signal.SIG_IGN, signal.SIG_DFL:
            with self.subTest(before=before):
                here = signal.signal(signal.SIGINT, before)
                self.addCleanup(signal.signal, signal.SIGINT, here)
                self.assert_interrupted()
                signal.signal(signal.SIGINT, here)

    def assert_interrupted(self):
        told = subprocess.Popen([sys.executable, TOOLS / "gate_time.py", "sh", "-c", self.SLOW_TO_END],
                                stdout=subprocess.PIPE, stderr=subprocess.PIPE, text=True)
        self.addCleanup(told.communicate)
        self.addCleanup(told.kill)
        self.assertEqual(told.stderr.readline(), "begun\n")
        for _ in range(2):
            time.sleep(0.3)
            told.send_signal(signal.SIGINT)
        printed, refused = told.communicate(timeout=60)
        self.assertIn("| all of these | 0 | 0 | 0 | 0.0 |", printed)
        self.assertIn("ended with status 3: the figures are of a part of it", refused)
        self.assertEqual(told.returncode, 1)


if __name__ == "__main__":
    unittest.main()

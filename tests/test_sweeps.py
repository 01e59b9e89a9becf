"""The sweeps, each in each of its settings: `python3 -m unittest tests.test_sweeps` plays all, and
with a name as `.Faults.test_two_commits_and_a_find` behind it that one."""

from . import cases, sweeps


def _test(row):
    def test(self):
        for setting in row.settings:
            try:
                sweeps.sweep_in(row, setting)
            except sweeps.Fault as fault:
                self.fail(f"\n{row.file}: {row.title}: {fault}")
    return test


cases.make(globals(), _test, kind="sweep")

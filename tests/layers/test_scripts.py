"""The rows: `python3 -m unittest tests.layers.test_scripts` plays all."""

import unittest

from .. import cases
from . import lines


def _test(row):
    def test(self):
        if told := lines.differences(row):
            self.fail(f"\n{told}")
    return test


def _case(file):
    tests = {cases.name_of(row.title): _test(row) for row in file.rows}
    name = file.name.removeprefix("layers/").removesuffix(".script").title()
    return type(name, (unittest.TestCase,), {**tests, "__module__": __name__})


for each in lines.files():
    case = _case(each)
    globals()[case.__name__] = case
del each, case

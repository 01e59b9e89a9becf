"""Test cases of unittest, one a file of scripts, with a test for each of its rows.

With RUBEWOLA_QUICK=1 rows that are long are left out, and each other one is played in its first and
its last setting, a sweep with a few of its calls failing.
"""

import re
import unittest

from . import scripts

LINES, BYTES = 200, 100_000


def is_short(row):
    """Whether a row has few lines and few bytes."""
    length = sum(len(scripts.spelled(text)) for text in row.texts)
    return len(row.lines) <= LINES and length <= BYTES


def chosen(rows):
    """The rows that are played, each with its settings."""
    if not scripts.IS_QUICK:
        return rows
    return [row._replace(settings=tuple(dict.fromkeys((row.settings[0], row.settings[-1]))))
            for row in rows if is_short(row)]


def name_of(title):
    """The name of a row's test."""
    return "test_" + re.sub(r"\W+", "_", title).strip("_").lower()


def make(names, test_of, kind, is_played=lambda row: True):
    """Puts a case for each file into a module's names, of the rows that are played."""
    for file in scripts.files():
        tests = {}
        for row in chosen(file.rows):
            if row.kind == kind and is_played(row):
                tests[name_of(row.title)] = test = test_of(row)
                test.__doc__ = f"{row.file}: {row.title} (shows {row.promise})"
        case = file.name.removesuffix(".script").title()
        tests["__module__"] = names["__name__"]
        if len(tests) > 1:
            names[case] = type(case, (unittest.TestCase,), tests)

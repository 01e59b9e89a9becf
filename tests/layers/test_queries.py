"""Queries at the limits of length and of depth, and their plans; an index of 4,096 documents."""

import unittest

from .lines import listed, shares
from .test_texts import told, word

# The longest chain of `AND`, and the deepest brackets.
LONGEST = "a-" * 2_047 + "a"
DEEPEST = "NOT (b AND " * 64 + "a" + ")" * 64

# The first words of 4,096 documents.
FIRST = ("a", "n1", "n10", "n100", "n1000", "n1001")


def chain(terms):
    """Terms that `AND` joins, as they are read: from the left."""
    return "(" * (len(terms) - 1) + terms[0] + "".join(f" AND {term})" for term in terms[1:])


def negated(times, query):
    """A query behind so many `NOT`, as it is read."""
    return "(NOT " * times + query + ")" * times


# Texts of 64 brackets, of 64 `NOT` in a row and of 4,096 bytes, what they read as, and how many
# terms they have. Brackets that close make room, an operand or a bracket ends a row of `NOT`, and
# what stands in a phrase opens nothing.
WITHIN = (
    ("(" * 64 + "a" + ")" * 64, "a", 1),
    (("(" * 64 + "a" + ")" * 64) * 2, chain(["a"] * 2), 2),
    ("(a)" * 1_000, chain(["a"] * 1_000), 1_000),
    ("NOT " * 64 + "a", negated(64, "a"), 1),
    (("NOT " * 64 + "a ") * 2, chain([negated(64, "a")] * 2), 2),
    (("a NOT (" + "NOT " * 64 + "a)") * 2, chain(["a", negated(65, "a")] * 2), 4),
    ("a" * 4_096, "a" * 4_096, 1),
    ("a " * 2_048, chain(["a"] * 2_048), 2_048),
    ("a-" * 2_048, chain(["a"] * 2_048), 2_048),
    ('"a" ' * 1_024, chain(["a"] * 1_024), 1_024),
    ('"' + "a " * 2_047 + '"', '"' + " ".join(["a"] * 2_047) + '"', 2_047),
    ('"' + "(" * 65 + 'a"', "a", 1),
    ('"' + "NOT " * 65 + '"', '"' + " ".join(["not"] * 65) + '"', 65),
    ("a* " * 1_365, chain(["a*"] * 1_365), 1_365),
)


class Queries(unittest.TestCase):
    """Those of many terms and of many brackets."""

    def test_texts_at_the_limits(self):
        answers = shares([f"read {word(text)}" for text, _, _ in WITHIN])
        for (text, query, terms), answer in zip(WITHIN, answers):
            self.assertEqual(answer, f"- {word(query)} {terms}", text[:80])

    def test_the_longest_query_has_a_plan(self):
        """Each word, a blank between each two, and brackets."""
        words, plan = shares([f"plan {word(LONGEST)} -"])[0].split(" | ")
        self.assertEqual((words, plan), (told(["a"] * 2_048), word(f"[{' '.join(['a'] * 2_048)}]")))
        self.assertEqual(len(bytes.fromhex(plan)), 4_097)

    def test_the_deepest_query_has_a_plan(self):
        words, plan = shares([f"plan {word(DEEPEST)} -"])[0].split(" | ")
        self.assertEqual(words, told(["b"] * 64 + ["a"]))
        self.assertEqual(plan, word("(* - " + "(b - " * 63 + "[b a]" + ")" * 64))


class Documents(unittest.TestCase):
    """Many of them, each with a word that all have and one of its own."""

    def test_four_thousand_and_ninety_six_documents(self):
        numbers = range(1, 4_097)
        added = " ".join(f"add:{number}:{word(f'a N{number}')}" for number in numbers)
        lists, terms = shares([f"index {added} list:{word('a')} list:{word('n4096')}",
                               f"index {added} terms"])
        self.assertEqual(lists, f"{listed(numbers)} 4096")
        self.assertEqual(len(terms.split(" ")), 4_097)
        self.assertTrue(terms.startswith(f"{told(FIRST)} "))

"""Stores of which each byte is changed, or a length: what opening tells of them, and what a check,
and that whatever is asked of them is answered or refused as damaged."""

import unittest

from . import scripts
from .layers import plain

# Where the segment of documents 1 `a b` and 2 `a` lies on their disk: 78 bytes from unit 34 on.
SEGMENT = range(17408, 17486)

# The blank in the first text. With another byte that is part of no word there, the bytes are those
# of another text with the same words.
BLANK = 17457

TWO = ["!disk 32768", "!create", "add a b", "add a", "commit", "!close"]

# The documents of a store, all `a`, and how many of them are deleted, the first ones.
DOCUMENTS, DELETED = 200, 130

# Its deletion list stands behind the segment of 2,624 bytes, which takes six units, and the table
# of the commit before, which takes unit 40. It has its number of numbers, a skip entry, sixteen
# widths, a block of 128 at width 3, and two numbers of a byte each.
PLACE, LENGTH = 20992, 4 + 20 + 16 + 48 + 2

# Where the entry says how long, in the table behind the list, at unit 42.
LENGTH_PLACE = 21536

LONG_LIST = ["!disk 32768", "!create", *["add a"] * DOCUMENTS, "commit",
             *[f"delete {number}" for number in range(1, DELETED + 1)], "commit", "!close"]

# Lines that are asked of a store whose list may name any numbers, and how their replies may begin:
# bytes alone can bring about damage and a missing document, and nothing else, since no call fails
# and memory is ample.
ASKED = (
    ("add x", "added ", "added "),
    ("delete 1", "deleted ", "refused damaged"),
    ("commit", "committed", "committed"),
    ("find x", "found ", "refused damaged"),
    ("show 0", "text ", "refused damaged"),
    ("show 1", "text ", "refused damaged"),
    ("show 2", "text ", "refused damaged"),
    ("show 4", "text ", "refused damaged"),
    ("delete 3", "deleted ", "refused damaged"),
    ("merge", "merged", "refused damaged"),
    ("find NOT x", "found ", "refused damaged"),
    ("count", "count ", "count "),
    ("!check", "ok ", "damaged"),
)


def is_list(data):
    """Whether bytes are the spelling of a list of at most as many numbers as there are
    documents."""
    return plain.spelled_list(data, DOCUMENTS) is not None


class Damage(unittest.TestCase):
    """Committed stores, a byte of them changed."""

    def test_each_changed_byte_of_a_segment_is_told(self):
        """By opening, or by a check."""
        there = self.bytes_at(TWO, SEGMENT.start, len(SEGMENT))
        cases = [(place, byte) for place in SEGMENT for byte in (0x00, 0xFF)]
        played = scripts.answers([[*TWO, f"!set {place} {byte:02X}", "!open", "!check"]
                                  for place, byte in cases])
        for (place, byte), got in zip(cases, played):
            is_sound = there[place - SEGMENT.start] == byte or (place, byte) == (BLANK, 0x00)
            with self.subTest(place=place, byte=byte):
                self.assertEqual("damaged" not in got[-2:], is_sound, got[-2:])

    def bytes_at(self, store, place, count):
        """The bytes of a store's disk."""
        return bytes.fromhex(scripts.answers([[*store, f"!bytes {place} {count}"]])[0][-1])

    def is_opened(self, got):
        """Whether a store was opened, and all that is asked of it twice answered as it may be."""
        opened, *answers = got
        if opened == "damaged":
            return False
        self.assertEqual(opened, "opened")
        for (asked, start, other), answer in zip(ASKED * 2, answers):
            missing = asked.startswith(("show", "delete")) and answer == "refused no such document"
            self.assertTrue(missing or answer.startswith((start, other)), f"{asked} => {answer}")
        return True

    def played(self, edits):
        """What a store with the long list answers behind each of some edits."""
        asked = ["!open", *[line for line, _, _ in ASKED] * 2]
        return [got[-len(asked):] for got in
                scripts.answers([[*LONG_LIST, edit, *asked] for edit in edits])]

    def test_a_list_with_a_changed_byte_is_answered(self):
        """A list may name numbers that its segment doesn't have. Then the store opens, and each
        command is answered, or refused as damaged."""
        there = self.bytes_at(LONG_LIST, PLACE, LENGTH)
        self.assertEqual(there, plain.list_of([*range(1, DELETED + 1)]))
        cases = [(at, byte) for at in range(LENGTH) for byte in (0x00, 0xFF)]
        for (at, byte), got in zip(cases, self.played([f"!set {PLACE + at} {byte:02X}"
                                                       for at, byte in cases])):
            changed = there[:at] + bytes([byte]) + there[at + 1:]
            with self.subTest(at=at, byte=byte):
                self.assertEqual(self.is_opened(got), is_list(changed))

    def test_a_list_of_another_length_is_damaged(self):
        """A list has one spelling, so that none of another length begins it."""
        played = self.played([f"!set {LENGTH_PLACE} {length:02X}" for length in range(256)])
        for length, got in enumerate(played):
            with self.subTest(length=length):
                self.assertEqual(self.is_opened(got), length == LENGTH)

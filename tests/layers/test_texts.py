"""Words of long texts, and rows of words at each place."""

import unittest

from .lines import hexed, shares


def word(text):
    """A text as a line has it."""
    return hexed(text.encode())


def told(words):
    """Words as they are told."""
    return " ".join(map(word, words))


class Texts(unittest.TestCase):
    """Words by their places in a text."""

    def test_twenty_thousand_words_in_one_text(self):
        """Numbers of five digits, which rise by bytes as they do by value."""
        rising = [str(n) for n in range(10_000, 30_000)]
        falling = rising[::-1]
        asked = f"words {word(''.join(f'{n} ' for n in falling))} {told(rising)}"
        listed, as_set, had = shares([asked])[0].split(" | ")
        self.assertEqual(listed, told(falling))
        self.assertEqual(as_set, told(rising))
        self.assertEqual(had, " ".join(["yes"] * 20_000))

    def test_words_of_each_length(self):
        """Between signs, and behind a digit; they are passed sixteen at a time."""
        lengths = range(1, 41)
        asked = [f"words {word('-{0}-9{0}.'.format('A' * n))}" for n in lengths]
        for n, answer in zip(lengths, shares(asked)):
            self.assertEqual(answer.split(" | ")[0], told(["a" * n, "9" + "a" * n]))

    def test_rows_at_each_place(self):
        """Behind so many other words, whatever part of the text they end in."""
        texts = [front * times + "new drug for" for times in range(80)
                 for front in ("a ", "é ", "new drug ")]
        asked = [f"in-row {word(text)} {word(row)}" for text in texts
                 for row in ("new drug for", "new drugs for")]
        self.assertEqual(shares(asked), ["yes", "no"] * len(texts))

    def test_a_long_row_that_is_begun_everywhere(self):
        """2,046 times a word and another one, in a text that has the first 262,144 times: whoever
        goes on with each row that is begun takes some 500 million steps."""
        long, row = "a " * 262_144, "a " * 2_046
        asked = [f"in-row {word(text)} {word(phrase)}"
                 for text, phrase in ((long, row + "b"), (long, row), (long + "b", row + "b"))]
        self.assertEqual(shares(asked), ["no", "yes", "yes"])

"""Finds of phrases over drawn texts, short and long, in ASCII and beyond it, in which words of a
phrase lie about the ends of parts. Each answer is told from the words of which a text was made."""

import unittest

from . import scripts

# How a word is spelled in a text, and how it is compared.
SPELLED = {
    "of": "of", "Of": "of", "the": "the", "THE": "the", "genus": "genus", "Genus": "genus",
    "a": "a", "A": "a", "on": "on", "act": "act", "aCt": "act", "7": "7", "x_1": "x_1",
    "_a": "_a", "a_": "a_", "3.14": "3.14", "don't": "don't", "it": "it", "sets": "sets",
}
BEYOND = {
    "K": "k", "ſets": "sets", "ﬁne": "fine", "straße": "strasse", "Σ": "σ", "αβγ": "αβγ",
    "don’t": "don’t", "é": "é", "日": "日",
}
COMPARED = SPELLED | BEYOND

# None of them joins two words.
SIGNS = " ", " ", " ", " ", " ", "  ", ", ", ". ", " - ", "@", " (", ") ", "\t"

PHRASES = (
    "of the", "the of", "the genus", "genus of the", "of the genus", "a genus of", "act on",
    "on act", "a", "a a", "7", "7 7", "x_1 a", "_a a_", "a_ _a", "3.14 7", "don't act", "it sets",
    "sets it", "fine sets", "strasse the", "σ a", "αβγ", "k k", "don’t on", "é of", "日 the",
    "the the genus", "on on on", "genus genus", "it genus", "of a of", "act act on",
)

# Parts end at the first space behind so many bytes; a text of up to 4,096 is lent as it lies.
LENGTHS = 20, 64, 128, 300, 1_024, 1_100, 2_048, 4_096, 4_200, 9_000

# Texts that lie near each other, but for some that are longer.
NEAR = 300, 20, *[300] * 5, 64, 4_096, *[300] * 5, 600, 4_200, 128, 300, 1_000, 20


def drawn():
    """Numbers by chance, always the same (Knuth 1981, section 3.3.4)."""
    state = 1
    while True:
        state = (6_364_136_223_846_793_005 * state + 1_442_695_040_888_963_407) % 2**64
        yield state >> 33


def text_of(numbers, length, spellings, signs, inner):
    """A text of about so many bytes with a phrase about that place, and its compared words."""
    text, words = "", []

    def put(spelling):
        nonlocal text
        text += spelling + signs[next(numbers) % len(signs)]
        words.append(COMPARED[spelling])

    while len(text.encode()) + 12 < length:
        put(spellings[next(numbers) % len(spellings)])
    for word in inner:
        same = [it for it in spellings if COMPARED[it] == word]
        if same:
            put(same[next(numbers) % len(same)])
    for _ in range(next(numbers) % 3):
        put(spellings[next(numbers) % len(spellings)])
    return text.rstrip(" \t,.-(@"), words


def texts(lengths):
    """Texts of these lengths and their words: in ASCII; with a word beyond it here and there; of
    such words alone; and of one frequent word with others beside it."""
    numbers = drawn()
    plain, other = sorted(SPELLED), sorted(BEYOND)
    vocabularies = plain, plain * 8 + other, other, ["the"] * 60 + ["genus", "of", "act"]
    for length in [*lengths] * 3:
        for vocabulary in vocabularies:
            phrase = PHRASES[next(numbers) % len(PHRASES)].split()
            yield text_of(numbers, length, vocabulary, SIGNS, phrase)


def stands_in(row, words):
    """Whether the words stand there one behind the other."""
    return any(words[at:at + len(row)] == row for at in range(len(words)))


def session(lengths):
    """All phrases over texts of these lengths as they come, are committed by two thirds, and merged."""
    there, lines = {}, ["!disk 4194304", "!create => created"]

    def ask_all():
        for phrase in PHRASES:
            found = [n for n, words in there.items() if stands_in(phrase.split(), words)]
            lines.append(" ".join([f'find "{phrase}" => found {len(found)}:', *map(str, found)]))

    for number, (text, words) in enumerate(texts(lengths), 1):
        there[number] = words
        lines.append(f"add {text} => added {number}")
        if number in (60, 110):
            ask_all()
            lines.append("commit => committed")
            ask_all()
    ask_all()
    lines += ["commit => committed", "merge => merged"]
    ask_all()
    return lines


def row(title, lengths):
    """The session as a script."""
    lines = [scripts.Line("phrases", number, text, 4)
             for number, text in enumerate(session(lengths), 1)]
    return scripts.Row("test_phrases.py", title, "script", "answers",
                       scripts.BLOCKS + scripts.PAGES, lines)


class Phrases(unittest.TestCase):
    """The sessions."""

    def assert_played(self, played):
        """In each setting each phrase finds its texts."""
        told = scripts.differences([scripts.input_of(played, it) for it in played.settings])
        self.assertEqual(told, "", f"\n{told}")

    def test_each_phrase_finds_its_texts(self):
        """Over short and long ones."""
        self.assert_played(row("drawn phrases", LENGTHS))

    def test_each_phrase_finds_its_texts_near_each_other(self):
        """Over short ones with a long one here and there."""
        self.assert_played(row("drawn phrases near each other", NEAR))

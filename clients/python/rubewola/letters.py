"""What of words needs Unicode's tables and patterns: letters beyond ASCII, the parts of joined
words, and second words without accents, so that `resume` finds `résumé`.

It is apart from `words` for the sake of a fast start: a search mostly needs none of it. The parts
are there since the rules of Unicode keep `lists.debian.org` one word.
"""

from __future__ import annotations

import re
from functools import lru_cache
from itertools import filterfalse
from unicodedata import category, combining, normalize

from .words import APART, clean, field_words

# Signs that nobody sees and that would be part of a word: soft hyphens, signs of direction; and
# joiners at a word's end.
_UNSEEN = re.compile("[\xad\u061c\u180e\u200e\u200f\u202a-\u202e\u2060-\u206f\ufeff\ufff9-\ufffb]+")
_LOOSE = re.compile(r"(?<=\w)[\u034f\u200c\u200d]+(?!\w)")
_MAYBE_UNSEEN = re.compile("[\xad\u034f\u061c\u180e\u200c-\u200f\u202a-\u202e\u2060-\u206f"
                           "\ufeff\ufff9-\ufffb]")
# Letters that `_` joins to nothing: ideographs, hiragana, and writing without spaces as Thai.
ALONE = ("[\u0e00-\u0eff\u1000-\u109f\u1780-\u17ff\u1950-\u19df\u1a20-\u1aaf"
         "\u3005-\u3007\u3021-\u3029\u3031-\u309f\u3400-\u4dbf\u4e00-\u9fff"
         "\ua9e0-\ua9ff\uaa60-\uaadf"
         "\uf900-\ufaff\U00011700-\U0001174f\U00016fe0-\U00018dff\U0001b000-\U0001b2ff"
         "\U00020000-\U0003ffff]")
_ALONE = re.compile(ALONE)
_KATAKANA = re.compile("[\u30a0-\u30ff\u31f0-\u31ff\uff66-\uff9f]+")

MOST_MARKS = 30
# A run of signs that are neither letters nor ASCII, in which there may be more.
_MARKS = re.compile(rf"[^\w\x00-\x7f]{{{MOST_MARKS + 1},}}")


def _few_marks(run: re.Match[str]) -> str:
    """A run of signs, of whose marks those are left out that stand behind MOST_MARKS others."""
    if not any(map(combining, run[0])):
        return run[0]
    kept, marks = [], 0
    for sign in run[0]:
        marks = marks + 1 if combining(sign) else 0
        if marks <= MOST_MARKS:
            kept.append(sign)
    return "".join(kept)


def clean(text: str) -> str:
    """A text in Unicode's form NFC and without signs that nobody sees. Of the marks on one letter
    there are at most MOST_MARKS, as in Unicode's texts that are safe to stream: more are no
    writing, and the time to order them grows with their square."""
    has_unseen = _MAYBE_UNSEEN.search(text)
    if has_unseen:  # Before marks are counted: what is between them goes, and they are in a row.
        text = _UNSEEN.sub("", text)
    text = normalize("NFC", _MARKS.sub(_few_marks, text))
    return _LOOSE.sub("", text) if has_unseen else text


class _Spelling(dict):
    """How a character stands in the word of a field, by its code point."""

    def __missing__(self, point: int) -> str:
        character = chr(point)
        if _ALONE.match(character):
            kept = f" _{point:X} "
        elif character.isalpha() or character.isdecimal() or category(character)[0] == "M":
            kept = character
        else:
            kept = f" _{point:X} " if character.isalnum() else " "
        self[point] = kept
        return kept


_SPELLED = _Spelling()


def spaced(text: str) -> str:
    """A text folded, with spaces between what may stand in the words of a field. What stands alone
    in a text is spelled in hexadecimal, so that it stays with the field's name: `from__7530`."""
    folded = normalize("NFC", clean(text).casefold()).translate(_SPELLED)
    return _KATAKANA.sub(r" \g<0> ", folded)


_JOINS = (r"_.:'\u00b7\u0387\u055f\u05f4\u2018\u2019\u2024\u2027\ufe13\ufe52\ufe55\uff07\uff0e"
          r"\uff1a")
_JOINED = re.compile(rf"[^\W_]+(?:(?:[{_JOINS}]+|(?<=\d)[,;](?=\d))[^\W_]+)+")
# It begins behind a letter alone: so a run of signs is looked at once, not once for each of them.
_JOINT = re.compile(rf"(?<=[^\W_])[{_JOINS},;]+(?=[^\W_])")
_PIECE = re.compile(r"[^\W_]+")
_LINE = 1_000  # Characters that few lines have, and most mails.
_KEPT = 64  # Characters of what is kept for the next time: a chunk's parts, a word without accents.
# Of ASCII what may stand in a joined word, folded; all else is a space.
_FOLDED = bytes(ord(chr(byte).lower()) if chr(byte).isalnum() or chr(byte) in "_.:',;" else 32
                for byte in range(128)) + bytes(128)


def parts(text: str) -> list[str]:
    """The parts of a text's joined words: those of two characters or more that hold a letter."""
    if len(text) > _LINE or not text.isascii():
        return [*_parts_within(text)]
    # Of a line most chunks are known, or have no letter; so it takes half the time.
    folded = text.encode().translate(_FOLDED)
    found: dict[str, None] = {}
    for chunk in filter(str.islower, filterfalse(str.isalnum, folded.decode().split())):
        found.update(_known_parts(chunk) if len(chunk) <= _KEPT else _parts_within(chunk))
    return [*found]


def _parts_within(text: str) -> dict[str, None]:
    found: dict[str, None] = {}
    end = 0
    while joint := _JOINT.search(text, end):
        at = begin = joint.start()
        while begin > end and text[begin - 1].isalnum():
            begin -= 1
        end = joint.end()
        if at > begin and (joined := _JOINED.match(text, begin)):
            end, word = joined.end(), joined[0]
            found.update(_known_parts_of(word) if len(word) <= _KEPT else _parts_of(word))
    return found


_known_parts = lru_cache(maxsize=65_536)(_parts_within)


def _parts_of(joined: str) -> dict[str, None]:
    pieces = _PIECE.findall(joined.casefold())
    return dict.fromkeys(part for part in pieces if len(part) > 1 and not part.isdigit())


_known_parts_of = lru_cache(maxsize=65_536)(_parts_of)


# A word with the marks that Unicode's form NFC leaves on its letters.
_WORD = re.compile(r"[^\W_]+(?:[\u0300-\u036f]+[^\W_]*)*")
# What may have an accent: letters of Latin and Greek, the Cyrillic io, and marks on any letter.
_ACCENTED = re.compile("[\u00c0-\u024f\u0300-\u036f\u0386-\u03ce\u0401\u0451\u1e00-\u1fff]")
_MARK_POINTS = range(0x300, 0x370)
_LATIN, _GREEK = range(0x250), range(0x370, 0x400)
_LEAST = 2  # Characters of a second word.
# Letters that Unicode takes for whole, and as what they are typed.
_TYPED = {"\u00f8": "o", "\u0111": "d", "\u0142": "l", "\u00e6": "ae", "\u0153": "oe",
          "\u0131": "i", "\u0127": "h", "\u00fe": "th", "\u00f0": "d", "\u0167": "t",
          "\u0451": "\u0435"}


class _Bare(dict):
    """What is left of a character without its accents, by its code point. In other scripts than
    Latin and Greek a mark makes another letter, so there it stays."""

    def __missing__(self, point: int) -> str:
        character = chr(point)
        letter, *marks = normalize("NFD", character)
        if point in _MARK_POINTS:
            left = ""
        elif marks and (ord(letter) in _LATIN or ord(letter) in _GREEK):
            left = letter
        else:
            left = _TYPED.get(character, character)
        self[point] = left
        return left


_BARE = _Bare()


def bare(word: str) -> str:
    """A word folded and without accents."""
    return word.casefold().translate(_BARE)


_known_bare = lru_cache(maxsize=65_536)(bare)


def second(text: str) -> list[str]:
    """The words of a text that have accents, without them."""
    if text.isascii() or not _ACCENTED.search(text):
        return []
    found: dict[str, None] = {}
    # Few chunks of most texts have any, so words are looked for in these alone.
    chunks = dict.fromkeys(filterfalse(str.isascii, text.split()))
    for word in dict.fromkeys(_WORD.findall(" ".join(chunks))):
        if not word.isascii():
            left = _known_bare(word) if len(word) <= _KEPT else bare(word)
            if len(left) >= _LEAST and left != word.casefold():
                found[left] = None
    return [*found]


def bare_field_words(name: str, text: str) -> list[str]:
    """The words of a field's text without accents, in its order, if it has any; they stand in no
    row with others."""
    if text.isascii() or not _ACCENTED.search(text := clean(text)):
        return []
    words, left = field_words(name, text), field_words(name, bare(text))
    return [APART, *left] if left != words else []

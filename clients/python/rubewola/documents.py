"""What a loader stores: the text of a mail or a line, behind MARK words that help to find it, and
last a digest of all that. What of it is loaded on request alone is one choice for a load.

The first word is the document's kind. Then come what it is, its days and its fields, and last the
parts of its joined words: `lists`, `debian` and `org` of `lists.debian.org`, and second words
without accents.

The digest is a space, and eight signs of ASCII that are no letters and no digits. They make no
word, so the index knows nothing of them. They spell the CRC-32 of all that stands before the space,
which sees each change within 32 bits in a row; so a check sees a byte that belongs to no word.
"""

from __future__ import annotations

from collections.abc import Iterable, Iterator
from contextlib import contextmanager
from typing import NamedTuple
from zlib import crc32

from . import letters
from .layout import CUT, MARK
from .words import SIGN, clean, guarded

MOST_BYTES, MOST_TAIL_BYTES = 1_048_576, 524_288
SOUND, OTHER, NONE = "sound", "other bytes than were loaded", "no digest"
DIGEST_BYTES = 9  # A space, and a sign for each digit.
_SIGNS = b"!#$%&()*+,-/;<=>"  # For the hexadecimal digits.
_SPELLED = bytes.maketrans(b"0123456789abcdef", _SIGNS)
_MARK, _SIGN = MARK.replace("\n", "\v").encode(), SIGN.encode()


class Extras(NamedTuple):
    """A choice: whether words with accents have a second word without them; and the programs that
    give the text of attached files, by their types, or None where none is wanted."""

    accents: bool = True
    filters: dict[str, list[str]] | None = None


_CHOSEN = [Extras()]


def chosen() -> Extras:
    """The choice that holds now."""
    return _CHOSEN[-1]


def choose(extras: Extras) -> None:
    """Makes a choice for this process."""
    _CHOSEN[:] = [extras]


@contextmanager
def choosing(extras: Extras) -> Iterator[None]:
    """Makes a choice for a while."""
    _CHOSEN.append(extras)
    try:
        yield
    finally:
        _CHOSEN.pop()


def document(kind: str, text: str, words: Iterable[str] = (),
             with_parts: bool = True) -> tuple[bytes, bool]:
    """The bytes of a document, and whether any of it was cut. A text that is too long is cut, and
    so are its words; of the parts as many stay as fit."""
    text = guarded(clean(text))
    data = text.encode("utf-8", "replace").replace(b"\n", b"\v")
    tail, is_cut = " ".join([SIGN + kind, *words]).encode("utf-8", "replace"), False
    if len(tail) > MOST_TAIL_BYTES:
        tail, is_cut = _fitting(tail, MOST_TAIL_BYTES), True
    room = MOST_BYTES - len(_MARK) - len(tail) - DIGEST_BYTES
    if len(data) > room:
        data, is_cut = _cut(data, room), True
        text = data.decode()
    if with_parts and (added := letters.parts(text)):
        fitting = _fitting(" ".join(added).encode(), room - len(data) - 1)
        tail += b" " + fitting if fitting else b""
    if not text.isascii() and chosen().accents and (second := letters.second(text)):
        room = MOST_BYTES - len(_MARK) - len(tail) - DIGEST_BYTES
        fitting = _fitting(" ".join(second).encode(), room - len(data) - 1)
        tail += b" " + fitting if fitting else b""
    return sealed(data + _MARK + tail), is_cut


def _cut(data: bytes, room: int) -> bytes:
    cut = CUT.replace("\n", "\v").encode()
    # The cut may go through a character.
    return data[:room - len(cut)].decode(errors="ignore").encode() + cut


def _fitting(words: bytes, room: int) -> bytes:
    """As many whole words as there is room for."""
    return words if len(words) <= room else words[:max(room, 0) + 1].rpartition(b" ")[0]


def sealed(data: bytes) -> bytes:
    """The bytes of a document with their digest behind them."""
    return b"%b %b" % (data, (b"%08x" % crc32(data)).translate(_SPELLED))


def judged(data: bytes) -> str:
    """Whether the bytes of a document are those that were sealed, with words of loaders behind them
    or none; or whether it never was."""
    _, mark, tail = data.rpartition(_MARK)
    end = len(data)
    for word in reversed(tail.split(b" ")):
        begin, signs = end - len(word), _signs_of(word)
        if signs and (mark or _SIGN in data):
            return SOUND if sealed(data[:max(begin - 1, 0)]) == data[:end] else OTHER
        if word and not word.startswith(_SIGN):
            return NONE
        end = begin - 1
    return NONE


def _signs_of(word: bytes) -> bool:
    """Whether a word holds any sign of a digest, of which damage may have left few."""
    return len(word.translate(None, _SIGNS)) < len(word)

"""The words that help to find a document, and which no text holds by chance.

A field is found by words as `from_bdale`, with SIGN before them, and what a document is by words
with two SIGNs. SIGN is a letter that no living spelling has; where a text or a query holds it all
the same, GUARD behind it cuts the word there, so that none but the loaders writes such a word.
"""

from __future__ import annotations

import os

SIGN, GUARD = "\u01bb", "\u200b"
NAMING = SIGN * 2
APART = NAMING  # A word between two that do not stand in a row.
ABSENT = NAMING + "none"  # A word that no document has: no loader writes it, and no text holds it.
LONGEST_NAME = 1_024

# The letters and digits of ASCII, folded; all else of it is a space.
_FOLDED = {at: chr(at).lower() if chr(at).isalnum() else " " for at in range(128)}
# How bytes stand in a name; a message id keeps its capitals, which count for nothing in it.
_SPELLED_ID = [chr(at) if chr(at).isalnum() and at < 128 else f"_{at:02X}" for at in range(256)]
_SPELLED = [f"_{at:02X}" if chr(at).isupper() else kept for at, kept in enumerate(_SPELLED_ID)]


def clean(text: str) -> str:
    """A text in Unicode's form NFC and without signs that nobody sees."""
    if text.isascii():
        return text
    from . import letters
    return letters.clean(text)


def guarded(text: str) -> str:
    """A text that holds no word of a loader's."""
    return text.replace(SIGN, SIGN + GUARD)


def unguarded(text: str) -> str:
    """The text that was guarded."""
    return text.replace(SIGN + GUARD, SIGN)


def _spaced(text: str) -> str:
    """A text folded, with spaces between what may stand in the words of a field."""
    if text.isascii():
        return text.translate(_FOLDED)
    from . import letters
    return letters.spaced(text)


def field_words(name: str, text: str) -> list[str]:
    """The words of a field's text, in its order: `from_bdale`, with SIGN before it."""
    before = f"{SIGN}{name}_"
    return [before + word for word in _spaced(text).split()]


def field_name(name: str) -> str:
    """The name of a field as it stands in a word."""
    folded = name.casefold().replace(SIGN, "_")
    spaced = "".join(letter if letter.isalnum() else " " for letter in folded)
    return "_".join(spaced.split())


def has_word(name: str) -> str:
    """The word that says that some documents have a field."""
    return f"{SIGN}has_{field_name(name)}"


def digest(data: bytes) -> str:
    """Sixteen hexadecimal digits that no other bytes have, as far as anybody knows."""
    from hashlib import blake2b
    return blake2b(data, digest_size=8).hexdigest()


def named(name: str, value: str | bytes) -> list[str]:
    """What a document is, as a word that no other finds: each byte that is no small ASCII letter
    and no digit is `_` and two hexadecimal digits. A message id keeps its capitals, which count for
    nothing in it. Before a word too long for a query stands its digest."""
    spelled = _SPELLED_ID if name == "id" else _SPELLED
    word = f"{NAMING}{name}_{''.join(map(spelled.__getitem__, os.fsencode(value)))}"
    if len(word) <= LONGEST_NAME:
        return [word]
    return [f"{NAMING}{name}_{digest(word.encode())}", word]


def asked(name: str, value: str | bytes) -> str:
    """The word that finds the document that is this."""
    return named(name, value)[0]


def meant(word: str) -> str:
    """The value that was spelled, of what stands behind the name; what is no spelling, as it is."""
    plain, *spelled = word.split("_")
    try:
        return os.fsdecode(plain.encode() + b"".join(bytes.fromhex(one[:2]) + one[2:].encode()
                                                     for one in spelled))
    except ValueError:
        return word

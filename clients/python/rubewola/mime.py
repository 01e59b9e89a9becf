"""The parts of a mail, by the rules of MIME, in a time that grows as its bytes do.

The standard library's parser looks at each line once for each part that is open, and at a field's
parameters once for each of them; so a mail that is made for it can hold it for hours.
"""

from __future__ import annotations

import binascii
import re
from collections.abc import Iterator
from urllib.parse import unquote_to_bytes

from .texts import decoded

LONGEST_FIELD = 262_144  # Bytes of a field that are looked at.
MOST_FIELDS = 16_384  # Of a head.
MOST_PARTS = 4_096  # What stands behind so many is the text of the last.

_FIELD = re.compile(rb"([!-9;-~]*):[ \t]*([^\n]*(?:\n[ \t][^\n]*)*)(?:\n|\Z)")
_PARAMETER = re.compile(rb';\s*([^\s=;"]+)\s*=\s*(?:"([^"\\]*(?:\\.[^"\\]*)*)"?|([^;]*))',
                        re.DOTALL)
_ENCODED = re.compile(rb"=\?([^?]*)\?([bBqQ])\?")
_CONTINUED = re.compile(r"(.+?)\*(\d{1,4})(\*?)")
_EMPTY_LINES = (b"\n", b"\r\n")
_UU_BEGIN, _UU_END = b"begin ", b"end"


class Part:
    """A part of a mail, or a whole one: its fields, and its body or the parts in it, with what
    stands behind the last of these."""

    def __init__(self, fields: list[tuple[str, bytes]], usual: str = "text/plain") -> None:
        self.fields, self.body, self.inner, self.behind = fields, b"", [], b""
        self._by_name: dict[str, list[bytes]] = {}
        for name, value in fields:
            self._by_name.setdefault(name.lower(), []).append(value[:LONGEST_FIELD])
        self._told = {name: _parameters(*self.values(name)[:1]) for name in
                      ("content-type", "content-disposition")}
        kind = self._told["content-type"][0]
        if not kind:
            self.kind = usual
        else:
            self.kind = kind if kind.count("/") == 1 else "text/plain"

    def values(self, name: str) -> list[bytes]:
        """The values of a field, by its name in small letters."""
        return self._by_name.get(name, [])

    def parameter(self, name: str, of: str = "content-type") -> str:
        """The value of a field's parameter, or an empty text."""
        return self._told[of][1].get(name, "")

    @property
    def is_attached(self) -> bool:
        """Whether it says that it is no part of the text."""
        return self._told["content-disposition"][0] == "attachment"

    @property
    def file_name(self) -> str:
        """The name of the file that it is, or an empty text."""
        return (self.parameter("filename", "content-disposition")
                or self.parameter("name")).strip()

    @property
    def data(self) -> bytes:
        """The bytes of its body, as they were before they were encoded for the way."""
        told = self.values("content-transfer-encoding")[:1]
        name = b"".join(told).partition(b";")[0].strip(b" \t\r\n\"'").lower()
        if name == b"base64":
            return base64_data(self.body)
        if name == b"quoted-printable":
            return binascii.a2b_qp(self.body)
        if name in (b"x-uuencode", b"uuencode", b"uue", b"x-uue"):
            return _uu_data(self.body)
        return self.body


def base64_data(encoded: bytes) -> bytes:
    """The bytes that base64 stands for; what is none stays as it is."""
    for more in (b"", b"=="):
        try:
            return binascii.a2b_base64(encoded + more)
        except binascii.Error:
            pass
    return encoded


def _uu_data(encoded: bytes) -> bytes:
    """The bytes that uuencode stands for; what is none stays as it is."""
    begin = encoded.find(b"\n" + _UU_BEGIN) + 1
    if not encoded.startswith(_UU_BEGIN, begin):
        return encoded
    found = []
    for line in encoded[begin:].splitlines()[1:]:
        if line == _UU_END:
            break
        size = ((line[:1] or b" ")[0] - 32 & 63) * 4 // 3 + 2
        try:
            found.append(binascii.a2b_uu(line[:size]))
        except binascii.Error:
            pass
    return b"".join(found)


def text_of(value: bytes) -> str:
    """A field's value with its encoded words as text. Words in a row are one, though a character
    may be cut between two; what stands between them is not there, if it is just space."""
    pieces: list[tuple[bytes, str | None]] = []
    for data, charset in _pieces(value):
        if charset is not None and len(pieces) > 1 and pieces[-1][1] is None \
                and pieces[-2][1] is not None and not pieces[-1][0].strip():
            pieces.pop()
        pieces.append((data, charset))
    found: list[str] = []
    held: list[bytes] = []
    for at, (data, charset) in enumerate(pieces):
        held.append(data)
        if at + 1 == len(pieces) or pieces[at + 1][1] != charset:
            found.append(decoded(b"".join(held), charset))
            held = []
    return "".join(found)


def _pieces(value: bytes) -> Iterator[tuple[bytes, str | None]]:
    """The pieces of a field: each encoded word with its charset, and what stands between them."""
    start, at = 0, value.find(b"=?")
    while at >= 0:
        head = _ENCODED.match(value, at)
        end = value.find(b"?=", head.end()) if head else 0
        if end < 0:  # No encoded word can end any more.
            break
        if head:
            if start < at:
                yield value[start:at], None
            encoded = value[head.end():end]
            is_base64 = head[2] in b"bB"
            data = base64_data(encoded) if is_base64 else binascii.a2b_qp(encoded, header=True)
            yield data, head[1].partition(b"*")[0].decode("ascii", "replace").lower()
            start = end + 2
        at = value.find(b"=?", max(start, at + 2))
    if value[start:]:
        yield value[start:], None


def _parameters(value: bytes = b"") -> tuple[str, dict[str, str]]:
    """What a field says before its parameters, and these: those that are cut into several as one,
    those with a charset as text."""
    said = value.partition(b";")[0].strip().lower().decode("ascii", "replace")
    found: dict[str, str] = {}
    cut: dict[str, list[tuple[int, bool, bytes]]] = {}
    for parameter in _PARAMETER.finditer(value):
        name = parameter[1].decode("ascii", "replace").lower()
        plain = _unquoted(parameter[2]) if parameter[3] is None else parameter[3].strip()
        piece = _CONTINUED.fullmatch(name)
        if piece:
            cut.setdefault(piece[1], []).append((int(piece[2]), bool(piece[3]), plain))
        elif name.endswith("*"):
            cut.setdefault(name[:-1], []).append((0, True, plain))
        else:
            found.setdefault(name, text_of(plain))
    for name, pieces in cut.items():
        found[name] = _joined(sorted(pieces))
    return said, found


def _unquoted(value: bytes) -> bytes:
    return value.replace(b"\\\\", b"\\").replace(b'\\"', b'"')


def _joined(pieces: list[tuple[int, bool, bytes]]) -> str:
    """A parameter that was cut into pieces, of which the first names the charset."""
    charset, first = "", pieces[0]
    if first[1] and first[2].count(b"'") >= 2:
        named, _, rest = first[2].split(b"'", 2)
        charset, pieces = named.decode("ascii", "replace"), [(0, True, rest), *pieces[1:]]
    data = b"".join(unquote_to_bytes(piece) if is_spelled else piece
                    for _, is_spelled, piece in pieces)
    return decoded(data, charset)


class _Reader:
    """Reads a mail from its first byte to its last. Of each multipart that is open the boundary is
    known; the outermost of a name counts."""

    def __init__(self, raw: bytes) -> None:
        self._raw, self._count = raw, 0
        self._open: list[tuple[Part, bytes]] = []
        self._places: dict[bytes, int] = {}
        self._leaf: Part | None = None  # The part whose body begins at `_start`; of one that ended
        self._is_behind = False  # what stands behind its parts.
        self._start = 0

    def read(self) -> Part:
        """The whole mail."""
        top, start = self._begin(0, "text/plain")
        at = max(start - 1, 0)
        while self._open and (before := self._raw.find(b"\n--", at)) >= 0:
            end = self._raw.find(b"\n", before + 1)
            end = len(self._raw) if end < 0 else end
            place, is_end = self._separator(self._raw[before + 1:end])
            at = end
            if place is not None and self._count < MOST_PARTS:
                self._ends(before)
                at = self._separated(place, is_end, min(end + 1, len(self._raw))) - 1
        self._ends(len(self._raw))
        return top

    def _separator(self, line: bytes) -> tuple[int | None, bool]:
        """Which of the open multiparts a line cuts, if any, and whether it ends it."""
        name = line[2:].rstrip(b" \t\r")
        if name in self._places:
            return self._places[name], False
        return (self._places.get(name[:-2]), True) if name.endswith(b"--") else (None, False)

    def _separated(self, place: int, is_end: bool, start: int) -> int:
        """Begins what stands behind a line that cuts an open multipart or ends it; gives where the
        next body begins."""
        outer, _ = self._open[place]
        first = place + (not is_end)  # Of those that are open no more.
        for at, (_, name) in enumerate(self._open[first:], first):
            if self._places.get(name) == at:
                del self._places[name]
        del self._open[first:]
        if is_end:
            self._leaf, self._is_behind, self._start = outer, True, start
            return start
        usual = "message/rfc822" if outer.kind == "multipart/digest" else "text/plain"
        inner, start = self._begin(start, usual)
        outer.inner.append(inner)
        return start

    def _begin(self, at: int, usual: str) -> tuple[Part, int]:
        """Begins a part at a place; gives it, and where its body begins. Of a mail in it that is
        the part that is begun."""
        fields, at = self.head(at)
        first = part = Part(fields, usual)
        self._count += 1
        while part.kind.startswith("message/") and part.kind != "message/delivery-status" \
                and self._count < MOST_PARTS:
            fields, at = self.head(at)
            part.inner.append(Part(fields))
            part = part.inner[0]
            self._count += 1
        boundary = part.parameter("boundary").rstrip().encode("utf-8", "surrogateescape")
        if part.kind.startswith("multipart/") and boundary:
            self._places.setdefault(boundary, len(self._open))
            self._open.append((part, boundary))
        self._leaf, self._is_behind, self._start = part, False, at
        return first, at

    def _ends(self, at: int) -> None:
        """Gives the part that is read what stands up to a place. What stands before the first part
        of a multipart is nothing."""
        leaf, data = self._leaf, self._raw[self._start:max(at, self._start)]
        data = data.removesuffix(b"\r") if at < len(self._raw) else data
        if leaf and self._is_behind:
            leaf.behind = data
        elif leaf and not leaf.inner:
            leaf.body = data

    def head(self, at: int = 0) -> tuple[list[tuple[str, bytes]], int]:
        """The fields that stand at a place, and where their body begins."""
        fields, raw = [], self._raw
        while at < len(raw):
            found = _FIELD.match(raw, at)
            if found and not (raw.startswith(b"--", at)
                              and self._separator(found[0].partition(b"\n")[0])[0] is not None):
                if found[1] and len(fields) < MOST_FIELDS:
                    fields.append((found[1].decode("ascii"), found[2]))
                at = found.end()
            elif raw.startswith(_EMPTY_LINES, at):
                return fields, raw.index(b"\n", at) + 1
            elif raw.startswith((b" ", b"\t", b"From "), at):
                at = raw.find(b"\n", at) + 1 or len(raw)
            else:
                break
        return fields, at


def read(raw: bytes) -> Part:
    """A mail by its parts."""
    return _Reader(raw.replace(b"\r", b"\n") if b"\n" not in raw else raw).read()


def blocks(part: Part) -> list[tuple[list[tuple[str, bytes]], bytes]]:
    """What a report of a delivery tells of each address: fields, and what is none."""
    found = []
    for piece in re.split(rb"\n\r?\n", part.body, maxsplit=MOST_PARTS):
        fields, end = _Reader(piece + b"\n").head()
        found.append((fields, piece[end:]))
    return found

"""Bytes as text, by what the names of charsets mean on the web, and the text of HTML: what a reader
of it sees.
"""

from __future__ import annotations

import codecs
import encodings
import html
import re
from contextlib import suppress
from encodings import aliases, normalize_encoding
from functools import lru_cache
from pkgutil import iter_modules

# Names that mean more than they say, or that Python has not.
_MEANT = {
    "ascii": "utf-8", "us-ascii": "utf-8", "ansi-x3.4-1968": "utf-8", "utf8mb4": "utf-8",
    "iso-8859-1": "cp1252", "iso8859-1": "cp1252", "latin1": "cp1252", "latin-1": "cp1252",
    "iso-8859-9": "cp1254", "latin5": "cp1254", "iso-8859-11": "cp874", "tis-620": "cp874",
    "windows-874": "cp874", "iso-8859-8-i": "iso-8859-8", "gb2312": "gb18030", "gbk": "gb18030",
    "x-gbk": "gb18030", "gb-2312-80": "gb18030", "cp936": "gb18030", "euc-cn": "gb18030",
    "hz-gb-2312": "hz", "big5": "big5hkscs", "x-x-big5": "big5hkscs", "shift-jis": "cp932",
    "sjis": "cp932", "x-sjis": "cp932", "windows-31j": "cp932", "iso-2022-jp": "iso2022_jp_ext",
    "x-euc-jp": "euc_jp", "ks-c-5601-1987": "cp949", "ks-c-5601-1989": "cp949",
    "ksc5601": "cp949", "euc-kr": "cp949", "windows-949": "cp949", "macintosh": "mac_roman",
    "x-mac-roman": "mac_roman", "x-mac-cyrillic": "mac_cyrillic", "unicode-1-1-utf-7": "utf-7",
}
# Codecs of Python that are no charsets.
_NO_CHARSETS = {"idna", "punycode", "unicode_escape", "raw_unicode_escape", "undefined"}
_ASCII = bytes(range(128))
_LONGEST_NAME = 64  # Characters of a charset's name.


@lru_cache(maxsize=1)
def _known() -> frozenset[str]:
    """The names of Python's codecs. It looks for a file for each other name, and forgets none."""
    modules = (module.name for module in iter_modules(encodings.__path__))
    return frozenset(aliases.aliases) | frozenset(modules)


@lru_cache(maxsize=1_024)
def _codec(charset: str) -> str | None:
    name = charset.strip(" \t\"'").lower().replace("_", "-")
    meant = _MEANT.get(name, name)
    if normalize_encoding(meant) not in _known():
        return None
    with suppress(LookupError, ValueError):
        known = codecs.lookup(meant).name.replace("-", "_")
        if known not in _NO_CHARSETS:
            b"a".decode(known, "replace")  # What is no text encoding is refused.
            return known
    return None


def decoded(data: bytes, charset: str | None = None) -> str:
    """Bytes as text: by what their charset means; or else as UTF-8; or else by their charset with
    U+FFFD for each fault. Where that is UTF-8, or none is known, and most of the bytes above ASCII
    are faults, it is windows-1252."""
    name = charset and len(charset) <= _LONGEST_NAME and _codec(charset) or "utf_8"
    for codec in (name, "utf_8"):
        try:
            return data.decode(codec)
        except UnicodeError:
            pass
    if name != "utf_8":
        return data.decode(name, "replace")
    text, above = data.decode("utf_8", "replace"), len(data.translate(None, _ASCII))
    return data.decode("cp1252", "replace") if text.count("\ufffd") * 2 > above else text


# In one way alone, so that no other is tried where a tag has no end.
_ATTRIBUTES = r"[^<>\"']*(?:(?:\"[^\"]*\"|'[^']*')[^<>\"']*)*"
_HIDDEN = re.compile(r"<!--.*?(?:-->|\Z)|<(script|style)\b[^<>]*>.*?(?:</\1\b[^<>]*>|\Z)",
                     re.IGNORECASE | re.DOTALL)
# Tags that stand within a line, and so within a word.
_INLINE = re.compile(r"</?(?:a|abbr|b|bdi|bdo|big|code|em|font|i|ins|kbd|mark|s|small|span|strong|"
                     rf"sub|sup|tt|u|wbr)(?:\s{_ATTRIBUTES})?/?>", re.IGNORECASE)
_ALT = re.compile(r"<img\b(?:[^<>\"']|\"[^\"]*\"|'[^']*')*?\balt\s*=\s*"
                  r"(?:\"([^\"<>]*)\"|'([^'<>]*)'|([^\s<>\"']+))", re.IGNORECASE)
# A number that is no character's; to read it takes a time that grows with the square of its length.
_NO_CHARACTER = re.compile(r"&#(?:[0-9]{9,}|[xX][0-9a-fA-F]{9,});?")
_TAG = re.compile(rf"<[a-z/!?]{_ATTRIBUTES}>|<[a-z/!?][^<>]*>", re.IGNORECASE)
_META = re.compile(rb"<meta\b[^<>]*charset\s*=\s*[\"']?([\w-]+)", re.IGNORECASE)


def page_text(page: str) -> str:
    """What a reader of HTML sees, with the words that stand for images. A tag within a line cuts no
    word, another one does."""
    page = _ALT.sub(lambda image: f" {image[1] or image[2] or image[3] or ''} {image[0]}",
                    _HIDDEN.sub(" ", page))
    return html.unescape(_NO_CHARACTER.sub("\ufffd", _TAG.sub(" ", _INLINE.sub("", page))))


def charset_of(page: bytes) -> str | None:
    """The charset that a page names for itself."""
    found = _META.search(page[:2_048])
    return found[1].decode() if found else None

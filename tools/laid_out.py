"""Stores whose files are made here, byte by byte as docs/FORMATS.md has them."""

import struct

UNIT = 512
FIRST_UNIT = 34
BODY_A = 1024


def segment(number):
    """The segment of the document `a` of this number: header, directory, text, list, dictionary."""
    high, low = divmod(number, 128)
    postings = struct.pack("<I", 1) + (bytes([high]) if high else b"") + bytes([0x80 | low])
    words = bytes(4) + b"\x81a\x81\x80" + bytes([0x80 | len(postings)])
    header = struct.pack("<6I", 2, 1, 1, len(postings), len(words), 1)
    return header + struct.pack("<3I", number, 0, 1) + b"a" + postings + words


def store_of(path, count, units=8192):
    """Makes a store of documents 1 to COUNT, at most 16,383: of each a segment in a unit of its own, and
    the table behind them."""
    segments = [segment(number) for number in range(1, count + 1)]
    table = b"".join(struct.pack("<Q8I", place + 1, FIRST_UNIT + place, 1, len(one), 2, 0, 0, 0, 0)
                     for place, one in enumerate(segments))
    body = b"PKSRCH02" + struct.pack("<QIIQ", 1, units, count + 1, count + 1)
    body += struct.pack("<4I", count, FIRST_UNIT + count, -(-len(table) // UNIT), len(table))
    with open(path, "wb") as store:
        store.truncate(units * UNIT)
        store.write(b"\xa7")
        store.seek(BODY_A)
        store.write(body)
        store.seek(FIRST_UNIT * UNIT)
        store.write(b"".join(one.ljust(UNIT, b"\0") for one in segments) + table)

"""Plain readings of the formats of numbers: as their descriptions say, bit by bit, with no kernel."""

import struct
from itertools import accumulate

WORD = 1 << 32


def width_of(block):
    """The bit length of the greatest number of a block."""
    return max(number.bit_length() for number in block)


def packed(block, width):
    """128 numbers at one width: number i stands in lane i mod 4, from bit (i div 4)·width on."""
    lanes = [sum(block[i] << (i // 4 * width) for i in range(lane, 128, 4)) for lane in range(4)]
    return b"".join(struct.pack("<I", lanes[lane] >> (32 * vector) & 0xFFFFFFFF)
                    for vector in range(width) for lane in range(4))


def unpacked(data, width):
    """The 128 numbers of a packed block."""
    words = struct.unpack(f"<{4 * width}I", data)
    mask, numbers = (1 << width) - 1, [0] * 128
    for lane in range(4):
        whole = sum(words[4 * vector + lane] << (32 * vector) for vector in range(width))
        numbers[lane::4] = [whole >> (k * width) & mask for k in range(32)]
    return numbers


def sums(seed, differences):
    """The numbers of a block by their differences to the number four places before, which wrap."""
    numbers = [0] * 128
    for lane in range(4):
        rising = accumulate(differences[lane::4], initial=seed[lane])
        numbers[lane::4] = [number % WORD for number in rising][1:]
    return numbers


def variable_bytes(number):
    """A number in groups of seven bits, the top bit set on the last."""
    out = [number & 0x7F | 0x80]
    while number := number >> 7:
        out.append(number & 0x7F)
    return bytes(out[::-1])


def list_of(numbers):
    """The one spelling of a posting list."""
    full = len(numbers) // 128
    skips, metablocks, before = b"", b"", [0, 0, 0, 0]
    for first in range(0, full, 16):
        blocks = []
        for at in range(first, min(full, first + 16)):
            these = numbers[128 * at:128 * at + 128]
            blocks.append([x - y for x, y in zip(these, before + these)])
            before = these[-4:]
        widths = [width_of(block) for block in blocks]
        start = len(metablocks) + 16
        for at, (block, width) in enumerate(zip(blocks, widths)):
            offset = start + 16 * sum(widths[:at])
            last = numbers[128 * (first + at) + 124:128 * (first + at) + 128]
            skips += struct.pack("<5I", offset, *last)
        metablocks += bytes(widths).ljust(16, b"\0")
        metablocks += b"".join(map(packed, blocks, widths))
    tail, last = b"", numbers[128 * full - 1] if full else 0
    for number in numbers[128 * full:]:
        tail, last = tail + variable_bytes(number - last), number
    return struct.pack("<I", len(numbers)) + skips + metablocks + tail


def numbers_of(data):
    """The numbers that bytes would be a list of, if they are one at all."""
    count = struct.unpack_from("<I", data)[0]
    full, at = count // 128, 4 + 20 * (count // 128)
    if count > len(data) * 128:
        return []
    numbers = []
    for first in range(0, full, 16):
        widths = data[at:at + 16]
        at += 16
        for width in widths[:min(16, full - first)]:
            block = data[at:at + 16 * width]
            if len(block) != 16 * width or width > 32:
                return []
            numbers += sums(numbers[-4:] or [0, 0, 0, 0], unpacked(block, width))
            at += 16 * width
    last = numbers[-1] if numbers else 0
    difference = 0
    for byte in data[at:]:
        difference = difference << 7 | byte & 0x7F
        if byte & 0x80:
            last, difference = last + difference, 0
            numbers.append(last)
    return numbers


def spelled_list(data, most=WORD):
    """The list that bytes spell: rising numbers below 2^32, so many at the most. None where they
    spell none."""
    if len(data) < 4:
        return None
    numbers = numbers_of(data)
    rises = all(x < y for x, y in zip([0, *numbers], numbers))
    is_list = rises and len(numbers) <= most and max(numbers, default=0) < WORD \
        and list_of(numbers) == data
    return numbers if is_list else None

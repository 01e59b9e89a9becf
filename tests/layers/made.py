"""Lists for tests, each made by a fixed rule."""

WORD = 1 << 32

# What one byte is changed to.
ENDS = (0x00, 0xFF)


def apart(first, gap, count):
    """Numbers that are `gap` apart."""
    return [first + gap * i for i in range(count)]


def uneven(most, count):
    """Rising numbers whose gaps differ from place to place: mostly small, a few of up to `most`."""
    numbers, last, state = [], 0, 12_345
    for _ in range(count):
        state = (state * 1_664_525 + 1_013_904_223) % WORD
        last += 1 + min(state >> 12 >> state % 20, most)
        numbers.append(last)
    return numbers


def thinned(start, gap):
    """70 rising numbers after `start`, each at most `gap` above the one before: a gap of 1 is every
    number."""
    numbers, last, state = [], start, start + 12_345
    for _ in range(70):
        state = (state * 1_103_515_245 + 12_345) % WORD
        last += 1 + state // 65_536 % gap
        numbers.append(last)
    return numbers


def mixed(bits):
    """128 numbers that no rule ties to the lanes, the greatest of `bits` bits."""
    return [(i + 1) * 2_654_435_761 % WORD >> 32 - bits for i in range(128)]


def damages(data, values=ENDS):
    """Each shorter prefix of bytes, and the bytes with each single one set to each value."""
    for at in range(len(data)):
        yield data[:at]
        for value in values:
            yield data[:at] + bytes([value]) + data[at + 1:]

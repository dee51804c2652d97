#!/usr/bin/env python3
"""Makes the cases of the program crates/packed_cases and what it must print.

Run from the root of the repository:

    python3 oracle/packed_cases.py crates/packed_cases

It writes the files `stdin` (the packed slices, each behind its length in two bytes, high byte first) and `stdout` (the
expected answers). The answers come from `faults` below, a second reader that is built from the order's words and not from the
program: it finds every fault of every test, also where an earlier test has failed, and the one that comes first in the order
of the tests counts. A refused slice is answered by `refused,number,line,field`, an accepted one by its grid as a grid file.

The slices are made of hexadecimal text, ten characters for a pad.
"""
import itertools
import random
import sys

sys.dont_write_bytecode = True
from gridfile_cases import LARGEST, LARGEST_SIZE, LEAST_SIZE, grid_file, refused, write_cases

# the tests, in the order in which they run
HEAD, SIZES, LENGTH, PADS = range(4)

BLANK = "f" * 10
LETTERS = "abcdef"


def halves(pad):
    return [half for byte in pad for half in divmod(byte, 16)]


def value(pad):
    """The number of ten places, whatever the half bytes are."""
    return sum(half * 10 ** place for place, half in enumerate(reversed(halves(pad))))


def faults(data):
    """Every fault: (test, index of the pad or of the size, rank at one pad, number, line, field)."""
    if len(data) < 2:
        yield HEAD, 0, 0, 6, 1, 1
    for at, size in enumerate(data[:2]):
        if not LEAST_SIZE <= size <= LARGEST_SIZE:
            yield SIZES, at, 0, 5, 1, at + 1
    height, width = (*data[:2], 0, 0)[:2]
    if len(data) > 2 + 5 * height * width:
        yield LENGTH, height * width, 0, 6, height + 2, 1
    for index in range(height * width):
        pad = data[2 + 5 * index:7 + 5 * index]
        place = 2 + index // width, 1 + index % width
        if len(pad) < 5:
            yield LENGTH, index, 0, 6, *place
        elif pad.hex() != BLANK:
            if max(halves(pad)) > 9:
                yield PADS, index, 0, 17, *place
            if value(pad) > LARGEST:
                yield PADS, index, 1, 3, *place


def answer(data):
    first = min(faults(data), default=None)
    if first:
        return refused(*first[3:])
    pads = [data[at:at + 5] for at in range(2, len(data), 5)]
    return grid_file(data[0], data[1], [b"" if pad.hex() == BLANK else b"%d" % value(pad) for pad in pads])


def packed(height, width, pads):
    return bytes([height, width]) + bytes.fromhex("".join(pads))


def good(height, width):
    """A slice with codes of one to ten digits, zeros before the shorter ones, and every third pad blank."""
    texts = ["%010d" % (4102938475 % 10 ** (1 + index % 10)) for index in range(height * width)]
    return packed(height, width, [BLANK if index % 3 == 2 else text for index, text in enumerate(texts)])


def with_pads(height, width, put):
    """A slice of blank pads, but for some: {index: text}."""
    return packed(height, width, [put.get(index, BLANK) for index in range(height * width)])


def at_pads(text, width=2):
    """A text at the first, a middle and the last pad of two rows."""
    for index in (0, width, 2 * width - 1):
        yield with_pads(2, width, {index: text})


def with_half(text, place, half):
    return text[:place] + half + text[place + 1:]


def known():
    # the cases that came with the order, but for those of 1 by 1 pads, a size that is refused
    for text in ("", "02", "0202", "0002", "0200", "1102", "0211",
                 "02020000000005ffffffffffffffffffff0000000005",
                 "02020000000005ffffffffffffffffffff00000000",
                 "02020000000005ffffffffffffffffffff000000000500",
                 "0202000000000affffffffffffffffffff0000000005",
                 "02020000000005ffffffff0affffffffff0000000005",
                 "02024294967295ffffffffffffffffffff4294967295",
                 "02024294967296ffffffffffffffffffff0000000005",
                 "02029999999999ffffffffffffffffff9a0000000005",
                 "0202a000000000ffffffffff99999999990000000005"):
        yield bytes.fromhex(text)


def halves_above_9():
    # FF in one to four of the five bytes, and in all; and none
    for mixed in itertools.product(*zip(("12", "34", "56", "78", "90"), ["ff"] * 5)):
        yield from at_pads("".join(mixed), 3)
    # each half byte above 9 at each place, beside zeros and beside the digits of the largest code; each other half byte in a
    # blank pad
    for place, letter in itertools.product(range(10), LETTERS):
        yield with_pads(2, 2, {0: with_half("0" * 10, place, letter)})
        yield with_pads(2, 2, {3: with_half("%d" % LARGEST, place, letter)})
    for place, half in itertools.product(range(10), "09ae"):
        yield with_pads(2, 2, {1: with_half(BLANK, place, half)})
    for text in ("aaaaaaaaaa", "eeeeeeeeee", "fffffffff9", "9fffffffff", "efffffffff", "f0f0f0f0f0", "0f0f0f0f0f"):
        yield from at_pads(text)


def values():
    # zeros that lead are filling, others are not; each length; the edges of 31 and 32 bits; ten digits above the largest code
    yield packed(2, 2, ["0000000007", "0000000070", "0000000070", "0000000700"])
    yield packed(2, 2, ["0000000000", BLANK, "0000000001", "0000000000"])
    for digits in range(1, 11):
        yield from at_pads("%010d" % (10 ** (digits - 1)))
        yield from at_pads("%010d" % (10 ** digits - 1))
        yield with_pads(2, 2, {1: "%010d" % int("1234567890"[:digits]), 2: "%010d" % int("3987654321"[:digits])})
    for number in (0, 7, 70, 10, 2147483646, 2147483647, 2147483648, LARGEST - 1, LARGEST, LARGEST + 1, LARGEST + 2,
                   LARGEST + 6, 4294967300, 4300000000, 5000000000, 8589934591, 8589934592, 9999999998):
        yield from at_pads("%010d" % number)


def two_faults():
    # 17 and 3 at one pad, the half byte before and behind the digits that make the number too large
    for text in ("a999999999", "9a99999999", "99999999a9", "999999999a", "429496729a", "42949672f6", "f294967296", "a000000000",
                 "4a94967295", "999999999f", "f999999999", "0a99999999"):
        yield from at_pads(text)
    # at two pads: 3 and 17 in both orders, 3 twice, 17 twice, with a code, a blank pad or nothing between
    for one, other in itertools.product(("9999999999", "000000000a", "ffffffff00"), repeat=2):
        for first, second in ((0, 1), (0, 3), (1, 2), (2, 3)):
            yield with_pads(2, 2, {first: one, second: other})
        yield with_pads(2, 3, {0: "0000000005", 2: one, 3: other})
    # a pad's fault, and a slice that is too short or too long, or has no sound size
    for text in ("9999999999", "00000a0000"):
        for index in (0, 3):
            data = with_pads(2, 2, {index: text})
            for length in (6, 7, 8, 21):
                yield data[:length]
            yield data + b"\x00"
            for height, width in ((1, 2), (2, 1), (17, 2), (2, 17), (1, 4), (4, 1), (0, 255)):
                yield bytes([height, width]) + data[2:]


def lengths():
    # 0 to 2 bytes; one byte short of a pad's end, at it and one byte past it; the whole, and more
    for height, width, ends in ((2, 2, (1, 2, 3)), (2, 3, (1, 2, 3, 4, 5)), (3, 2, (1, 2, 3, 4, 5)), (16, 16, (1, 15, 16, 255))):
        data = good(height, width)
        for end in ends:
            for length in (1 + 5 * end, 2 + 5 * end, 3 + 5 * end):
                yield data[:length]
        for length in (0, 1, 2, 3, len(data) - 1, len(data)):
            yield data[:length]
        for behind in (b"\x00", b"\xff" * 5):
            yield data + behind
    data = good(2, 2)
    for behind in (b"\x0a", b"\xff", b"\x12" * 4, b"\x00" * 5, b"\xaa" * 5, b"\xff" * 6, b"\xff" * 10, b"\xff" * 256, data[2:]):
        yield data + behind
    yield good(2, 16)
    yield good(16, 2)
    yield good(3, 5)
    for last in ("%d" % LARGEST, "429496729a"):
        yield packed(16, 16, ["%d" % LARGEST] * 255 + [last])


def sizes():
    # H and W sound and not, with a slice that is short, whole and long for them, if that is not too long
    for height, width in itertools.product((0, 1, 2, 16, 17, 255), repeat=2):
        head, pad = bytes([height, width]), bytes(5)
        yield head
        yield head + b"\xff"
        if height * width > 1:
            yield head + pad
        if height * width <= 34:
            yield head + pad * (height * width)
            yield head + pad * (height * width) + b"\x00"
    for height, width in ((16, 17), (17, 16), (2, 255)):
        yield bytes([height, width]) + b"\xff" * (5 * height * width)
    # H alone
    for height in (0, 1, 16, 17, 255):
        yield bytes([height])
    # the two exchanged
    for height, width in ((2, 3), (3, 2), (2, 4), (4, 2), (3, 5)):
        data = good(height, width)
        yield bytes([width, height]) + data[2:]


def damaged(chance):
    """A good slice with none to three changes."""
    texts = [BLANK, "0000000000", "0000000007", "2147483648", "%d" % LARGEST]
    odd = ["%d" % (LARGEST + 1), "9999999999", "99999999a0", "ffffffff00", "000000000a", "a000000000", "fffffffffe", BLANK]
    height, width = chance.choice([2, 2, 3, 3, 4]), chance.choice([2, 2, 3, 3, 4])
    data = bytearray(packed(height, width, [chance.choice(texts) for _ in range(height * width)]))
    for _ in range(chance.choice([0, 1, 1, 1, 2, 2, 3])):
        pad = 2 + 5 * chance.randrange(height * width)
        kind = chance.randrange(8)
        if kind == 0:
            del data[pad + chance.randint(-1, 1):]
        elif kind == 1:
            data += bytes([chance.choice([0, 9, 255])]) * chance.choice([1, 4, 5, 6])
        elif kind == 2 and len(data) > 1:
            data[chance.randrange(2)] = chance.choice([0, 1, 2, 3, 4, 16, 17, 255])
        elif kind == 3 and data:
            data[chance.randrange(len(data))] = chance.randrange(256)
        elif len(data) >= pad + 5:
            data[pad:pad + 5] = bytes.fromhex(chance.choice(odd))
    return bytes(data)


def cases():
    for part in (known, halves_above_9, values, two_faults, lengths, sizes):
        yield from part()
    chance = random.Random(4711)
    for _ in range(600):
        yield damaged(chance)


def main():
    slices = list(dict.fromkeys(cases()))
    write_cases(sys.argv[1], slices, [answer(data) for data in slices], 60000)


if __name__ == "__main__":
    main()

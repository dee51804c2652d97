#!/usr/bin/env python3
"""Prints what the program crates/both_engines must print: both engines, the search and the slow walk, on grids up to 3 by 3.

Run from the root of the repository:

    python3 oracle/both_engines.py

The sizes are 2 by 2, 2 by 3, 3 by 2 and 3 by 3, in this order, and each has one line: how many grids were taken, on how many of
them both engines gave the same list, and the sums of the layouts, of the boards that the search visited and of the codes that the
walk tried.

The grids of a size: each pad has a kind, 0 for blank, 1 for a hole and 2 + c for the code c, and c is at most the number of
different codes at earlier pads. So codes are numbered by their first pads, and every grid is there once, up to other names for its
codes. The kinds ascend, pad 0 first, the last pad changing fastest, and the grids are numbered from 0. Every grid is taken; of 3 by
3 those whose number leaves 151 when it is divided by 1499. (Number 151 is the blank field with a hole in its middle: on no other grid
of that size does the rule against loops alone decide.)

Nothing here comes from the program. The search is that of holes.py, with its visited boards. The walk's list is made by trying
every drawing by the rules of document 01 and order 4, and the search must give the same, byte for byte. What a drawing is by itself
(the lines at its pads, the ends of its chains, loops, full squares, open corners) is found once for each size; a grid is then asked
whether it fits. The tried codes are the same for every grid of a size: one for each beginning of a drawing that ends at a pad. They
are counted once more by giving codes one by one.
"""
import itertools
import sys

sys.dont_write_bytecode = True
from holes import BLANK, HOLE, LINE, NO_LAYOUT, NONE, solve

# each size with how many grids it has, and which of them are taken: those whose number, divided by the last but one, leaves the last
SIZES = [(2, 2, 151, 1, 0), (2, 3, 3263, 1, 0), (3, 2, 3263, 1, 0), (3, 3, 562595, 1499, 151)]


def kinds(pads, codes=0):
    """The kinds of so many pads, behind pads with so many different codes."""
    if pads == 0:
        yield ()
        return
    for kind in range(codes + 3):
        for rest in kinds(pads - 1, codes + (kind == codes + 2)):
            yield (kind, *rest)


def cells(grid):
    """The cells of a grid that is told by its kinds."""
    return [(BLANK, HOLE)[kind] if kind < 2 else kind - 2 for kind in grid]


def codes_of(height, width, pad):
    """The codes of a pad that have no line off the board, ascending."""
    row, column = divmod(pad, width)
    return [code for code in range(4) if (code % 2 == 0 or column < width - 1) and (code // 2 == 0 or row < height - 1)]


def drawings(height, width):
    """Every drawing, as the codes of its pads, ascending."""
    return itertools.product(*[codes_of(height, width, pad) for pad in range(height * width)])


def tried_codes(height, width):
    """The codes that a whole walk tries: for each pad, the product of the numbers of codes up to it."""
    numbers = [len(codes_of(height, width, pad)) for pad in range(height * width)]
    return sum(itertools.accumulate(numbers, lambda one, other: one * other))


def tried_one_by_one(height, width, pad=0):
    """The same, each code counted when it is given to its pad."""
    if pad == height * width:
        return 0
    return sum(1 + tried_one_by_one(height, width, pad + 1) for _ in codes_of(height, width, pad))


def lines_of(width, codes):
    """The lines of a drawing, each as the two pads that it joins."""
    rights = [(pad, pad + 1) for pad, code in enumerate(codes) if code % 2]
    return rights + [(pad, pad + width) for pad, code in enumerate(codes) if code // 2]


def record(height, width, codes):
    """The bytes of a drawing, row by row of the field."""
    field = [[0] * (2 * width - 1) for _ in range(2 * height - 1)]
    for pad, code in enumerate(codes):
        row, column = divmod(pad, width)
        if column < width - 1:
            field[2 * row][2 * column + 1] = LINE if code % 2 else NONE
        if row < height - 1:
            field[2 * row + 1][2 * column] = LINE if code // 2 else NONE
    return [byte for line in field for byte in line]


def chain_ends(lines):
    """The two ends of each chain, for pads that have at most two lines each; no ends at all where lines close a loop."""
    ends = {}
    for one, other in lines:
        if ends.get(one) == other:
            return None
        first, last = ends.get(one, one), ends.get(other, other)
        ends[first], ends[last] = last, first
    joined = [pad for line in lines for pad in line]
    return [(pad, ends[pad]) for pad in sorted(ends) if joined.count(pad) == 1 and pad < ends[pad]]


def full_square(height, width, lines):
    """Whether a unit square has more than two lines."""
    for row, column in itertools.product(range(height - 1), range(width - 1)):
        pad = row * width + column
        sides = (pad, pad + 1), (pad, pad + width), (pad + 1, pad + width + 1), (pad + width, pad + width + 1)
        if sum(side in lines for side in sides) > 2:
            return True
    return False


def open_corners(width, lines):
    """The pads diagonally below a corner, on its side, that have not the same two lines."""
    for one, below in lines:
        if below == one + width:
            for side in (-1, 1):
                has = [tuple(sorted((pad, pad + side))) in lines and (pad, pad + width) in lines for pad in (one, below + side)]
                if has == [True, False]:
                    yield below + side


class Drawing:
    """What a drawing is by itself, whatever the grid."""

    def __init__(self, height, width, codes):
        lines = lines_of(width, codes)
        self.record = record(height, width, codes)
        self.lines = len(lines)
        self.at_pads = [sum(pad in line for line in lines) for pad in range(height * width)]
        self.ends = chain_ends(lines) if max(self.at_pads) <= 2 else None
        self.full_square = full_square(height, width, lines)
        self.open_corners = list(open_corners(width, lines))

    def may_be_listed(self):
        """Whether it is listed on any grid at all."""
        return self.ends is not None and not self.full_square

    def is_listed(self, cells):
        """Whether it is listed on a grid: lines at pads, chains, corners."""
        right = {BLANK: (0, 2), HOLE: (0,)}
        if not all(lines in right.get(cell, (1,)) for lines, cell in zip(self.at_pads, cells)):
            return False
        return all(cells[one] == cells[other] for one, other in self.ends) and all(cells[pad] != BLANK for pad in self.open_corners)


def walk(candidates, cells):
    """The layouts of a grid and their fewest lines, by trying every drawing that may be listed at all."""
    found = [drawing for drawing in candidates if drawing.is_listed(cells)]
    return [byte for drawing in found for byte in drawing.record], len(found), min((one.lines for one in found), default=NO_LAYOUT)


def search(height, width, cells):
    """The same by the search of holes.py, and the visited boards."""
    buffer = [0] * (64 * (2 * height - 1) * (2 * width - 1))
    number, index, outcome, layouts, visited, fewest = solve(height, width, cells, 10 ** 9, buffer)
    assert (number, index, outcome) == (0, 0, 0), cells
    return (buffer[:layouts * (2 * height - 1) * (2 * width - 1)], layouts, fewest), visited


def line(height, width, there_are, divisor, rest):
    all_drawings = [Drawing(height, width, codes) for codes in drawings(height, width)]
    candidates = [drawing for drawing in all_drawings if drawing.may_be_listed()]
    tried = tried_codes(height, width)
    assert tried == tried_one_by_one(height, width)
    numbers = grids = equal = layouts = visited = 0
    for number, grid in enumerate(kinds(height * width)):
        numbers += 1
        if number % divisor == rest:
            found, boards = search(height, width, cells(grid))
            walked = walk(candidates, cells(grid))
            assert walked == found, grid
            grids, equal = grids + 1, equal + (walked == found)
            layouts, visited = layouts + walked[1], visited + boards
    assert numbers == there_are, numbers
    return "%d by %d: %d grids, %d equal, layouts %d, visited %d, tried %d" % (
        height, width, grids, equal, layouts, visited, grids * tried)


def main():
    for size in SIZES:
        print(line(*size), flush=True)


if __name__ == "__main__":
    main()

"""What is set beside the board and search of holes.py: wrong versions of them, and the proved library.

    python3 oracle/holes.py slips
    python3 oracle/holes.py compare LIBRARY CASES SEED [SLIP]

**slips** prints for each sequence of holes.py the wrong versions that it tells apart.

**compare** makes CASES board calls and a tenth as many searches on random grids with holes, here and in the library, and
compares all that comes back: number, answer, flag, edges and ends after each call; the result of a search and every byte of
its buffer. The first difference ends it, made smaller and printed; the exit status is then 1. With the name of a slip the
wrong version takes the place of this program, to see that it is found. The library is made by

    rt staticlib hunekowha
    gcc -shared -o LIBRARY -Wl,--whole-archive crates/hunekowha/out/libhunekowha.a -Wl,--no-whole-archive
"""
import ctypes
import itertools
import random
import sys

from holes import (BLANK, Board, CHECKPOINT, HOLE, LARGEST_CODE, LINE, NEW, NONE, Search, SEQUENCES, UNDO, call, grid,
                   read_calls, refusal, replay, solve)


def version(**methods):
    return type("Wrong", (Board,), methods)


def holes_of(board):
    return [pad for pad, cell in enumerate(board.cells) if cell == HOLE]


def preparing(order="LRUD", backward=False, stop="never"):
    """A preparing with the sides or the holes in another order, or one that stops at the flag."""
    def prepare(board):
        for pad in reversed(holes_of(board)) if backward else holes_of(board):
            y, x = 2 * (pad // board.width), 2 * (pad % board.width)
            named = {(y, x - 1): "L", (y, x + 1): "R", (y - 1, x): "U", (y + 1, x): "D"}
            for place in sorted((place for place, _ in board.around[pad]), key=lambda place: order.index(named[place])):
                if board.flag and stop == "for good":
                    return
                if board.flag and stop == "at this hole":
                    break
                board.decide(place, NONE)
    return prepare


def storing(checks, first):
    """A preparing that stores none at the holes' edges, over what stands there, and then checks their pads or not."""
    def prepare(board):
        first(board)
        sides = [(pad, place, beyond) for pad in holes_of(board) for place, beyond in board.around[pad]]
        for _, place, _ in sides:
            board.edge[place] = NONE
        for pad, _, beyond in sides if checks else []:
            board.check(min(pad, beyond))
            board.check(max(pad, beyond))
    return prepare


def cleared(method, when=lambda board: True):
    """A method after which the flag is clear."""
    def wrong(board):
        clears = when(board)
        method(board)
        board.flag = board.flag and not clears
    return wrong


def holes_blank(method, sides):
    """A method of one corner or bar to whom holes are blank, on the given sides."""
    def wrong(board, row, column, side):
        own = board.cells
        if side in sides:
            board.cells = [BLANK if cell == HOLE else cell for cell in own]
        answer = method(board, row, column, side)
        board.cells = own
        return answer
    return wrong


def word(number):
    """What is left of a number in a signed word of 32 bits."""
    return (number + 2 ** 31) % 2 ** 32 - 2 ** 31


def word_end(board, end):
    """The end as it is in a word, where that is an end of this board too."""
    return word(end) if word(end) < len(board.cells) else end


class WordCells(Board):
    """Cells are kept in words: the two largest codes are a hole and a blank pad."""

    def __init__(self, height, width, cells):
        super().__init__(height, width, [word(cell) if word(cell) in (BLANK, HOLE) else cell for cell in cells])


class Unsealed(Board):
    """Undo goes behind the preparing."""

    def __init__(self, *size):
        self.steps = []
        super().__init__(*size)
        self.history = self.steps

    def prepare(self):
        super().prepare()
        self.steps = self.history


class SearchFlagged(Search):
    """A flagged board is searched."""

    def run(self):
        self.backtrack(*self.next_pad(0, 0))


class SearchFirst(Search):
    """The search starts at pad (0, 0), whatever its right edge is."""

    def run(self):
        if not self.board.flag:
            self.backtrack(0, 0)


SLIPS = {
    "a hole counted as a clue in the degree": version(is_clue=lambda board, pad: board.cells[pad] != BLANK),
    "a hole does not free the right corner": version(forces=holes_blank(Board.forces, (1,))),
    "a hole does not free the left corner": version(forces=holes_blank(Board.forces, (-1,))),
    "a hole does not end a right bar": version(barred=holes_blank(Board.barred, (1,))),
    "a hole does not end a left bar": version(barred=holes_blank(Board.barred, (-1,))),
    "a hole's end is -1": version(first_end=lambda board, pad: -1 if board.cells[pad] == HOLE else Board.first_end(board, pad)),
    "a hole's end is 0": version(first_end=lambda board, pad: 0 if board.cells[pad] == HOLE else Board.first_end(board, pad)),
    "cells kept in 32 bits": WordCells,
    "ends of fresh boards kept in 32 bits": version(first_end=lambda board, pad: word_end(board, Board.first_end(board, pad))),
    "ends of fresh boards held at the least of 32 bits": version(
        first_end=lambda board, pad: max(Board.first_end(board, pad), -2 ** 31)),
    "ends of joined chains kept in 32 bits": version(
        set_end=lambda board, pad, end: Board.set_end(board, pad, word_end(board, end))),
    "codes told apart by 31 bits": version(
        first_end=lambda board, pad: -(board.cells[pad] % 2 ** 31) - 2 if board.is_clue(pad) else pad),
    "a code of 32 bits is no clue in the degree": version(is_clue=lambda board, pad: word(board.cells[pad]) >= 0),
    "the largest code does not free a corner": version(
        is_blank=lambda board, row, column: word(board.cells[row * board.width + column]) == BLANK),
    "holes are not checked": version(
        check=lambda board, pad: board.flag if board.cells[pad] == HOLE else Board.check(board, pad)),
    "holes left unprepared": version(prepare=lambda board: None),
    "none stored at holes without a decision": version(prepare=storing(False, lambda board: None)),
    "none stored at all holes before the first check": version(prepare=storing(True, lambda board: None)),
    "a line at a hole taken away": version(prepare=storing(False, Board.prepare)),
    "preparing stops at the flag": version(prepare=preparing(stop="for good")),
    "a hole is left at the flag for the next": version(prepare=preparing(stop="at this hole")),
    "a decision on a flagged board changes nothing": version(
        decide=lambda board, place, state: board.flag or Board.decide(board, place, state)),
    "holes in descending order": version(prepare=preparing(backward=True)),
    "the fresh board's flag is clear": version(prepare=cleared(Board.prepare)),
    "undo goes behind the preparing": Unsealed,
    "undo always clears the flag": version(undo=cleared(Board.undo)),
    "undo to the fresh board clears the flag": version(
        undo=cleared(Board.undo, lambda board: all(entry[0] != "checkpoint" for entry in board.history))),
    **{"sides in the order " + "".join(order): version(prepare=preparing("".join(order)))
       for order in itertools.permutations("LRUD") if order != tuple("LRUD")},
    "a flagged board is searched": SearchFlagged,
    "the search starts at pad (0, 0)": SearchFirst,
}


def slips():
    for title, rows, line in SEQUENCES:
        right = list(replay(*grid(rows), read_calls(line)))
        boards = {name: slip for name, slip in SLIPS.items() if issubclass(slip, Board)}
        told = [name for name, slip in boards.items() if list(replay(*grid(rows), read_calls(line), slip)) != right]
        print("%s (%s): %s" % (title, rows, "; ".join(told)))


def random_chain(rng, free, width):
    """A walk over free pads, which it takes."""
    chain = [rng.choice(sorted(free))]
    while True:
        free.discard(chain[-1])
        row, column = divmod(chain[-1], width)
        near = [(row, column - 1), (row, column + 1), (row - 1, column), (row + 1, column)]
        onward = [y * width + x for y, x in near if 0 <= x < width and y * width + x in free]
        if not onward or rng.random() < 0.2:
            return chain
        chain.append(rng.choice(onward))


BAD_CELLS = (-3, -4, -2 ** 31, -2 ** 32 - 2, -2 ** 32 - 1, -2 ** 32, -2 ** 32 + 5, -2 ** 63, -2 ** 63 + 1,
             LARGEST_CODE + 1, LARGEST_CODE + 2, 2 ** 32 + 5, 2 ** 33 - 2, 2 ** 33 - 1, 2 ** 63 - 1)


def wide_code(rng, other):
    """A code at an edge of 31 or 32 bits, one that 31 bits do not tell from the other, one whose end is a pad in 32 bits, or any."""
    edges = [edge + step for edge in (2 ** 31, 2 ** 32 - 2) for step in (-2, -1, 0, 1)]
    return rng.choice((rng.choice(edges), other ^ 2 ** 31, 2 ** 32 - 2 - rng.randrange(256), rng.randrange(2 ** 32)))


def renamed(rng, cells):
    """The cells with other codes: equal ones stay equal, and no others become so."""
    names, name = {BLANK: BLANK, HOLE: HOLE}, 0
    for cell in cells:
        while cell not in names:
            name = wide_code(rng, name)
            if name not in names.values():
                names[cell] = name
    return [names[cell] for cell in cells]


def random_grid(rng, largest):
    """A grid with holes: codes strewn over it, or chains laid around the holes. One of three has its codes renamed; one of a hundred
    has a cell that is declined."""
    height, width = rng.randint(2, largest), rng.randint(2, largest)
    holes, clues, codes = rng.random() / 2, rng.random() / 2, rng.choice((1, 2, 3, 9))
    cells = [HOLE if rng.random() < holes else BLANK for _ in range(height * width)]
    cells[rng.randrange(height * width)] = HOLE
    free = {pad for pad, cell in enumerate(cells) if cell == BLANK}
    if rng.random() < 0.4:
        cells = [rng.randrange(codes) if cell == BLANK and rng.random() < clues else cell for cell in cells]
    else:
        for _ in range(rng.randint(1, height * width)):
            chain = random_chain(rng, free, width) if free else []
            if len(chain) > 1:
                cells[chain[0]] = cells[chain[-1]] = rng.choice((rng.randrange(codes), LARGEST_CODE))
    if rng.random() < 0.33:
        cells = renamed(rng, cells)
    if rng.random() < 0.01:
        cells[rng.randrange(height * width)] = rng.choice(BAD_CELLS)
    return height, width, cells


def random_calls(rng, height, width, cells):
    """Calls of every kind, some declined. A careful sequence undoes what has set the flag; the others go on."""
    board = Board(2, 2, [BLANK] * 4) if refusal(cells)[0] else Board(height, width, cells)
    careful, line, few = rng.random() < 0.5, rng.random(), rng.random() < 0.99
    calls = [(NEW, 0, 0, 0)] + ([] if few else [(CHECKPOINT, 0, 0, 0)] * 255)
    for _ in range(rng.randint(1, 60)):
        kind = UNDO if careful and board.flag and rng.random() < 0.7 else rng.choices(range(5), (1, 60, 15, 12, 12 if few else 1))[0]
        row = rng.randrange(2 * height - 1)
        column = rng.randrange((row + 1) % 2, 2 * width - 1, 2) if rng.random() < 0.97 else rng.randrange(2 * width)
        state = rng.randrange(5) if rng.random() < 0.03 else LINE if rng.random() < line else NONE
        calls.append((kind, row, column, state))
        if kind != NEW:
            call(board, *calls[-1])
    return calls


class Library:
    """The proved library, through the functions of hunekowha.h. What is lent has the fill 7."""

    def __init__(self, path):
        self.library = ctypes.CDLL(path)

    def ask(self, name, height, width, cells, *lent):
        """Calls a function. What is lent is a kind of number and its numbers; it comes back, without the cells, as it is after the call."""
        arguments, slices = [ctypes.c_size_t(height), ctypes.c_size_t(width)], []
        for one in ((ctypes.c_int64, cells), *lent):
            if isinstance(one, int):
                arguments.append(ctypes.c_uint64(one))
            else:
                slices.append((one[0] * max(len(one[1]), 1))(*one[1]))
                arguments += [slices[-1], ctypes.c_size_t(len(one[1]))]
        function = getattr(self.library, name)
        function.restype = ctypes.c_size_t
        return [function(*arguments)] + [list(numbers) for numbers in slices[1:]]

    def replay(self, size, calls, length):
        """How many numbers came back, and the lent answer, three numbers longer than it need be."""
        numbers, room = [number for one in calls for number in one], [7] * (length + 3)
        count, _, answer = self.ask("hunekowha_replay", *size, (ctypes.c_uint64, numbers), (ctypes.c_int64, room))
        return [count, answer]

    def solve(self, size, limit, room):
        """How many numbers came back, the lent buffer, and the lent answer, two numbers longer than it need be."""
        return self.ask("hunekowha_solve", *size, limit, (ctypes.c_uint8, [7] * room), (ctypes.c_uint64, [7] * 8))


def text(height, width, cells):
    fields = [{BLANK: "", HOLE: "#"}.get(cell, str(cell)) for cell in cells]
    return "/".join(",".join(fields[row * width:(row + 1) * width]) for row in range(height))


def boards_differ(library, size, calls, version_of):
    here = [number for seen in replay(*size, calls, version_of) for number in seen]
    return library.replay(size, calls, len(here)) != [len(here), here + [7] * 3]


def searches_differ(library, size, limit, room, versions):
    buffer = [7] * room
    here = solve(*size, limit, buffer, versions)
    return library.solve(size, limit, room) != [6, buffer or [0], here + [7] * 2]


def smaller(size, calls, differ):
    """The calls and cells of a case, as few as still differ."""
    again = True
    while again:
        again = False
        for i in reversed(range(len(calls))):
            fewer = calls[:i] + calls[i + 1:]
            if differ(size, fewer):
                calls, again = fewer, True
        for i, cell in enumerate(size[2]):
            plainer = (*size[:2], size[2][:i] + [BLANK] + size[2][i + 1:])
            if cell != BLANK and differ(plainer, calls):
                size, again = plainer, True
    return text(*size), calls


def compare(path, cases, seed, slip=None):
    wrong = SLIPS.get(slip, Board)
    versions = (wrong, Search) if issubclass(wrong, Board) else (Board, wrong)
    library, rng, made, searched, layouts = Library(path), random.Random(int(seed)), 0, 0, 0
    while made < int(cases):
        size = random_grid(rng, rng.choice((3, 4, 5, 6, 6, 16)))
        calls = random_calls(rng, *size)
        if boards_differ(library, size, calls, versions[0]):
            return print("a board differs:", *smaller(size, calls, lambda s, c: boards_differ(library, s, c, versions[0]))) or 1
        made += len(calls)
    while searched < int(cases) // 10:
        size = random_grid(rng, 6)
        full = solve(*size, 3000, [7] * 40 * (4 * size[0] * size[1]))
        record = (2 * size[0] - 1) * (2 * size[1] - 1)
        for limit, room in ((3000, full[3] * record), (rng.randint(0, full[4] + 1), rng.randint(0, full[3] * record + 9))):
            if searches_differ(library, size, limit, room, versions):
                return print("a search differs:", text(*size), "limit", limit, "room", room) or 1
            searched, layouts = searched + 1, layouts + full[3]
    print("%d board calls, %d searches of grids with %d layouts: no difference" % (made, searched, layouts))
    return 0


def main(command, *arguments):
    sys.exit({"slips": slips, "compare": compare}[command](*arguments))

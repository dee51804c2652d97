#!/usr/bin/env python3
"""A second board and search for grids with holes, to hold the definitions and the proved library against.

The Rust knows no holes, so the judge of grids with holes is this program. It rests on document 01, on orders 4 and 6 of document
02 and, for the order in which things happen, on the reference's board.rs and solver.rs; it was written from these, and not from
the definitions or the code of this repository. On grids without holes it is the Rust written again, with numbers of any width.

    python3 oracle/holes.py known [FILE..]              the known grids K1 to K8, and files of grids with their lists
    python3 oracle/holes.py sequences                   the sequences below: what each call answers, and what the board then shows
    python3 oracle/holes.py slips                       which wrong versions each sequence tells apart
    python3 oracle/holes.py compare LIBRARY CASES SEED  the proved library beside this program

A grid is written as its rows parted by /, with # for a hole. The sequences stand as facts of the model, in SecondSequences.antt;
the last one has no hole, but codes about which the Rust cannot be asked as they stand. The last two commands are in holes_beside.py.
"""
import sys

sys.setrecursionlimit(20000)
sys.dont_write_bytecode = True
UNDECIDED, LINE, NONE = 0, 1, 2
BLANK, HOLE = -1, -2
LARGEST_CODE, CHECKPOINTS, NO_LAYOUT = 4294967295, 256, 481


def corner_edges(row, column, side):
    """The two edges of a pad's corner: to one side (1 right, -1 left), and down."""
    return (2 * row, 2 * column + side), (2 * row + 1, 2 * column)


class Board:
    """The board of a grid. Edges are named by their places, pads by their indices."""

    def __init__(self, height, width, cells):
        self.height, self.width, self.cells = height, width, cells
        self.edge = {(y, x): UNDECIDED for y in range(2 * height - 1) for x in range(2 * width - 1) if (y + x) % 2}
        self.end = [self.first_end(pad) for pad in range(height * width)]
        self.flag, self.history = False, []
        self.around = [self.neighbours(*divmod(pad, width)) for pad in range(height * width)]
        self.prepare()
        self.history = []

    def first_end(self, pad):
        return pad if self.cells[pad] in (BLANK, HOLE) else -self.cells[pad] - 2

    def neighbours(self, row, column):
        """The edges at a pad, each with the pad beyond it: left, right, up, down."""
        pad, y, x = row * self.width + column, 2 * row, 2 * column
        sides = ((y, x - 1), pad - 1), ((y, x + 1), pad + 1), ((y - 1, x), pad - self.width), ((y + 1, x), pad + self.width)
        return [side for side in sides if side[0] in self.edge]

    def prepare(self):
        """Puts the edges at holes to `decide` as none, whatever comes of it."""
        for pad in range(len(self.cells)):
            if self.cells[pad] == HOLE:
                for place, _ in self.around[pad]:
                    self.decide(place, NONE)

    def is_clue(self, pad):
        return self.cells[pad] >= 0

    def is_blank(self, row, column):
        return self.cells[row * self.width + column] == BLANK

    def barred(self, row, column, side):
        """Whether a pad and all pads on its diagonal, down and to one side, are blank."""
        while row < self.height and 0 <= column < self.width and self.is_blank(row, column):
            row, column = row + 1, column + side
        return not (row < self.height and 0 <= column < self.width)

    def set_flag(self):
        if not self.flag:
            self.history.append(("flag", None, False))
        self.flag = True
        return True

    def set_end(self, pad, end):
        self.history.append(("end", pad, self.end[pad]))
        self.end[pad] = end

    def checkpoint(self):
        self.history.append(("checkpoint", None, None))

    def undo(self):
        while self.history:
            kind, at, old = self.history.pop()
            if kind == "checkpoint":
                return
            if kind == "edge":
                self.edge[at] = old
            elif kind == "end":
                self.end[at] = old
            else:
                self.flag = old

    def decide(self, place, state):
        """Decides an edge and gives the flag, as `decide_edge` does."""
        if self.edge[place] != UNDECIDED:
            return self.set_flag() if self.edge[place] != state else self.flag
        self.history.append(("edge", place, UNDECIDED))
        self.edge[place] = state
        y, x = place
        pads = [y // 2 * self.width + x // 2, (y + 1) // 2 * self.width + (x + 1) // 2]
        if state == LINE:
            ends = [self.end[pad] for pad in pads]
            if not self.join(pads, ends) or self.clear_squares(y, x) or self.force_corners(y, x) or self.keep_bars(y, x):
                return True
            pads += [end for end in ends if end >= 0]
        return any(self.check(pad) for pad in pads) or self.flag

    def join(self, pads, ends):
        """Joins the chains that end at the pads of a line (step c), or sets the flag and gives no."""
        (first, second), (a, b) = pads, ends
        if a == -1 or b == -1 or (a < 0 and b < 0 and a != b) or a == second:
            self.set_flag()
            return False
        for pad, end in ((first, -1), (second, -1), (a, b), (b, a)):
            if pad >= 0:
                self.set_end(pad, end)
        return True

    def clear_squares(self, y, x):
        """Step d: the upper (left) square first, and in it the two sides, then the edge opposite."""
        for s in (-1, 1):
            beside = [(y + s, x - 1), (y + s, x + 1), (y + 2 * s, x)] if y % 2 == 0 else [(y - 1, x + s), (y + 1, x + s), (y, x + 2 * s)]
            if beside[2] in self.edge:
                for line in beside:
                    if self.edge[line] == LINE and any(self.decide(other, NONE) for other in beside if other != line):
                        return True
        return False

    def corners(self, y, x):
        """The corners that an edge can complete: of the two pads of a right edge, of the first pad of a downward one."""
        row, column = y // 2, x // 2
        return [(row, column, 1), (row, column + 1, -1)] if y % 2 == 0 else [(row, column, -1), (row, column, 1)]

    def forces(self, row, column, side):
        """Whether a pad has both lines of a corner, over a blank pad."""
        return all(self.edge.get(place) == LINE for place in corner_edges(row, column, side)) and self.is_blank(row + 1, column + side)

    def force_corners(self, y, x):
        """Step e, its first half. Both forced lines are tried; only a line off the board ends the decision."""
        for row, column, side in self.corners(y, x):
            if self.forces(row, column, side):
                forced = corner_edges(row + 1, column + side, side)
                if not all(place in self.edge for place in forced):
                    return self.set_flag()
                for place in forced:
                    self.decide(place, LINE)
        return False

    def keep_bars(self, y, x):
        """Step e, its second half."""
        for row, column, side in self.corners(y, x):
            other, = [place for place in corner_edges(row, column, side) if place != (y, x)]
            if other in self.edge and self.barred(row, column, side) and self.decide(other, NONE):
                return True
        return False

    def check(self, pad):
        """Checks a pad and gives the flag, as `check_vertex` does."""
        own = self.end[pad]
        if own <= -2:
            for place, beyond in self.around[pad]:
                if self.edge[place] == UNDECIDED and self.end[beyond] <= -2 and self.end[beyond] != own and self.decide(place, NONE):
                    return True
        states = [self.edge[place] for place, _ in self.around[pad]]
        degree, undecided = states.count(LINE) + self.is_clue(pad), states.count(UNDECIDED)
        if degree > 2 or (degree == 1 and undecided == 0):
            return self.set_flag()
        if undecided > 0 and (undecided == 1 or degree >= 2):
            return self.decide(self.around[pad][states.index(UNDECIDED)][0], LINE if degree == 1 else NONE)
        return self.flag

    def record(self):
        return [self.edge.get((y, x), 0) for y in range(2 * self.height - 1) for x in range(2 * self.width - 1)]


class Search:
    """The search of a grid from its board, with a limit and a lent buffer."""

    def __init__(self, board, limit, buffer):
        self.board, self.limit, self.buffer = board, limit, buffer
        self.size = len(board.record())
        self.outcome, self.layouts, self.visited, self.fewest = 0, 0, 0, NO_LAYOUT
        self.run()

    def run(self):
        if not self.board.flag:
            self.backtrack(*self.next_pad(0, 0))

    def next_pad(self, row, column):
        """The next pad with an undecided right edge, or one in the last row."""
        while row < self.board.height - 1 and self.board.edge[2 * row, 2 * column + 1] != UNDECIDED:
            row, column = (row + 1, 0) if column == self.board.width - 2 else (row, column + 1)
        return row, column

    def backtrack(self, row, column):
        """One entry and all below it; no where the limit is spent or the buffer full."""
        if self.visited == self.limit:
            self.outcome = 1
            return False
        self.visited += 1
        if row == self.board.height - 1:
            return self.add_layout()
        board, right_edge, down_edge = self.board, *corner_edges(row, column, 1)
        degree = board.is_clue(row * board.width + column) + sum(
            board.edge.get(place) == LINE for place in ((2 * row, 2 * column - 1), (2 * row - 1, 2 * column)))
        for m in range(4):
            right, down = m % 2, m // 2
            if degree + right + down in (0, 2):
                board.checkpoint()
                board.decide(right_edge, LINE if right else NONE)
                board.decide(down_edge, LINE if down else NONE)
                goes_on = board.flag or self.backtrack(*self.next_pad(row, column))
                board.undo()
                if not goes_on:
                    return False
        return True

    def add_layout(self):
        record, at = self.board.record(), self.layouts * self.size
        if len(self.buffer) - at < self.size:
            self.outcome = 2
            return False
        self.buffer[at:at + self.size] = record
        self.layouts += 1
        self.fewest = min(self.fewest, record.count(LINE))
        return True


def grid(text):
    """The height, the width and the cells of a grid written as text."""
    rows = [row.split(",") for row in text.split("/")]
    return len(rows), len(rows[0]), [{"": BLANK, "#": HOLE}.get(f) or int(f) for row in rows for f in row]


def refusal(cells):
    """The number and the index of the first bad cell, or 0, 0."""
    return next(((9, i) for i, cell in enumerate(cells) if cell < HOLE or cell > LARGEST_CODE), (0, 0))


def solve(height, width, cells, limit, buffer, versions=None):
    """Fills the buffer and gives number, index, outcome, layouts, visited and fewest."""
    if refusal(cells)[0]:
        return [*refusal(cells), 0, 0, 0, NO_LAYOUT]
    board, search = versions or (Board, Search)
    done = search(board(height, width, cells), limit, buffer)
    return [0, 0, done.outcome, done.layouts, done.visited, done.fewest]


def listed(height, width, cells, versions=None):
    """The list of a grid as `layouts,visited,fewest,outcome codes..`."""
    size = (2 * height - 1) * (2 * width - 1)
    buffer = [0] * (64 * size)
    _, _, outcome, layouts, visited, fewest = solve(height, width, cells, 10 ** 6, buffer, versions)
    codes = ["%d,%d,%d,%d" % (layouts, visited, fewest, outcome)]
    for k in range(layouts):
        lines = {divmod(i, 2 * width - 1) for i in range(size) if buffer[k * size + i] == LINE}
        pads = [corner_edges(*divmod(pad, width), 1) for pad in range(height * width)]
        codes.append("".join(str((right in lines) + 2 * (down in lines)) for right, down in pads))
    return " ".join(codes)


NEW, DECIDE, READ, CHECKPOINT, UNDO = range(5)


def call(board, kind, row, column, state):
    """Makes a call other than NEW on a board and gives its number and answer."""
    if kind in (DECIDE, READ) and (row, column) not in board.edge:
        return 10, 0
    if kind == DECIDE:
        return (0, int(board.decide((row, column), state))) if state in (LINE, NONE) else (11, 0)
    if kind == READ:
        return 0, board.edge[row, column]
    if kind == UNDO:
        board.undo()
        return 0, 0
    if sum(entry[0] == "checkpoint" for entry in board.history) == CHECKPOINTS:
        return 12, 0
    board.checkpoint()
    return 0, 0


def replay(height, width, cells, calls, version=Board):
    """What each call gives: number, answer, flag, edges and ends."""
    grid_of_board = (2, 2, [BLANK] * 4) if refusal(cells)[0] else (height, width, cells)
    board = version(*grid_of_board)
    for kind, row, column, state in calls:
        if kind == NEW:
            board = version(*grid_of_board)
        number, answer = refusal(cells) if kind == NEW else call(board, kind, row, column, state)
        yield [number, answer, int(board.flag)] + board.record() + board.end


SEQUENCES = [
    ("a clue whose only way is a line, and undo on a clear board", "0,,/#,,/,,0", "decide 2 3 1; undo; undo"),
    ("a flag set by the preparing: undo and a checkpoint keep it", "0,,/#,,/0,#,",
     "decide 1 2 1; undo; checkpoint; decide 0 3 2; decide 4 1 2; undo; undo"),
    ("a line kept at a hole", ",#/2,", "decide 1 2 2; undo"),
    ("the preparing goes on after the flag, at the same hole", ",1/0,#", "read 1 2"),
    ("left before right", ",#,/,1,", "read 2 3"),
    ("up before down", ",/#,/1,", "read 3 0"),
    ("holes in index order", "1,#/#,", "read 2 1"),
    ("a hole is no clue to its own check", ",,/,#,", "decide 1 2 1; checkpoint; decide 0 1 1; undo; undo"),
    ("corners over a hole", ",,,,/,,#,,/,,,,", "checkpoint; decide 1 2 1; decide 1 6 1; undo; decide 1 6 1; decide 1 2 1"),
    ("bars that holes end", ",,,/,,,/,,,/#,,,#", "decide 2 3 1; undo; decide 3 2 1; undo; decide 3 4 1"),
    ("the least and the largest code", "0,,0/4294967295,,4294967295",
     "checkpoint; decide 0 1 1; undo; decide 1 2 1; decide 0 1 2; undo"),
]
WORDS = ["new", "decide", "read", "checkpoint", "undo"]


def read_calls(line):
    """The calls of a line, behind the one that makes the fresh board."""
    words = [one.split() for one in ("new; " + line).split("; ")]
    return [tuple([WORDS.index(word)] + [int(n) for n in numbers] + [0] * (3 - len(numbers))) for word, *numbers in words]


def sequences():
    for title, rows, line in SEQUENCES:
        height, width, cells = grid(rows)
        print("%s\n  grid %s" % (title, rows))
        for words, seen in zip(("new; " + line).split("; "), replay(height, width, cells, read_calls(line))):
            edges = "".join(map(str, seen[3:-height * width]))
            print("  %s: answer %d, flag %d, edges %s, ends %s" % (words, seen[1], seen[2], edges, seen[-height * width:]))


KNOWN = [",/, : 1,2,0,0 0000", "5,5/, : 1,2,1,0 1000", "5,/,5 : 1,2,2,0 2010", ",5/5, : 1,2,2,0 0210",
         "5,5/5,5 : 2,3,2,0 1010 2200", "5,/,6 : 0,1,481,0", "5,/, : 0,1,481,0", ",5,/5,6,/,,6 : 1,3,4,0 300020010"]


def known(files):
    lines = [line.strip().split(" : ") for line in KNOWN + [line for name in files for line in open(name)] if " : " in line]
    wrong = [(rows, told, listed(*grid(rows))) for rows, told in lines if listed(*grid(rows)) != told]
    print("%d lists, %d wrong" % (len(lines), len(wrong)), *wrong, sep="\n")


def main(command, *arguments):
    if command == "known":
        known(arguments)
    elif command == "sequences":
        sequences()
    else:
        import holes_beside
        holes_beside.main(command, *arguments)


if __name__ == "__main__":
    sys.modules["holes"] = sys.modules["__main__"]
    main(*sys.argv[1:])

#!/usr/bin/env python3
"""Random small boards, and what calls on them must answer, by trying everything.

The boards are made here from the rules of docs/BOARDS.md, and the answers from the definitions of docs/FENCES.md: all systems
of disjoint paths, all sets of pads and all sets of cells. Nothing of the router is used, and nothing here searches cleverly.
The wired pads and the bars are those of the calls accepted so far; there is no drawing here.

    python3 tools/brute_force.py table   > crates/routing_trials/stdin
    python3 tools/brute_force.py answers < crates/routing_trials/stdin > crates/routing_trials/stdout
    python3 tools/brute_force.py count   < crates/routing_trials/stdin

A line of the table is one board: its kind, rows, columns and map, the cells that a keep-out closes, a colon, and the calls made
on it one after another, with commas between them. For each of these the answer is `ok`, the number of the refusal, or for want
of a way 12 with the pads and the cells of the fence in rising number, as `12[0 1|5]`; to a clear it is `ok` and how many bars are
left, as `ok2`. The first lines place each pad of their board, the later ones are long runs of all four calls.

Besides fields and escape boards there is one ring of six cells, where each cell leads to itself, to the next, to the one before,
and to the next once more. There outlets lead into pads, and a pad is a landing. Its map only says what its cells are.
"""

import random
import sys
from itertools import combinations

SEED = 20261118
BOARDS = 240
RINGS = 40
RUNS = 80
RING_RUNS = 30
CALLS = 50
RING = [1, 1, 2, 3, 0, 0]


def neighbours(rows, columns, layer, point):
    """The cells beside a point on its layer: north, east, south, west."""
    row, column = divmod(point, columns)
    cell = layer * rows * columns + point
    beside = []
    if row > 0:
        beside.append(cell - columns)
    if column + 1 < columns:
        beside.append(cell + 1)
    if row + 1 < rows:
        beside.append(cell + columns)
    if column > 0:
        beside.append(cell - 1)
    return beside


def field(rows, columns, bytes_):
    points = rows * columns
    is_pad = [b in (1, 3) for b in bytes_] + [False] * points
    is_landing = [False] * points + [b in (2, 3) for b in bytes_]
    outlets = []
    for cell in range(2 * points):
        layer, point = divmod(cell, points)
        down = [cell + points] if layer == 0 and bytes_[point] != 0 else []
        outlets.append([n for n in neighbours(rows, columns, layer, point) + down if not is_pad[n]])
    return outlets, is_pad, is_landing


def escape(rows, columns, bytes_):
    points = range(rows * columns)
    is_pad = [b == 1 for b in bytes_]
    on_rim = [p // columns in (0, rows - 1) or p % columns in (0, columns - 1) for p in points]
    outlets = [[n for n in neighbours(rows, columns, 0, p) if not is_pad[n]] for p in points]
    return outlets, is_pad, [on_rim[p] and not is_pad[p] for p in points]


def ring(_rows, _columns, bytes_):
    outlets = [[c, (c + 1) % 6, (c + 5) % 6, (c + 1) % 6] for c in range(6)]
    return outlets, [b in (1, 3) for b in bytes_], [b in (2, 3) for b in bytes_]


class Board:
    """The cells of a line of the table: their outlets, and which are pads and landings."""

    def __init__(self, kind, rows, columns, bytes_, kept):
        make = {"field": field, "escape": escape, "ring": ring}[kind]
        outlets, is_pad, is_landing = make(rows, columns, bytes_)
        self.cells = len(outlets)
        self.outlets = [[] if c in kept else [n for n in outlets[c] if n not in kept] for c in range(self.cells)]
        self.pads = {c for c in range(self.cells) if is_pad[c] and c not in kept}
        self.landings = {c for c in range(self.cells) if is_landing[c] and c not in kept}

    def paths(self, cell, used):
        """All paths from a cell to a landing that keep off the used cells."""

        def extend(path, on):
            last = path[-1]
            if last in self.landings:
                yield tuple(path)
            for n in self.outlets[last]:
                if n not in on:
                    path.append(n)
                    on.add(n)
                    yield from extend(path, on)
                    on.remove(n)
                    path.pop()

        if cell not in used:
            yield from extend([cell], set(used) | {cell})

    def systems(self, pads, used):
        """All systems of disjoint paths, one from each of the pads to a landing."""
        if not pads:
            yield ()
            return
        for path in self.paths(pads[0], used):
            for rest in self.systems(pads[1:], used | set(path)):
                yield (path,) + rest

    def linked(self, pads, bars):
        return next(self.systems(sorted(pads), frozenset(bars)), None) is not None

    def reached(self, pads, closed):
        """The cells that some path from one of the pads ends at, off the closed cells."""
        seen = {p for p in pads if p not in closed}
        todo = list(seen)
        while todo:
            for n in self.outlets[todo.pop()]:
                if n not in closed and n not in seen:
                    seen.add(n)
                    todo.append(n)
        return seen

    def blocks(self, pads, cells, bars):
        return not self.reached(pads, set(cells) | bars) & self.landings

    def blockers(self, pads, bars):
        """All sets of unbarred cells, one fewer than the pads, that block them."""
        unbarred = [c for c in range(self.cells) if c not in bars]
        return [set(x) for x in combinations(unbarred, len(pads) - 1) if self.blocks(pads, x, bars)]

    def fence(self, pads, bars):
        """The pads and cells of the one fence for these pads and bars, by its definition."""
        sizes = range(1, len(pads) + 1)
        groups = [set(a) for k in sizes for a in combinations(sorted(pads), k) if self.blockers(a, bars)]
        least = [a for a in groups if all(a <= b for b in groups)]
        assert len(least) == 1, (pads, groups)
        shown = least[0]
        rivals = self.blockers(sorted(shown), bars)
        nearest = [x for x in rivals if all(not self.reached(shown, x | bars) & y for y in rivals)]
        assert len(nearest) == 1, (pads, shown, rivals)
        return shown, nearest[0]


def read(line):
    """The board of a line, and the calls made on it."""
    head, tail = line.split(":")
    kind, rows, columns, digits, *kept = head.split()
    board = Board(kind, int(rows), int(columns), [int(d) for d in digits], {int(w) for w in kept})
    return board, [(word, int(cell)) for word, cell in (call.split() for call in tail.split(",") if call)]


def refusal(board, wired, bars, call):
    """The number of the first condition that holds, and 0 if none does."""
    word, cell = call
    looks_at = {"place": (5, 6, 7, 9, 12), "lift": (5, 6, 8), "bar": (5, 9, 11, 12), "clear": (5, 10)}[word]
    holds = {
        5: lambda: cell >= board.cells,
        6: lambda: cell not in board.pads,
        7: lambda: cell in wired,
        8: lambda: cell not in wired,
        9: lambda: cell in bars,
        10: lambda: cell not in bars,
        11: lambda: cell in wired,
        12: lambda: not board.linked(*to_be_met(wired, bars, call)),
    }
    return next((number for number in looks_at if holds[number]()), 0)


def to_be_met(wired, bars, call):
    """The pads and the bars that a place or a bar asks for."""
    word, cell = call
    return (wired | {cell}, bars) if word == "place" else (wired, bars | {cell})


def answers(board, calls):
    """For each call in turn its number, its fence for want of a way or the bars left by a clear, and the pads wired before it and
    the bars then."""
    wired, bars = set(), set()
    for call in calls:
        before, barred, number, more = set(wired), set(bars), refusal(board, wired, bars, call), None
        word, cell = call
        if number == 12:
            more = board.fence(*to_be_met(wired, bars, call))
        elif number == 0:
            {"place": wired.add, "lift": wired.remove, "bar": bars.add, "clear": bars.remove}[word](cell)
            more = len(bars) if word == "clear" else None
        yield number, more, before, barred


def words(cells):
    return " ".join(str(c) for c in sorted(cells))


def shown(answer):
    number, more, _before, _barred = answer
    if number == 0:
        return "ok" if more is None else f"ok{more}"
    if number == 12:
        return f"12[{words(more[0])}|{words(more[1])}]"
    return str(number)


def random_map(rng):
    """A random map of a field or an escape board, with at most 7 pads."""
    if rng.random() < 0.65:
        kind = "field"
        rows, columns = rng.choice([(1, 4), (1, 5), (2, 2), (2, 3), (2, 4), (2, 4), (3, 3), (3, 3)])
        weights = rng.choice([(3, 3, 3, 1), (2, 5, 2, 0), (4, 4, 2, 0), (5, 3, 2, 1)])
    else:
        kind = "escape"
        rows, columns = rng.choice([(2, 3), (3, 3), (3, 3), (3, 4), (3, 4), (3, 4), (4, 4)])
        weights = rng.choice([(1, 1), (2, 1), (1, 2), (1, 3)])
    digits = rng.choices(range(len(weights)), weights, k=rows * columns)
    pads = [p for p in range(rows * columns) if digits[p] & 1]
    for p in rng.sample(pads, max(0, len(pads) - 7)):
        digits[p] -= 1
    return kind, rows, columns, digits


def written(kind, rows, columns, digits, kept, calls):
    head = [kind, rows, columns, "".join(map(str, digits))]
    return " ".join(map(str, head + kept)) + ":" + ",".join(f"{word} {cell}" for word, cell in calls)


def places(rng, kind, rows, columns, digits):
    """A board with some of its cells kept out, and its pads in a random order, now and then with a wrong number among them."""
    cells = len(digits) * (2 if kind == "field" else 1)
    kept = sorted(rng.sample(range(cells), rng.choice([0, 0, 0, 1, 1, 2, 3])))
    pads = [p for p in range(len(digits)) if digits[p] & 1]
    order = pads[:]
    rng.shuffle(order)
    for _ in range(rng.choice([0, 0, 0, 1, 2])):
        wrong = rng.choice([rng.randrange(cells), cells + rng.randrange(3), rng.choice(pads or [0]), 65535])
        order.insert(rng.randrange(len(order) + 1), wrong)
    return written(kind, rows, columns, digits, kept, [("place", cell) for cell in order])


def random_call(rng, cells, pads):
    """A call with a cell for which it may well be accepted, and now and then with any."""
    word = rng.choices(["place", "lift", "bar", "clear"], [50, 12, 24, 14])[0]
    wants_pad = word in ("place", "lift") and rng.random() < 0.9
    return word, rng.choice(pads) if wants_pad else rng.randrange(cells + 1)


def long_run(rng, kind, rows, columns, digits):
    """A board and a long run of calls on it."""
    cells = len(digits) * (2 if kind == "field" else 1)
    pads = [p for p in range(len(digits)) if digits[p] & 1] or [0]
    kept = sorted(rng.sample(range(cells), rng.choice([0, 0, 1])))
    return written(kind, rows, columns, digits, kept, [random_call(rng, cells, pads) for _ in range(CALLS)])


def table():
    """Different lines, of boards with at least a pad and a landing."""
    rng = random.Random(SEED)
    lines = []

    def add(line, upto):
        board, calls = read(line)
        if line not in lines and calls and board.pads and board.landings:
            lines.append(line)
        return len(lines) < upto

    for make, maps, rings in ((places, BOARDS, RINGS), (long_run, RUNS, RING_RUNS)):
        upto = len(lines) + maps
        while add(make(rng, *random_map(rng)), upto):
            pass
        while add(make(rng, "ring", 1, 6, RING), upto + rings):
            pass
    return lines


def must_move(board, pads, bars):
    """Whether wires laid one by one as short as can be leave none for one of the pads, though all can be met."""
    used = set(bars)
    for pad in pads:
        found = min(board.paths(pad, used), key=len, default=None)
        if found is None:
            return True
        used |= set(found)
    return False


def count(lines):
    total = {}

    def add(name):
        total[name] = total.get(name, 0) + 1

    for line in lines:
        board, calls = read(line)
        add("boards: " + line.split()[0])
        order = []
        for (word, cell), (number, more, before, bars) in zip(calls, answers(board, calls)):
            add(f"{word}: {'ok' if number == 0 else number}")
            order = [pad for pad in order if pad in before]
            if word == "place" and number == 0:
                order.append(cell)
                if must_move(board, order, bars):
                    add("wired, though short wires for the earlier pads leave it no way")
            if number == 12:
                add(f"fences of {len(more[1])} cells")
                if before - more[0]:
                    add("fences that leave out a wired pad")
    for name in sorted(total):
        print(f"{name}: {total[name]}")


def main():
    mode = sys.argv[1] if len(sys.argv) > 1 else ""
    if mode == "table":
        print("\n".join(table()))
    elif mode == "answers":
        for line in sys.stdin:
            print(" ".join(map(shown, answers(*read(line)))), flush=True)
    elif mode == "count":
        count(sys.stdin)
    else:
        sys.exit(__doc__)


if __name__ == "__main__":
    main()

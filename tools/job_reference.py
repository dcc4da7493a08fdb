#!/usr/bin/env python3
"""What a job must be answered, worked out from the rules of docs/JOBS.md and from nothing of the router.

    python3 tools/job_reference.py expected JOB [--room N]       prints the output of a job
    python3 tools/job_reference.py result JOB [--room N]         prints its number of bytes and the fault number
    python3 tools/job_reference.py check JOB OUTPUT [--room N]   says whether a job may be given this output
    python3 tools/job_reference.py check-dir DIR                 does so for each NAME.job and NAME.out of a directory
    python3 tools/job_reference.py trials LIST DIR               prints what should come of the jobs of a directory; a line of LIST
                                                                 has a NAME and the size of the output memory
    python3 tools/job_reference.py random SEED COUNT DIR         writes small random jobs into a directory
    python3 tools/job_reference.py self-test                     compares the fences found here with those found by trying all

N is the size of the output memory, 65536 if it is not told.

Which lawful drawing stands after a place or a bar is left free. So a job is followed here with the set of all the drawings that may
stand. A call has an answer for each of them, and what may stand after it belongs to the answer that was given. `expected` goes on
while there is one possible answer, and otherwise names the first line that has several. `check` takes the answers that the output
gives, and stops at the first that no drawing allows.

Listing the drawings takes long on large boards, and a job for which it would take too long is refused with a message. Nothing is
listed before a pad is placed and found to have a way, so jobs of the largest size are followed if few drawings may stand in them.

The exit status is 0 if all is well, 1 if an output is not allowed or not forced, 2 if a job is refused as too large.
"""

import os
import random
import re
import sys
from collections import deque

LONGEST_TEXT = 32768
ROOM = 65536
RESERVE = 24
MOST_PADS = 128
MOST_SIDE = 64
MOST_POINTS = 2048

# How many drawings may be listed for one call, and how many cells may be looked at for that.
MOST_DRAWINGS = 100_000
MOST_LOOKS = 10_000_000


class TooLarge(Exception):
    """More drawings may stand than are listed here."""


class NotForced(Exception):
    """A call has several possible answers."""


class NotAllowed(Exception):
    """An output is none of those that the rules allow."""


# ---------------------------------------------------------------------------------------------------------------------------------
# Text: lines, words and forms
# ---------------------------------------------------------------------------------------------------------------------------------

NUMBER = re.compile(rb"0|[1-9][0-9]{0,3}")
NAME = re.compile(rb"[A-Z0-9]{1,8}")

# What follows the first word of a line: N a number, A a name.
FORMS = {
    b"field": "NN",
    b"escape": "NN",
    b"pad": "ANN",
    b"land": "NN",
    b"keep": "NNN",
    b"place": "A",
    b"lift": "A",
    b"bar": "NNN",
    b"clear": "NNN",
    b"show": "A",
}
HEADERS = ("field", "escape")
BOARD_LINES = ("pad", "land", "keep")


def lines_of(text):
    """The lines of a text, each without its LF. The last LF may be missing; no bytes are no line."""
    if not text:
        return []
    lines = text.split(b"\n")
    return lines[:-1] if text.endswith(b"\n") else lines


def form_of(line):
    """The words of a line that has one of the ten forms, numbers as numbers; none if it has no form."""
    first, *rest = line.split(b" ")
    kinds = FORMS.get(first)
    if kinds is None or len(rest) != len(kinds):
        return None
    words = [first.decode()]
    for kind, word in zip(kinds, rest):
        if not (NUMBER if kind == "N" else NAME).fullmatch(word):
            return None
        words.append(int(word) if kind == "N" else word.decode())
    return words


# ---------------------------------------------------------------------------------------------------------------------------------
# Boards
# ---------------------------------------------------------------------------------------------------------------------------------

STEPS = (("N", 0, -1, 0), ("E", 0, 0, 1), ("S", 0, 1, 0), ("W", 0, 0, -1), ("D", 1, 0, 0))


class Board:
    """A field or an escape board under a keep-out. A cell is known by its place (layer, row, column)."""

    def __init__(self, kind, rows, columns, pad_points, landing_points, kept):
        self.rows, self.columns, self.layers = rows, columns, 2 if kind == "field" else 1
        every = [(l, r, c) for l in range(1, self.layers + 1) for r in range(rows) for c in range(columns)]
        pads = {(1, r, c) for r, c in pad_points}
        if kind == "field":
            landings = {(2, r, c) for r, c in landing_points}
            vias = set(pad_points) | set(landing_points)
        else:
            on_rim = [(l, r, c) for l, r, c in every if r in (0, rows - 1) or c in (0, columns - 1)]
            landings = {place for place in on_rim if place not in pads}
            vias = set()
        self.outlets = {place: [] for place in every}
        for l, r, c in every:
            for letter, down, south, east in STEPS:
                to = (l + down, r + south, c + east)
                if to not in self.outlets or to in pads or (letter == "D" and (r, c) not in vias):
                    continue
                if (l, r, c) not in kept and to not in kept:
                    self.outlets[l, r, c].append(to)
        self.pads = pads - kept
        self.landings = landings - kept

    def has(self, place):
        return place in self.outlets

    def number(self, place):
        l, r, c = place
        return (l - 1) * self.rows * self.columns + r * self.columns + c

    def reaches_landing(self, start, used, budget):
        """Whether a landing can be reached from a cell by way of cells that are not in use."""
        seen, ahead = {start}, [start]
        while ahead:
            budget.look()
            at = ahead.pop()
            if at in self.landings:
                return True
            for to in self.outlets[at]:
                if to not in seen and to not in used:
                    seen.add(to)
                    ahead.append(to)
        return False


def course(path):
    """The step letters of a net."""
    letter = {(down, south, east): name for name, down, south, east in STEPS}
    return "".join(letter[b[0] - a[0], b[1] - a[1], b[2] - a[2]] for a, b in zip(path, path[1:]))


# ---------------------------------------------------------------------------------------------------------------------------------
# What can be met, and the fence
# ---------------------------------------------------------------------------------------------------------------------------------


class Flow:
    """The largest flow from some pads to the landings, at most one unit through each unbarred cell.

    Each cell is split into a side where paths come in and a side where they go out, with room for one unit between the two. All
    other links are as wide as one likes. So a cut is a set of cells that meets every unbarred path, and by the theorem of Menger
    the flow is both the largest number of disjoint paths and the least number of cells that block the pads. The flow is made from
    the board, the pads and the bars alone; no drawing has a part in it.
    """

    def __init__(self, board, pads, bars):
        wide = len(board.outlets) + 1
        self.room = {"from": {}, "to": {}}
        for place in board.outlets:
            if place not in bars:
                self.link((place, "in"), (place, "out"), 1)
        for place, outlets in board.outlets.items():
            for to in outlets:
                if place not in bars and to not in bars:
                    self.link((place, "out"), (to, "in"), wide)
        for pad in pads:
            if pad not in bars:
                self.link("from", (pad, "in"), wide)
        for landing in board.landings:
            if landing not in bars:
                self.link((landing, "out"), "to", wide)
        self.size = 0
        while self.add_one():
            self.size += 1

    def link(self, a, b, room):
        self.room.setdefault(a, {})[b] = self.room.get(a, {}).get(b, 0) + room
        self.room.setdefault(b, {}).setdefault(a, 0)

    def side(self):
        """What has room left from the start, each with the one it was found from."""
        found, ahead = {"from": None}, deque(["from"])
        while ahead:
            a = ahead.popleft()
            for b, room in self.room[a].items():
                if room > 0 and b not in found:
                    found[b] = a
                    ahead.append(b)
        return found

    def add_one(self):
        found = self.side()
        if "to" not in found:
            return False
        b = "to"
        while found[b] is not None:
            a = found[b]
            self.room[a][b] -= 1
            self.room[b][a] += 1
            b = a
        return True

    def nearest_cut(self):
        """The cells entered but not left by what has room left from the start.

        This side of the start is part of that of any other smallest cut. A path from a pad that meets none of these cells stays in
        it to its end, both sides of every cell; a cell of another smallest cut has its out side beyond, so no such path ends there.
        That is what makes these cells the nearest.
        """
        found = self.side()
        entered = [node[0] for node in found if node not in ("from", "to") and node[1] == "in"]
        return {place for place in entered if (place, "out") not in found}


def can_be_met(board, pads, bars):
    return Flow(board, pads, bars).size == len(pads)


def fence(board, pads, bars):
    """The pads and the cells of the fence, for pads that cannot all be met.

    A shown pad is in every group of j + 1 pads that j cells block. If the others can be met without a pad p, no such group lies
    among the others, so p is in each of them. If the others cannot be met, fewer cells than there are others block them; say j
    cells do, then any j + 1 of the others are such a group, and p is not in it. So the pads shown are those without which the
    others can be met.
    """
    shown = {p for p in pads if can_be_met(board, pads - {p}, bars)}
    flow = Flow(board, shown, bars)
    cells = flow.nearest_cut()
    assert len(cells) == flow.size == len(shown) - 1, (pads, bars, shown, cells)
    return shown, cells


# ---------------------------------------------------------------------------------------------------------------------------------
# Drawings
# ---------------------------------------------------------------------------------------------------------------------------------


class Budget:
    """What is left for listing the drawings of one call."""

    def __init__(self, drawings, looks):
        self.drawings, self.looks = drawings, looks

    def look(self):
        self.looks -= 1
        if self.looks < 0:
            raise TooLarge("listing the drawings that may stand takes too long")

    def drawing(self):
        self.drawings -= 1
        if self.drawings < 0:
            raise TooLarge("too many drawings may stand")


def paths(board, pad, used, budget):
    """All paths from a pad to a landing that keep off the used cells and stop at their first landing."""
    path, on = [pad], set(used) | {pad}

    def extend():
        at = path[-1]
        if at in board.landings:
            yield tuple(path)
            return
        for to in board.outlets[at]:
            if to not in on and board.reaches_landing(to, on, budget):
                path.append(to)
                on.add(to)
                yield from extend()
                on.remove(to)
                path.pop()

    if pad not in used:
        yield from extend()


def drawings(board, wired, bars, limits):
    """All lawful drawings with these wired pads and bars, each as the set of its nets.

    A net starts at its pad and ends at a landing, and no cell before its last is a landing. Nothing leads into a pad of these
    boards, so nets and disjoint unbarred paths of this kind are the same.
    """
    budget = Budget(*limits)
    order = sorted(wired)

    def systems(i, used):
        if i == len(order):
            budget.drawing()
            yield ()
            return
        for path in paths(board, order[i], used, budget):
            taken = used | set(path)
            if all(board.reaches_landing(pad, taken, budget) for pad in order[i + 1:]):
                for rest in systems(i + 1, taken):
                    yield (path,) + rest

    return [frozenset(system) for system in systems(0, frozenset(bars))]


def used(drawing):
    """The landings on nets."""
    return frozenset(path[-1] for path in drawing)


def net_of(drawing, pad):
    return next(path for path in drawing if path[0] == pad)


def is_on_net(drawing, place):
    return any(place in path for path in drawing)


class State:
    """The wired pads, the bars, and all the drawings that may stand. The pads and the bars are the same in all of them: whether a
    call is refused depends on these alone."""

    def __init__(self, wired=frozenset(), bars=frozenset(), standing=frozenset([frozenset()])):
        self.wired, self.bars, self.standing = wired, bars, standing


def by_answer(pairs):
    """Pairs of an answer and a drawing, gathered by the answer."""
    gathered = {}
    for answer, drawing in pairs:
        gathered.setdefault(answer, set()).add(drawing)
    return gathered


def call(board, state, word, place, name, limits):
    """The possible answers to a call, each with what may stand after it. The place is none if the cell is off the board."""

    def refused(text):
        return {f"no {text}": state}

    def no_way(pads, bars):
        shown, cells = fence(board, pads, bars)
        return refused(f"12 {len(shown)} {len(cells)}")

    def accepted(wired, bars, pairs):
        return {text: State(wired, bars, frozenset(standing)) for text, standing in by_answer(pairs).items()}

    is_wired, is_barred = place in state.wired, place in state.bars
    if place is None:
        return refused(5)
    if word in ("place", "lift", "show") and place not in board.pads:
        return refused(6)
    if word == "place":
        if is_wired:
            return refused(7)
        if is_barred:
            return refused(9)
        wired = state.wired | {place}
        if not can_be_met(board, wired, state.bars):
            return no_way(wired, state.bars)
        later = {}
        for drawing in drawings(board, wired, state.bars, limits):
            later.setdefault(used(drawing), []).append(drawing)
        pairs = []
        for before in {used(drawing) for drawing in state.standing}:
            for landing in board.landings - before:
                pairs += [(f"ok {board.number(landing)}", d) for d in later.get(before | {landing}, [])]
        assert pairs, "a pad that has a way has one beside the used landings"
        return accepted(wired, state.bars, pairs)
    if word == "lift":
        if not is_wired:
            return refused(8)
        nets = [(net_of(d, place), d) for d in state.standing]
        return accepted(state.wired - {place}, state.bars, [(f"ok {board.number(n[-1])}", d - {n}) for n, d in nets])
    if word == "show":
        if not is_wired:
            return refused(8)
        shown = [(f"{name} {course(net_of(d, place))}", d) for d in state.standing]
        return accepted(state.wired, state.bars, shown)
    if word == "bar":
        if is_barred:
            return refused(9)
        if is_wired:
            return refused(11)
        bars = state.bars | {place}
        if not can_be_met(board, state.wired, bars):
            return no_way(state.wired, bars)
        crossed = [d for d in state.standing if is_on_net(d, place)]
        pairs = [("ok 0", d) for d in state.standing if not is_on_net(d, place)]
        if crossed:
            pairs += [("ok 1", d) for d in drawings(board, state.wired, bars, limits)]
        return accepted(state.wired, bars, pairs)
    assert word == "clear"
    if not is_barred:
        return refused(10)
    return accepted(state.wired, state.bars - {place}, [(f"ok {len(state.bars) - 1}", d) for d in state.standing])


# ---------------------------------------------------------------------------------------------------------------------------------
# Jobs
# ---------------------------------------------------------------------------------------------------------------------------------


class Job:
    """What the lines so far say: the board's kind and sides, its pads, landings and closed cells, and after the first call the
    board."""

    def __init__(self):
        self.kind, self.rows, self.columns = None, 0, 0
        self.points, self.landings, self.kept = {}, set(), set()
        self.board = None

    def on_board(self, l, r, c):
        layers = 2 if self.kind == "field" else 1
        return 1 <= l <= layers and r < self.rows and c < self.columns

    def fault(self, number, form):
        """The fault of a line, but for 20, and 0 if it has none."""
        if form is None:
            return 17
        word, *rest = form
        is_header, is_board_line = word in HEADERS, word in BOARD_LINES
        if (number == 1) != is_header:
            return 19
        if is_board_line and self.board is not None:
            return 19
        if word == "land" and self.kind == "escape":
            return 19
        if word == "pad" and len(self.points) == MOST_PADS:
            return 19
        if word == "pad" and (rest[0] in self.points or (rest[1], rest[2]) in self.points.values()):
            return 18
        if word in ("place", "lift", "show") and rest[0] not in self.points:
            return 18
        if is_header:
            rows, columns = rest
            if not (1 <= rows <= MOST_SIDE and 1 <= columns <= MOST_SIDE and rows * columns <= MOST_POINTS):
                return 13
        if word == "pad" and not self.on_board(1, rest[1], rest[2]):
            return 16
        if word == "land" and not self.on_board(1, *rest):
            return 16
        if word == "keep" and not self.on_board(*rest):
            return 16
        return 0

    def take_board_line(self, form):
        word, *rest = form
        if word in HEADERS:
            self.kind, self.rows, self.columns = form
        elif word == "pad":
            self.points[rest[0]] = (rest[1], rest[2])
        elif word == "land":
            self.landings.add(tuple(rest))
        else:
            self.kept.add(tuple(rest))

    def start_calls(self):
        if self.board is None:
            points = set(self.points.values())
            self.board = Board(self.kind, self.rows, self.columns, points, self.landings, self.kept)

    def place_of(self, form):
        """The cell that a call names, or none."""
        word, *rest = form
        if word in ("bar", "clear"):
            return tuple(rest) if self.board.has(tuple(rest)) else None
        return (1,) + self.points[rest[0]]


def layer_word(fault):
    return "board" if fault in (13, 16) else "text"


def follow(text, room, choose, limits=(MOST_DRAWINGS, MOST_LOOKS)):
    """Follows a job, and answers the bytes written and the fault number.

    At each line that writes something, `choose(number, line, options)` is given the possible lines of output, each with what may
    stand after it, or none if the job ends there; it picks the line that is written and what may stand then.
    """
    if len(text) > LONGEST_TEXT or room < RESERVE:
        return b"", 21
    job, state, output = Job(), State(), b""

    def fault_line(number, fault):
        return f"fault {number} {layer_word(fault)} {fault}\n".encode()

    for number, line in enumerate(lines_of(text), 1):
        form = form_of(line)
        fault = job.fault(number, form)
        if fault:
            written, _ = choose(number, line, {fault_line(number, fault): None})
            return output + written, fault
        if form[0] in HEADERS or form[0] in BOARD_LINES:
            job.take_board_line(form)
            continue
        job.start_calls()
        try:
            answers = call(job.board, state, form[0], job.place_of(form), form[1], limits)
        except TooLarge as error:
            raise TooLarge(f"line {number}, `{readable(line)}`: {error}") from None
        options = {}
        for answer, after in answers.items():
            answer = (answer + "\n").encode()
            if len(output) + len(answer) + RESERVE > room:
                options[fault_line(number, 20)] = None
            else:
                options[answer] = after
        written, state = choose(number, line, options)
        output += written
        if state is None:
            return output, 20
    return output, 0


def readable(bytes_):
    return bytes_.rstrip(b"\n").decode("latin-1")


def some_of(options):
    """The first few of the possible lines of output, for a message."""
    shown = [f"`{readable(option)}`" for option in sorted(options)]
    more = [f"and {len(shown) - 5} more"] if len(shown) > 6 else []
    return ", ".join(shown[:5] + more if more else shown)


def expected(text, room=ROOM):
    """The output of a job whose every answer is forced, and the fault number."""

    def choose(number, line, options):
        if len(options) > 1:
            raise NotForced(f"line {number}, `{readable(line)}`, has several possible answers: {some_of(options)}")
        return next(iter(options.items()))

    return follow(text, room, choose)


def check(text, output, room=ROOM):
    """Goes along an output, and raises an error where it is not allowed."""
    rest = output

    def choose(number, line, options):
        nonlocal rest
        for option, after in options.items():
            if rest.startswith(option):
                rest = rest[len(option):]
                return option, after
        given = rest.split(b"\n")[0]
        raise NotAllowed(f"line {number}, `{readable(line)}`, is answered `{readable(given)}`; allowed: {some_of(options)}")

    _written, fault = follow(text, room, choose)
    if rest:
        raise NotAllowed(f"the output goes on after its end: `{readable(rest[:60])}`")
    return fault


# ---------------------------------------------------------------------------------------------------------------------------------
# Random jobs
# ---------------------------------------------------------------------------------------------------------------------------------

# The limits for these jobs. They are followed while they are made with all that may stand, whatever is answered, so `check` keeps
# within its own.
RANDOM_LIMITS = (5_000, 300_000)


def random_names(rng, count):
    letters = "ABCDEFGHIJKLMNOPQRSTUVWXYZ0123456789"
    names = set()
    while len(names) < count:
        names.add("".join(rng.choice(letters) for _ in range(rng.choice([1, 1, 1, 2, 3, 8]))))
    return sorted(names)


def random_board_lines(rng):
    """The lines before the calls, and the board's kind, sides and names."""
    kind = rng.choice(["field", "field", "escape"])
    small = [(1, 3), (1, 4), (1, 6), (2, 2), (2, 3), (3, 2), (2, 4), (2, 4), (3, 3), (3, 3), (2, 5), (1, 9)]
    large = [(3, 4), (4, 3), (4, 4), (4, 5), (5, 5), (1, 12), (2, 8), (12, 2), (1, 64), (64, 1)]
    rows, columns = rng.choice(small + (large[:1] if kind == "field" else large))
    every = [(r, c) for r in range(rows) for c in range(columns)]
    names = random_names(rng, rng.randint(1, min(rng.choice([3, 6, 12]), len(every))))
    lines = [f"pad {name} {r} {c}" for name, (r, c) in zip(names, rng.sample(every, len(names)))]
    if kind == "field":
        for _ in range(rng.choice([1, 1, 2, 2, 3, 4, 6])):
            lines.append("land %d %d" % rng.choice(every))
    for _ in range(rng.choice([0, 0, 0, 1, 1, 2, 3])):
        lines.append("keep %d %d %d" % ((rng.randint(1, 2 if kind == "field" else 1),) + rng.choice(every)))
    rng.shuffle(lines)
    return [f"{kind} {rows} {columns}"] + lines, (kind, rows, columns, names)


def random_call(rng, kind, rows, columns, names):
    word = rng.choices(["place", "lift", "bar", "clear", "show"], [45, 10, 20, 12, 18])[0]
    if word in ("bar", "clear"):
        layer = rng.randint(1, 2 if kind == "field" else 1)
        if rng.random() < 0.06:
            return f"{word} {rng.choice([0, 1, 2, 3, 9999])} {rng.randint(0, rows + 1)} {rng.randint(0, columns + 1)}"
        return f"{word} {layer} {rng.randrange(rows)} {rng.randrange(columns)}"
    return f"{word} {rng.choice(names)}"


STRANGE_LINES = [
    "", " ", "place", "PLACE A", "place a", "place ABCDEFGHI", "place  A", "place A ", " place A", "place A\r", "place\tA",
    "place A\0", "place NOSUCH", "lift NOSUCH", "show NOSUCH", "bar 1 0", "bar 1 0 00", "bar 1 0 +0", "bar 1 0 -1",
    "bar 1 0 10000", "clear 01 0 0", "field 1 1", "escape 0 0", "field 99 99", "land 0 0", "land 9 9", "keep 1 0 0",
    "keep 0 0 0", "keep 3 0 0", "keep 2 0 0", "pad Z 0 0", "pad Z 99 0", "pad 0 1 1", "pad A 0 0", "place \xe9", "route A",
    "bar 1 0 0 0", "land 0", "show A B", "clear 9999 9999 9999",
]


BAD_SIDES = [
    "field 0 5", "escape 5 0", "field 64 33", "escape 33 64", "field 65 1", "escape 1 9999", "field 1 01", "field 3", "escape",
]


def broken(rng, lines):
    """Lines with something strange done to them; the text of the job."""
    kind = rng.randrange(8)
    if kind <= 1:
        lines.insert(rng.randrange(len(lines) + 1), rng.choice(STRANGE_LINES))
    elif kind == 2:
        lines.insert(rng.randint(1, min(4, len(lines))), rng.choice(STRANGE_LINES))
    elif kind == 7:
        lines[0] = rng.choice(BAD_SIDES)
    elif kind == 3:
        i, j = rng.randrange(len(lines)), rng.randrange(len(lines))
        lines[i], lines[j] = lines[j], lines[i]
    elif kind == 4:
        lines.insert(rng.randrange(len(lines) + 1), rng.choice(lines))
    text = ("\n".join(lines) + "\n").encode("latin-1")
    if kind == 5:
        at = rng.randrange(len(text))
        text = text[:at] + bytes([rng.choice([0, 9, 10, 13, 32, 48, 65, 97, 127, 255, rng.randrange(256)])]) + text[at + 1:]
    elif kind == 6:
        text = rng.choice([text[:-1], text + b"\n", text[:rng.randrange(len(text))], b"\n" + text])
    return text


def random_job(rng):
    """A small job, now and then a broken one, for which all the drawings that may stand can be listed."""

    def any_answer(_number, _line, options):
        after = [state for state in options.values() if state is not None]
        if not after:
            return next(iter(options.items()))
        standing = frozenset().union(*(state.standing for state in after))
        return next(iter(options)), State(after[0].wired, after[0].bars, standing)

    while True:
        lines, about = random_board_lines(rng)
        lines += [random_call(rng, *about) for _ in range(rng.choice([0, 3, 6, 10, 16, 25]))]
        text = broken(rng, lines) if rng.random() < 0.2 else ("\n".join(lines) + "\n").encode()
        try:
            follow(text, ROOM, any_answer, RANDOM_LIMITS)
            return text
        except TooLarge:
            continue


def write_random(seed, count, directory):
    rng = random.Random(seed)
    os.makedirs(directory, exist_ok=True)
    for i in range(count):
        with open(os.path.join(directory, f"random_{seed}_{i}.job"), "wb") as file:
            file.write(random_job(rng))


# ---------------------------------------------------------------------------------------------------------------------------------
# The fences found here, against those found by trying all pads and cells
# ---------------------------------------------------------------------------------------------------------------------------------


def self_test():
    """On random small boards, what can be met and the fence are as tools/brute_force.py finds them from their definitions."""
    import brute_force

    rng, met, refused = random.Random(7), 0, 0
    while refused < 300:
        kind, rows, columns, digits = brute_force.random_map(rng)
        points = [divmod(p, columns) for p in range(rows * columns)]
        cells = [(l, r, c) for l in range(1, 3 if kind == "field" else 2) for r, c in points]
        kept = set(rng.sample(range(len(cells)), rng.choice([0, 0, 1, 2])))
        plain = brute_force.Board(kind, rows, columns, digits, kept)
        pads = [p for p, d in zip(points, digits) if d & 1]
        landings = [p for p, d in zip(points, digits) if d & 2]
        board = Board(kind, rows, columns, pads, landings, {cells[k] for k in kept})
        assert {board.number(p) for p in board.pads} == plain.pads
        assert {board.number(p) for p in board.landings} == plain.landings
        for place in cells:
            assert [board.number(to) for to in board.outlets[place]] == plain.outlets[board.number(place)]
        bars = set(rng.sample(cells, rng.choice([0, 1, 2])))
        wanted = sorted(board.pads - bars)
        rng.shuffle(wanted)
        while wanted:
            pads, numbers, barred = set(wanted), {board.number(p) for p in wanted}, {board.number(p) for p in bars}
            last = wanted.pop()
            assert can_be_met(board, pads, bars) == plain.linked(numbers, barred)
            if can_be_met(board, pads, bars):
                met += 1
            elif can_be_met(board, pads - {last}, bars):
                shown, blockers = fence(board, pads, bars)
                found = {board.number(p) for p in shown}, {board.number(p) for p in blockers}
                assert found == plain.fence(numbers, barred), (kind, rows, columns, digits, kept, numbers, barred)
                refused += 1
    print(f"{met} groups of pads that can be met, {refused} fences: all as found by trying everything")


# ---------------------------------------------------------------------------------------------------------------------------------
# The program
# ---------------------------------------------------------------------------------------------------------------------------------


def read(path):
    with open(path, "rb") as file:
        return file.read()


def check_directory(directory):
    names = sorted(name[:-4] for name in os.listdir(directory) if name.endswith(".job"))
    for name in names:
        job = os.path.join(directory, name + ".job")
        try:
            check(read(job), read(os.path.join(directory, name + ".out")))
        except (NotAllowed, TooLarge) as error:
            print(f"{job}: {error}")
            return 1 if isinstance(error, NotAllowed) else 2
    print(f"{len(names)} outputs are allowed")
    return 0


def print_trials(path, directory):
    for line in read(path).decode().splitlines():
        name, room = line.split()
        output, fault = expected(read(os.path.join(directory, name + ".job")), int(room))
        if output != read(os.path.join(directory, name + ".out")):
            raise NotAllowed(f"{name}.out is not what the job should say")
        print(f"{name} {room}: {len(output)} bytes, fault {fault}, as it should be")


def run(mode, words, room):
    if mode == "expected" and len(words) == 1:
        output, _ = expected(read(words[0]), room)
        sys.stdout.buffer.write(output)
    elif mode == "result" and len(words) == 1:
        output, fault = expected(read(words[0]), room)
        print(len(output), fault)
    elif mode == "check" and len(words) == 2:
        check(read(words[0]), read(words[1]), room)
        print("allowed")
    elif mode == "check-dir" and len(words) == 1:
        return check_directory(words[0])
    elif mode == "trials" and len(words) == 2:
        print_trials(*words)
    elif mode == "random" and len(words) == 3:
        write_random(int(words[0]), int(words[1]), words[2])
    elif mode == "self-test" and not words:
        self_test()
    else:
        print(__doc__, file=sys.stderr)
        return 2
    return 0


def main():
    sys.setrecursionlimit(20_000)
    words, room = sys.argv[1:], ROOM
    if "--room" in words:
        at = words.index("--room")
        room = int(words[at + 1])
        del words[at:at + 2]
    try:
        return run(words[0] if words else "", words[1:], room)
    except NotForced as error:
        print(f"not forced: {error}", file=sys.stderr)
        return 1
    except NotAllowed as error:
        print(f"not allowed: {error}")
        return 1
    except TooLarge as error:
        print(f"refused as too large: {error}", file=sys.stderr)
        return 2


if __name__ == "__main__":
    sys.exit(main())

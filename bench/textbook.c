/* The field of crates/place_cost, solved by a textbook maximum flow.
 *
 * Each cell is split into an entrance and an exit, joined by an arc for one unit. A source leads to the pads to be met, and
 * the landings lead to a sink. Paths for one unit more are found by breadth-first search until there is none.
 *
 *     cc -O3 -o textbook bench/textbook.c
 *     ./textbook 64 128          solves from nothing for the first pad, for the first two, and so on
 *     ./textbook 64 128 keep     keeps the flow and looks for one more path for each pad
 *     ./textbook 64 128 stay     does so without ever moving a path that was found before
 *
 * Arguments: the rows of the field, a multiple of 4 up to 64, and how many pads to place. It shares no code with the router. */
#include <stdio.h>
#include <stdlib.h>
#include <string.h>

enum { COLUMNS = 32, MAX_POINTS = 2048, MAX_CELLS = 2 * MAX_POINTS, MAX_NODES = 2 * MAX_CELLS + 2, MAX_ARCS = 2 * 8 * MAX_CELLS };

static int rows, points, cells, source, sink;
static int head[MAX_NODES], next_arc[MAX_ARCS], to[MAX_ARCS], room[MAX_ARCS], arcs;
static int arc_in[MAX_NODES], queue[MAX_NODES];
static int may_move = 1;

/* 1 for a pad point, 2 for a landing point, 0 for a plain one. */
static int point_at(int point) {
    int column = point % COLUMNS, from_pads = point / COLUMNS - rows / 4;
    if (column == 0 || column == COLUMNS - 1)
        return 2;
    int pad_row = from_pads >= 0 && from_pads < 2 * (rows / 4) && from_pads % 2 == 0;
    return pad_row && column >= 8 && column < 24 && column % 2 == 0;
}

static int is_pad(int cell) { return cell < points && point_at(cell) == 1; }
static int is_landing(int cell) { return cell >= points && point_at(cell - points) == 2; }
static int entrance(int cell) { return 2 * cell; }
static int leaving(int cell) { return 2 * cell + 1; }

static int pad(int i) {
    int k = i * 37 % (2 * rows);
    return (rows / 4 + 2 * (k / 8)) * COLUMNS + 8 + 2 * (k % 8);
}

static void half_arc(int from, int onto, int units) {
    to[arcs] = onto;
    room[arcs] = units;
    next_arc[arcs] = head[from];
    head[from] = arcs++;
}

/* An arc for one unit, and the arc back beside it: the two differ in the last bit of their numbers. */
static void add_arc(int from, int onto) {
    half_arc(from, onto, 1);
    half_arc(onto, from, 0);
}

static void add_step(int cell, int onto) {
    if (!is_pad(onto))
        add_arc(leaving(cell), entrance(onto));
}

static void add_cell(int cell) {
    int row = cell % points / COLUMNS, column = cell % COLUMNS;
    add_arc(entrance(cell), leaving(cell));
    if (row > 0)
        add_step(cell, cell - COLUMNS);
    if (column + 1 < COLUMNS)
        add_step(cell, cell + 1);
    if (row + 1 < rows)
        add_step(cell, cell + COLUMNS);
    if (column > 0)
        add_step(cell, cell - 1);
    if (cell < points && point_at(cell) != 0)
        add_step(cell, cell + points);
    if (is_landing(cell))
        add_arc(leaving(cell), sink);
}

static void build(void) {
    arcs = 0;
    memset(head, -1, sizeof head);
    for (int cell = 0; cell < cells; cell++)
        add_cell(cell);
}

/* One unit more from the source to the sink, if there is a way. */
static int augment(void) {
    int first = 0, last = 0;
    memset(arc_in, -1, sizeof arc_in);
    queue[last++] = source;
    while (first < last && arc_in[sink] < 0) {
        int node = queue[first++];
        for (int a = head[node]; a >= 0; a = next_arc[a]) {
            if (room[a] > 0 && arc_in[to[a]] < 0 && to[a] != source) {
                arc_in[to[a]] = a;
                queue[last++] = to[a];
            }
        }
    }
    if (arc_in[sink] < 0)
        return 0;
    for (int node = sink; node != source; node = to[arc_in[node] ^ 1]) {
        room[arc_in[node]]--;
        room[arc_in[node] ^ 1] += may_move;
    }
    return 1;
}

static int solve(int pads) {
    int flow = 0;
    build();
    for (int i = 0; i < pads; i++)
        add_arc(source, entrance(pad(i)));
    while (augment())
        flow++;
    return flow;
}

/* Places pad after pad; each is placed if it and those placed before can all be met. */
static int place_from_nothing(int count) {
    int placed = 0;
    for (int i = 1; i <= count; i++)
        placed += solve(i) == i;
    return placed;
}

static int place_and_keep(int count) {
    int placed = 0;
    build();
    for (int i = 0; i < count; i++) {
        add_arc(source, entrance(pad(i)));
        placed += augment();
    }
    return placed;
}

int main(int argc, char **argv) {
    rows = argc > 1 ? atoi(argv[1]) : 64;
    int count = argc > 2 ? atoi(argv[2]) : 2 * rows;
    if (rows < 4 || rows > 64 || rows % 4 != 0 || count < 0 || count > 2 * rows)
        return 1;
    points = rows * COLUMNS;
    cells = 2 * points;
    source = 2 * cells;
    sink = source + 1;
    const char *mode = argc > 3 ? argv[3] : "";
    may_move = strcmp(mode, "stay") != 0;
    int placed = *mode ? place_and_keep(count) : place_from_nothing(count);
    printf("%d cells, %d of %d pads placed\n", cells, placed, count);
    return 0;
}

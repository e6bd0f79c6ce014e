"""Where everything stands in the picture: cells on a grid, links as straight arrows or along lanes between the cells, ports at the border.

The cells of a node with one coordinate make a row or a column, those with two a grid, those with three one grid for each value of the
coordinate that has the fewest. These blocks are put side by side so that the links between them are short. A link between neighbours is a
straight arrow. Any other runs in the gutters between rows and columns, in a lane that links from one line, or from one node to one cell, share.
"""
from collections import defaultdict, namedtuple

WIDTH, HEIGHT = 88, 64           # the least size of a cell
LANE, OUTER = 8, 16              # between lanes, and at the outer edges
WORD = 24                        # the height of a word of a stream
SIDES = {"left": (0, -1), "top": (-1, 0), "right": (0, 1), "bottom": (1, 0)}      # the way out: down and across

Route = namedtuple("Route", "trunk across down")     # the trunk of a link, its gutter of rows, and its gutter of columns or None


def blocks(cells):
    """Gives the blocks by node and slice, each with the row and column of its cells; those with the most cells first."""
    nodes, made = defaultdict(list), defaultdict(dict)
    for cell in cells:
        nodes[cell.node].append(cell)
    for node, members in nodes.items():
        axes = list(zip(*[cell.coordinates for cell in members]))
        cut = min(range(3), key=lambda number: (len(set(axes[number])), -number)) if len(axes) == 3 else None
        for cell in members:
            place = [entry - min(axis) for number, (entry, axis) in enumerate(zip(cell.coordinates, axes)) if number != cut]
            made[node, None if cut is None else cell.coordinates[cut]][cell.number] = tuple([0] * (2 - len(place)) + place)
    return sorted(made.values(), key=len, reverse=True)


def beside(block, box):
    """Gives the ways to put a block beside a box of rows and columns: right of it, below, left or above; a row also as a column."""
    top, left, bottom, right = box
    shapes = [block]
    if len(block) > 1 and not any(row for row, _ in block.values()):
        shapes.append({cell: (column, row) for cell, (row, column) in block.items()})
    for shape in shapes:
        high, wide = (1 + max(place[axis] for place in shape.values()) for axis in (0, 1))
        across, down = range(left - wide + 1, right + 1), range(top - high + 1, bottom + 1)
        corners = [*((row, right + 1) for row in down), *((bottom + 1, column) for column in across),
                   *((row, left - wide) for row in down), *((top - high, column) for column in across)]
        for row, column in corners:
            yield {cell: (row + place[0], column + place[1]) for cell, place in shape.items()}


def bounds(places):
    """Gives the first row and column and the last row and column of some places."""
    rows, columns = zip(*places)
    return min(rows), min(columns), max(rows), max(columns)


def best_site(block, place, pairs):
    """Gives the way to put a block beside what is placed that has the shortest links to it, and then the smallest picture."""
    between = [(a, b) if a in block else (b, a) for a, b in pairs if (a in block and b in place) or (b in block and a in place)]

    def cost(site):
        length = sum(abs(site[a][0] - place[b][0]) + abs(site[a][1] - place[b][1]) for a, b in between)
        top, left, bottom, right = bounds([*place.values(), *site.values()])
        return length, (bottom - top + 1) * (right - left + 1)
    return min(beside(block, bounds(place.values())), key=cost)


def placed(array):
    """Gives the row and column of each cell: block by block, next always the one with the most links to those that are placed."""
    rest, place = blocks(array.cells), {}
    pairs = {(link.consumer, link.producer) for link in array.links if link.consumer != link.producer}
    while rest:
        linked = [sum((a in block) != (b in block) and (a in place or b in place) for a, b in pairs) for block in rest]
        block = rest.pop(max(range(len(rest)), key=lambda number: (linked[number], -number)))
        place.update(best_site(block, place, pairs) if place else block)
    top, left, *_ = bounds(place.values()) if place else (0, 0)
    return {cell: (row - top, column - left) for cell, (row, column) in place.items()}


class Lanes:
    """The lanes of the gutters: each trunk has one in each gutter that it runs in, and trunks that overlap there have different ones."""

    def __init__(self):
        self.stretches, self.lane, self.count = defaultdict(dict), {}, defaultdict(int)

    def add(self, gutter, trunk, one, other):
        low, high = self.stretches[gutter].get(trunk, (one, one))
        self.stretches[gutter][trunk] = min(low, one, other), max(high, one, other)

    def assign(self):
        for gutter, stretches in self.stretches.items():
            ends = []
            for trunk, (low, high) in sorted(stretches.items(), key=lambda item: item[1]):
                lane = next((number for number, end in enumerate(ends) if end < low), len(ends))
                ends[lane:lane + 1] = [high]
                self.lane[gutter, trunk] = lane
            self.count[gutter] = len(ends)


class Layout:
    """`place` has the row and column of each cell, `paths` the corners of each link's way, `ports` the ports of a cell's sides.

    `gap` is the least distance between two cells of a row or column, `loop` the width of a cell's link to itself where it has more than corners.
    """

    def __init__(self, array, gap=46, loop=22):
        self.array, self.place, self.gap, self.loop = array, placed(array), gap, loop
        self.rows, self.columns = (1 + max((place[axis] for place in self.place.values()), default=-1) for axis in (0, 1))
        self._edges()
        self._sides()
        self._sort()
        self._measure()
        self.paths = {}
        self._draw_straight()
        self._draw_routed()

    def _edges(self):
        """Finds for each side the places of the last cells of the rows or columns there."""
        self.last = {side: {} for side in SIDES}
        for row, column in sorted(self.place.values()):
            self.last["left"].setdefault(row, (row, column))
            self.last["right"][row] = row, column
            self.last["top"].setdefault(column, (row, column))
            self.last["bottom"][column] = row, column

    def is_free(self, cell, side):
        """Tells whether no other cell stands between a cell and the border on a side."""
        row, column = self.place[cell]
        return self.last[side][row if side in ("left", "right") else column] == (row, column)

    def _flows(self):
        """Gives the steps, in rows and columns, on which each cell passes on the words of each variable."""
        flows = defaultdict(set)
        for link in self.array.links:
            point = self.array.first_carried(link)
            (row, column), (to_row, to_column) = self.place[link.producer], self.place[link.consumer]
            if link.producer != link.consumer:
                flows[link.producer, point and point.variable].add((to_row - row, to_column - column))
        return flows

    def _sides(self):
        """Chooses for each port a side of its cell at the border: against the way on which its words are passed on, if that is free."""
        self.ports, flows = defaultdict(list), self._flows()
        variable = {line.name: line.point.variable for line in self.array.design.ins}
        outputs = self.array.outputs()
        rows = {self.place[cell][0] for cell in outputs.values()}
        aside = ["bottom", "right"] if len(rows) == 1 < len(outputs) else ["right", "bottom"]
        for port, cell in sorted([*self.array.ports.items(), *outputs.items()], key=lambda item: int(item[0][1:])):
            order = [*aside, "left", "top"]
            if port in variable:
                order = ["left", "top", "bottom", "right"]
                steps = [step for step in flows[cell, variable[port]] if 0 in step]
                against = [side for side in order if any(down * SIDES[side][0] + across * SIDES[side][1] < 0 for down, across in steps)]
                order = against + (["top", "bottom", "left", "right"] if self.rows <= self.columns else order)
            self.ports[cell, next((side for side in order if self.is_free(cell, side)), "inner")].append(port)

    def _sort(self):
        """Sorts the links into loops, straight arrows and those that run along lanes, and says which gutters these need."""
        self.straight, self.loops, self.routed, self.lanes = defaultdict(list), defaultdict(list), {}, Lanes()
        sharing = defaultdict(int)
        for link in self.array.links:
            sharing[link.consumer, self.array.cells[link.producer].node] += 1
        for link in sorted(self.array.links):
            (row, column), (to_row, to_column) = self.place[link.producer], self.place[link.consumer]
            if link.producer == link.consumer:
                self.loops[link.consumer].append(link)
            elif max(abs(to_row - row), abs(to_column - column)) == 1:
                self.straight[frozenset((link.producer, link.consumer))].append(link)
            else:
                node = self.array.cells[link.producer].node
                is_shared = sharing[link.consumer, node] > 1 and self.array.is_value(link.line)
                self._route(link, ("to", link.consumer, node) if is_shared else ("from", link.producer, link.line))
        self.lanes.assign()

    def _route(self, link, trunk):
        """Sends a link along a gutter of rows, and, where it goes further than the next row, along one of columns."""
        (row, column), (to_row, to_column) = self.place[link.producer], self.place[link.consumer]
        across, down = ("row", row if to_row < row else row + 1), None
        self.lanes.add(across, trunk, column, to_column)
        if abs(to_row - row) > 1:
            down = ("column", to_column if column < to_column else to_column + 1)
            self.lanes.add(down, trunk, row, to_row)
        self.routed[link] = Route(trunk, across, down)

    def _measure(self):
        """Gives rows, columns and gutters their places: wide enough for the streams at the ports and for the lanes."""
        at_ports = [line.point for line in self.array.design.ins + self.array.design.ats if line.name[0] in "io"]
        longest = max([len(str(point)) - 2 * bool(point.indices) for point in at_ports], default=2)
        self.slot = max(36, 16 + 6 * longest)
        self.widths, self.heights = [WIDTH] * self.columns, [HEIGHT] * self.rows
        for cell, (row, column) in self.place.items():
            ports = {side: len(self.ports.get((cell, side), ())) for side in SIDES}
            wide = max(max(ports["top"], ports["bottom"]) * self.slot + 8, self.loop * len(self.loops.get(cell, ())))
            self.widths[column] = max(self.widths[column], wide)
            self.heights[row] = max(self.heights[row], max(ports["left"], ports["right"]) * WORD + 4)
        self.x, self.y = self._starts("column", self.widths), self._starts("row", self.heights)
        self.size = self.x[-1], self.y[-1]

    def _starts(self, kind, sizes):
        """Gives where each row or column begins, and where the last gutter ends."""
        place, found = 0, []
        for number, size in enumerate([*sizes, 0]):
            least = OUTER if number in (0, len(sizes)) else self.gap
            place += max(least, 22 + LANE * self.lanes.count[kind, number])
            found.append(place)
            place += size
        return found

    def box(self, cell):
        """Gives left, top, width and height of a cell."""
        row, column = self.place[cell]
        return self.x[column], self.y[row], self.widths[column], self.heights[row]

    def lane(self, gutter, trunk):
        """Gives where a trunk's lane is: its height in a gutter of rows, how far right in one of columns."""
        kind, number = gutter
        return (self.x if kind == "column" else self.y)[number] - 11 - LANE * self.lanes.lane[gutter, trunk]

    def _draw_straight(self):
        self.diagonal = defaultdict(set)
        for pair, links in self.straight.items():
            self._note_diagonal(*pair)
            apart = min(16, (HEIGHT - 16) / len(links))
            for number, link in enumerate(links):
                self.paths[link] = self.arrow(link, apart * (number - (len(links) - 1) / 2))

    def _note_diagonal(self, one, other):
        """Notes the corners of two neighbours at which a diagonal arrow between them ends."""
        for cell, far in ((one, other), (other, one)):
            (row, column), (to_row, to_column) = self.place[cell], self.place[far]
            if row != to_row and column != to_column:
                self.diagonal[cell].add((to_column > column, to_row > row))

    def _draw_routed(self):
        """Gives each link that runs along lanes the corners of its way; links of one trunk end in one arrow."""
        entries = defaultdict(list)
        for link, (trunk, across, down) in self.routed.items():
            x, y, wide, high = self.box(link.producer)
            to_x, to_y, to_wide, to_high = self.box(link.consumer)
            if trunk not in entries[link.consumer]:
                entries[link.consumer].append(trunk)
            shift = 12 * entries[link.consumer].index(trunk)
            level = self.lane(across, trunk)
            has_two_ports = len(self.ports[link.producer, "bottom" if level > y else "top"]) == 2
            start = x + wide * (0.86 if has_two_ports else 0.72)
            way = [(start, y + high if level > y else y), (start, level)]
            if down is None:
                end = to_x + 24 + shift
                self.paths[link] = [*way, (end, level), (end, to_y + to_high if level > to_y else to_y)]
            else:
                pillar, end = self.lane(down, trunk), to_y + 22 + shift
                self.paths[link] = [*way, (pillar, level), (pillar, end), (to_x if pillar < to_x else to_x + to_wide, end)]

    def arrow(self, link, shift):
        """Gives the ends of a straight arrow between neighbours, moved aside by a shift."""
        (row, column), (to_row, to_column) = self.place[link.producer], self.place[link.consumer]
        (x, y, wide, high), (to_x, to_y, to_wide, to_high) = self.box(link.producer), self.box(link.consumer)
        if row == to_row:
            level = y + high / 2 + shift
            return [(x + wide, level), (to_x, level)] if column < to_column else [(x, level), (to_x + to_wide, level)]
        if column == to_column:
            level = x + wide / 2 + shift
            return [(level, y + high), (level, to_y)] if row < to_row else [(level, y), (level, to_y + to_high)]
        right, down = to_column > column, to_row > row
        start = x + (wide - 10 if right else 10) + shift, y + high if down else y
        return [start, (to_x + (10 if right else to_wide - 10) + shift, to_y if down else to_y + to_high)]

    def corners(self, cell):
        """Gives the corners of a cell, as 1 for right and 1 for down, those first at which no diagonal arrow ends."""
        return sorted([(1, 0), (1, 1), (0, 1), (0, 0)], key=lambda corner: corner in self.diagonal[cell])

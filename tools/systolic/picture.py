"""The picture of an array: cells, links with their registers, and the streams of words at its ports.

A stream is drawn as it is before cycle 0: the word of cycle `t` stands `t` places away from its port, and goes on by one place a cycle. That of
an output is drawn as it is after the last cycle. A port of a cell that has no free side is a short arrow, and its words stand below the picture.
"""
from html import escape

from .formula import formulas
from .layout import SIDES, WORD, Layout
from .svg import alone, box, colours, path, point, text, towards

STUB = 30               # the way from the border to the first word of a stream
LIVE = {"gap": 72, "loop": 54}      # room for a word on each link


class Picture:
    """`is_live` leaves room in each cell and on each link for what a cycle has there, for the page that plays a run."""

    def __init__(self, array, is_live=False):
        self.array, self.is_live, self.colour = array, is_live, colours(array)
        self.layout = Layout(array, **LIVE if is_live else {})
        self.outputs = set(array.outputs().values())
        self.place = {port: where for where, ports in self.layout.ports.items() for port in ports}
        self.words = {}
        for line in array.design.ins + array.design.ats:
            if line.name in self.place:
                self.words.setdefault(line.name, []).append(line)
        self._frame()

    def side(self, port):
        return self.place[port][1]

    def _frame(self):
        """Leaves as much room at each border as the longest stream there takes."""
        self.room = {side: 12 for side in SIDES}
        for port, lines in self.words.items():
            side = self.side(port)
            if side in self.room:
                step = self.layout.slot if side in ("left", "right") else WORD
                away = max(self.away(port, line.cycle) for line in lines) + 1
                self.room[side] = max(self.room[side], STUB + away * step + 46)
        self.room["top"] += 34
        width, height = self.layout.size
        self.width = self.room["left"] + width + self.room["right"]
        self.height = self.room["top"] + height + self.room["bottom"]

    def svg(self, title):
        legend, wide, tall = self.legend(self.height + 8)
        width = max(self.width, wide, 420)
        head = text(14, 22, escape(title), "title", "start") + text(width - 14, 22, self.array.totals, "faint", "end") + "\n"
        label = f"The systolic array {title}: {self.array.totals}"
        return alone(width, self.height + 8 + tall, head + self.drawn() + legend, label, self.colour)

    def drawn(self):
        """Gives the array with its streams, without title and legend."""
        parts = [*self.rulers(), *[self.link(number, link) for number, link in enumerate(sorted(self.array.links))],
                 *map(self.cell, self.array.cells), *map(self.port, self.place)]
        return f'<g transform="translate({self.room["left"]:.0f},{self.room["top"]:.0f})">\n' + "\n".join(parts) + "\n</g>\n"

    def cell(self, cell):
        x, y, wide, high = self.layout.box(cell.number)
        colour, name = self.colour[cell.node], point(cell.node, cell.coordinates)
        across, down = x + wide / 2, y + high / 2
        made = box(across, down, wide, high, f"t{colour} s{colour}", 8, 1.5)
        if cell.number in self.outputs:
            made += f'<rect class="s{colour} wire" x="{x + 3:.1f}" y="{y + 3:.1f}" width="{wide - 6:.1f}" height="{high - 6:.1f}" rx="6"/>'
        if self.is_live:
            made += text(across, down - 16, name, "place faint") + text(across, down + 2, "", "now") + text(across, down + 20, "", "value")
        else:
            made += text(across, down + 4, name)
        return f'<g class="cell" id="c{cell.number}">{made}</g>'

    def link(self, number, link):
        carried = self.array.first_carried(link)
        colour = self.colour[carried.variable if carried else self.array.cells[link.producer].node]
        if link.producer == link.consumer:
            mark, way = self.loop(link)
            word, anchor = (mark[0] + 9, mark[1] + 4), "start"
        else:
            points = self.layout.paths[link]
            mark, way = self.mark(points), path(points)
            is_level = len(points) == 2 and points[0][1] == points[1][1]
            word = ((mark[0] + points[1][0]) / 2, mark[1] + 3.5) if is_level else (mark[0] + 9, mark[1] + 4)
            anchor = "middle" if is_level else "start"
        made = f'<path class="s{colour} wire" d="{way}" marker-end="url(#to{colour})"/>' + self.registers(mark, link.delay, colour)
        if self.is_live:
            made += text(*word, "", "carried", anchor)
        return f'<g class="link" id="l{number}">{made}</g>'

    def mark(self, points):
        """Gives where on a link its registers are drawn: in the middle of a straight arrow, near the start of any other way."""
        if len(points) > 2:
            return towards(points[0], points[1], 10)
        if self.is_live:
            return towards(*points, 14)
        return towards(*points, sum((a - b) ** 2 for a, b in zip(*points)) ** 0.5 / 2 - 2)

    def loop(self, link):
        """Gives the middle of the registers of a cell's link to itself, and its way: round one of the cell's corners, or below the cell."""
        x, y, wide, high = self.layout.box(link.consumer)
        number = self.layout.loops[link.consumer].index(link)
        if number >= 4:
            begin, low = x + 22 + self.layout.loop * (number - 4), y + high
            return (begin + 6, low + 13), f"M{begin:.1f},{low:.1f} v6 q0,7 6,7 q6,0 6,-7 v-6"
        right, down = self.layout.corners(link.consumer)[number]
        corner = x + wide * right, y + high * down
        out, up = (1 if right else -1), (1 if down else -1)
        ways = [(0, -16 * up), (15 * out, -16 * up), (15 * out, 15 * up), (0, 14 * up), (-16 * out, 10 * up), (-16 * out, 0)]
        begin, first, second, middle, third, end = (f"{corner[0] + across:.1f},{corner[1] + along:.1f}" for across, along in ways)
        return (corner[0] + 9 * out, corner[1] + 9 * up), f"M{begin} C{first} {second} {middle} S{third} {end}"

    @staticmethod
    def registers(middle, delay, colour):
        """Gives the sign of a delay line: a full square for one register, a square with their number for more."""
        x, y = middle
        if delay == 1:
            return f'<rect class="f{colour}" x="{x - 3.5:.1f}" y="{y - 3.5:.1f}" width="7" height="7"/>'
        wide = 12 + 5 * (len(str(delay)) - 1)
        square = f'<rect class="register s{colour}" x="{x - wide / 2:.1f}" y="{y - 6:.1f}" width="{wide}" height="12" rx="1.5"/>'
        return square + text(x, y + 3.2, delay, "count")

    def start(self, port):
        """Gives where a port's arrow meets its cell, the border of the array there, and the way out."""
        cell, side = self.place[port]
        x, y, wide, high = self.layout.box(cell)
        ports = self.layout.ports[cell, side]
        number = ports.index(port)
        shift = number - (len(ports) - 1) / 2
        if side == "inner":
            return (x + 6, y + 12 + 16 * number), (x - 12, y + 12 + 16 * number), (0, -1)
        down, across = SIDES[side]
        if across:
            level = y + high / 2 + shift * WORD
            return (x if across < 0 else x + wide, level), (0 if across < 0 else self.layout.size[0], level), (down, across)
        level = x + wide / 2 + shift * self.layout.slot
        return (level, y if down < 0 else y + high), (level, 0 if down < 0 else self.layout.size[1]), (down, across)

    def slot(self, border, way, away):
        """Gives the middle of a place of a stream, counted from the border."""
        step = STUB + (away + 0.5) * (self.layout.slot if way[1] else WORD)
        return border[0] + way[1] * step, border[1] + way[0] * step

    def away(self, port, cycle):
        """Gives how many places from its port the word of a cycle is drawn: before cycle 0 at an input, after the last cycle at an output."""
        return self.array.cycles - 1 - cycle if port[0] == "o" else cycle

    def port(self, port):
        """Gives a port's arrow and its stream."""
        end, border, way = self.start(port)
        lines, is_inner = self.words.get(port, []), self.side(port) == "inner"
        colour = self.colour[lines[0].point.variable] if lines else 0
        near = border if is_inner else (border[0] + way[1] * (STUB - 4), border[1] + way[0] * (STUB - 4))
        arrow = path([end, near] if port[0] == "o" else [near, end])
        made = f'<path class="s{colour} wire" d="{arrow}" marker-end="url(#to{colour})"/>'
        middle = border[0] + way[1] * 13, border[1] + way[0] * 13
        made += text(middle[0] + (0 if way[1] else 11), middle[1] - (5 if way[1] else -3.5), port, "faint")
        if self.is_live:
            made += text((near[0] + end[0]) / 2, (near[1] + end[1]) / 2 + 6, "", "carried")
        if lines and not is_inner:
            made += self.stream(port, border, way)
        return f'<g class="port" id="{port}">{made}</g>'

    def stream(self, port, border, way):
        """Gives the words of a port; `data-across` and `data-down` say how far they move in a cycle."""
        lines = self.words[port]
        first, last = (self.slot(border, way, away) for away in (-0.5, max(self.away(port, line.cycle) for line in lines) + 0.5))
        across, down = self.layout.slot * way[1], WORD * way[0]
        words = [self.word(self.slot(border, way, self.away(port, line.cycle)), line) for line in lines]
        return (f'<path class="dots" d="{path([first, last])}"/><g class="stream" data-across="{across}" data-down="{down}">'
                + "".join(words) + "</g>")

    def word(self, middle, line):
        colour = self.colour[line.point.variable]
        drawn = box(*middle, self.layout.slot - 6, 18, f"t{colour} s{colour}", 4, 0.8) + text(middle[0], middle[1] + 3.5, point(*line.point))
        return f'<g class="word" data-cycle="{line.cycle}">{drawn}</g>'

    def rulers(self):
        """Gives the cycles of the places of the streams: along each border once for inputs and once for outputs."""
        for side in SIDES:
            for kind in "io":
                ports = [port for port in self.words if self.side(port) == side and port[0] == kind]
                if ports:
                    yield from self.ruler(SIDES[side], ports)

    def ruler(self, way, ports):
        starts, across = [self.start(port)[1] for port in ports], way[1]
        level = min(start[1] for start in starts) - 24 if across else min(start[0] for start in starts) - self.layout.slot / 2 - 10
        border = (starts[0][0], level) if across else (level, starts[0][1])
        last = max(self.away(port, line.cycle) for port in ports for line in self.words[port])
        for away in range(last + 1):
            x, y = self.slot(border, way, away)
            yield text(x, y + 3.5, self.array.cycles - 1 - away if ports[0][0] == "o" else away, "faint ruler")
        x, y = self.slot(border, way, last + 1)
        head = "cycle out" if ports[0][0] == "o" else "cycle in"
        yield text(x if across else x + 6, y + 3.5, head, "faint ruler", "middle" if across else "end")

    def legend(self, y):
        """Gives the colours and signs, what the cells of each node compute, and the words of inner ports; how wide and how high all that is."""
        made, x = [], 16
        for name in dict.fromkeys(name.partition("#")[0] for name in self.colour):
            colour = self.colour[name]
            made.append(box(x + 7, y - 4, 14, 11, f"t{colour} s{colour}", 3) + text(x + 20, y, point(name), "", "start"))
            x += 44 + 7 * len(name)
        made.append(self.registers((x + 6, y - 4), 1, 0) + text(x + 16, y, "one register", "faint", "start"))
        made.append(self.registers((x + 92, y - 4), 2, 0) + text(x + 103, y, "two registers, and so on", "faint", "start"))
        wide, y = x + 230, y + 22
        for node, forms in formulas(self.array).items():
            line = "\u2003or\u2003".join(forms)
            made.append(text(16, y, point(node) + " ← " + escape(line), "name", "start"))
            wide, y = max(wide, 60 + 6 * len(node) + 6 * len(line)), y + 16
        for port in [port for port in self.words if self.side(port) == "inner"]:
            line = f"port {port}: " + ", ".join(f"{line.point} in cycle {line.cycle}" for line in self.words[port])
            made.append(text(16, y, line, "faint", "start"))
            wide, y = max(wide, 32 + 5.5 * len(line)), y + 14
        return "\n".join(made) + "\n", wide, y + 4 - self.height - 8


def picture(array, title):
    return Picture(array).svg(title)

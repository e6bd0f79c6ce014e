"""The space-time diagram of an array: cells across, cycles down, each computed point in its place, and the dependences between them as lines.

Above 48 cells points are dots, whose names show under the pointer.
"""
from html import escape

from .svg import alone, box, colours, point, text, towards

LEFT, TOP, MANY = 56, 74, 48


class SpaceTime:
    def __init__(self, array):
        self.array, self.colour = array, colours(array)
        order = self.ordered()
        self.order, self.has_dots = order, len(order) > MANY
        longest = max([len(str(computed)) - 2 for computed in array.computed.values()], default=4)
        self.across, self.down = (13, 15) if self.has_dots else (max(58, 6 * longest + 14), 40)
        self.column = {cell.number: number for number, cell in enumerate(order)}
        self.top = TOP + 20 * self.has_dots
        self.width, self.height = LEFT + self.across * len(order) + 20, self.top + self.down * array.cycles + 10

    def ordered(self):
        """Gives the cells as they stand across: node after node by their first cycles, and those of nodes that read each other by coordinates."""
        cells, computed = self.array.cells, self.array.computed
        reads = {cell.node: {cell.node} for cell in cells}
        for link in self.array.links:
            reads[cells[link.consumer].node].add(cells[link.producer].node)
        for between in reads:
            for others in reads.values():
                others |= reads[between] if between in others else set()
        together = {node: sorted(other for other in others if node in reads[other]) for node, others in reads.items()}
        first = {node: min([cycle for cell, cycle in computed if cells[cell].node in group], default=0) for node, group in together.items()}
        return sorted(cells, key=lambda cell: (first[cell.node], together[cell.node], cell.coordinates, cell.node))

    def svg(self, title):
        note = "cells across, cycles down; a mark at the upper edge is a word from an input port"
        head = text(14, 22, escape(title), "title", "start") + text(14, 40, note, "faint", "start") + "\n"
        label = f"The space-time diagram of {title}: {self.array.totals}"
        return alone(max(self.width, 420), self.height, head + self.drawn(), label, self.colour)

    def drawn(self):
        """Gives the axes, then the dependences and above them the points, both in a group for each cycle."""
        layers = []
        for kind, drawn in (("reads", self.dependences()), ("points", self.points())):
            groups = [[] for _ in range(self.array.cycles)]
            for cycle, shape in drawn:
                groups[cycle].append(shape)
            layers += ["\n".join([f'<g class="{kind}" data-cycle="{cycle}">', *group, "</g>"]) for cycle, group in enumerate(groups) if group]
        return "\n".join([*self.axes(), *layers]) + "\n"

    def middle(self, cell, cycle):
        return LEFT + self.across * (self.column[cell] + 0.5), self.top + self.down * (cycle + 0.5)

    def axes(self):
        yield text(LEFT - 14, self.top - 6, "cycle", "faint", "end")
        for cycle in range(self.array.cycles):
            y = self.top + self.down * (cycle + 0.5)
            yield f'<path class="rule row" d="M{LEFT - 6},{y:.1f} H{self.width - 14:.1f}"/>' + text(LEFT - 14, y + 3.5, cycle, "faint", "end")
        for number, cell in enumerate(self.order):
            x, name = LEFT + self.across * (number + 0.5), point(cell.node, cell.coordinates)
            if self.has_dots:
                yield f'<g transform="translate({x + 3:.1f},{self.top - 6}) rotate(-90)">{text(0, 0, name, "faint", "start")}</g>'
            else:
                yield text(x, self.top - 6, name)

    def dependences(self):
        """Gives a line for each word that a cell reads from a delay line, in the colour of the word's variable, with the reader's cycle."""
        for link, cycles in self.array.links.items():
            shift = 0 if self.array.is_value(link.line) else 5
            for cycle in sorted(cycles):
                carried = self.array.carried(link.line, cycle - link.delay)
                colour = self.colour[carried.variable] if carried else 0
                (x, y), (to_x, to_y) = self.middle(link.producer, cycle - link.delay), self.middle(link.consumer, cycle)
                start = x + shift, y
                end = self.edge((to_x + shift, to_y), start)
                head = "" if self.has_dots else f' marker-end="url(#to{colour})"'
                yield cycle, (f'<path class="{"thin " * self.has_dots}dependence s{colour}" '
                              f'd="M{start[0]:.1f},{start[1]:.1f} L{end[0]:.1f},{end[1]:.1f}"{head}/>')

    def edge(self, middle, start):
        """Gives where a line from a start to a point's mark meets the mark's edge."""
        if self.has_dots:
            return towards(middle, start, 5)
        across, down = abs(start[0] - middle[0]), abs(start[1] - middle[1])
        part = min(12 / max(down, 1e-9), (self.across / 2 - 6) / max(across, 1e-9))
        return middle[0] + (start[0] - middle[0]) * part, middle[1] + (start[1] - middle[1]) * part

    def marks(self):
        """Gives the colours of the words that each cell takes from input ports in each cycle."""
        found = {}
        for line in self.array.design.ins:
            if line.name in self.array.ports:
                found.setdefault((self.array.ports[line.name], line.cycle), []).append(self.colour[line.point.variable])
        return found

    def points(self):
        """Gives the mark of each computed point, with its cycle."""
        marks = self.marks()
        for (cell, cycle), computed in sorted(self.array.computed.items()):
            x, y = self.middle(cell, cycle)
            colour = self.colour[computed.variable]
            if self.has_dots:
                made = f'<circle class="f{colour}" cx="{x:.1f}" cy="{y:.1f}" r="4"><title>{computed}</title></circle>'
            else:
                made = box(x, y, self.across - 8, 22, f"t{colour} s{colour}", 11) + text(x, y + 3, point(*computed))
                inputs = marks.get((cell, cycle), [])
                for number, mark in enumerate(inputs):
                    left = x - 4 + 10 * (number - (len(inputs) - 1) / 2)
                    made += f'<path class="f{mark}" d="M{left:.1f},{y - 15:.1f} h8 l-4,6 z"/>'
            yield cycle, f'<g class="computed" data-cell="{cell}" data-cycle="{cycle}">{made}</g>'


def spacetime(array, title):
    return SpaceTime(array).svg(title)

"""The page that plays a run: one text that stands alone, with the picture, the space-time diagram and what every cell, link and port has in each cycle."""
import json
import os
from html import escape

from .array import Array
from .formula import formula
from .listing import Point
from .picture import Picture
from .spacetime import SpaceTime
from .svg import SHAPES, heads, most, svg, tinted
from .verilog import signed

FRAME = os.path.join(os.path.dirname(os.path.abspath(__file__)), "page.html")


class Run:
    """What the cells, links and ports have, cycle by cycle: a point, and a word as a number with a sign and without one."""

    def __init__(self, array, shown):
        self.array, self.shown = array, shown

    def word(self, name, cycle):
        """Gives the word of a name, with a sign, and then without one where that is another number."""
        word, width = self.shown[cycle][name], self.array.module.widths[name]
        number = signed(word, width) if width > 1 else word
        return [str(number).replace("-", "−"), *([str(word)] if number < 0 else [])]

    def cells(self, cycle):
        """Gives for each cell that computes in a cycle its point, its word, and its formula by points and by words."""
        def by_point(array, line, at):
            return str(array.carried(line, at) or "?")

        def by_word(_, line, at):
            number = self.word(line, at)[0]
            return f"({number})" if number.startswith("−") else number
        found = {}
        for cell, _ in (place for place in self.array.computed if place[1] == cycle):
            name = f"c{cell}"
            forms = [formula(self.array, name, cycle, spelled) for spelled in (by_point, by_word)]
            found[cell] = [str(self.array.computed[cell, cycle]), self.word(name, cycle), *forms]
        return found

    def links(self):
        """Gives for each cycle the links that are read in it, with the point and the word that they hand on."""
        found = [{} for _ in range(self.array.cycles)]
        for number, link in enumerate(sorted(self.array.links)):
            for cycle in self.array.links[link]:
                before = cycle - link.delay
                found[cycle][number] = [str(self.array.carried(link.line, before) or "?"), self.word(link.line, before)]
        return found

    def ports(self):
        """Gives for each cycle the ports that the listing names in it, with the point and the word."""
        found = [{} for _ in range(self.array.cycles)]
        for point, name, cycle in self.array.design.ins + self.array.design.ats:
            if name in self.array.module.inputs or name in self.array.module.outputs:
                found[cycle][name] = [str(point), self.word(name, cycle)]
        return found

    def state(self):
        """Gives all of it, as the page's script reads it."""
        wires = [f"from cell {link.producer} to cell {link.consumer} through {link.delay} register{'s' * (link.delay > 1)}"
                 for link in sorted(self.array.links)]
        nodes = [str(Point(cell.node, cell.coordinates)) for cell in self.array.cells]
        return {"cycles": self.array.cycles, "nodes": nodes, "wires": wires, "links": self.links(), "ports": self.ports(),
                "cells": [self.cells(cycle) for cycle in range(self.array.cycles)]}


def page(given, clocked):
    array = Array(given, clocked.design)
    picture, diagram = Picture(array, is_live=True), SpaceTime(array)
    state = Run(array, clocked.shown).state() | {"top": diagram.top, "down": diagram.down}
    legend, wide, tall = picture.legend(picture.height + 8)
    bar = f'<rect id="bar" x="0" y="0" width="{diagram.width:.0f}" height="{diagram.down}"/>\n'
    title, used = given.title(), most(picture.colour)
    drawn = heads(used) + picture.drawn() + legend
    parts = {
        "TITLE": escape(title), "TOTALS": array.totals, "LIGHT": SHAPES + tinted("light", used),
        "DARKMEDIA": tinted("dark", used, ":root:not([data-theme=light]) "), "DARK": tinted("dark", used, ":root[data-theme=dark] "),
        "PICTURE": svg(max(picture.width, wide), picture.height + 8 + tall, drawn, f"The array of {title}", above=30),
        "SPACETIME": svg(diagram.width, diagram.height, bar + diagram.drawn(), f"The space-time diagram of {title}", above=46),
        "RUN": json.dumps(state, separators=(",", ":"), ensure_ascii=False),
    }
    with open(FRAME, encoding="utf-8") as file:
        text = file.read()
    for name, part in parts.items():
        text = text.replace(f"@{name}@", part)
    return text

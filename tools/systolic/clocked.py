"""A run of an emitted module on data, with the words of all its wires.

The module is clocked here, since `trace` shows ports alone. Before anything is made of it, each port's word in each cycle is compared with what
`alphav trace` writes, and each output's word with `alphav run`; where one differs the tool ends.
"""
import random
import re

from .command import Ended, Given
from .listing import Design, Point, numbers

VALUE = re.compile(r"(?m)^\s*(\w+)\s*\(([^)]*)\)\s*=\s*(-?\d+)")


class Clocked:
    """`inputs` has the words of the inputs by point, `shown` those of all names in each cycle, `expected` those of the listed computed points."""

    def __init__(self, given):
        text, _, lines = given.answer("trace", given.whole).partition("\n%%\n")
        self.design = Design(text + "\n")
        module = self.design.module
        widths = {line.point: module.inputs[line.name] for line in self.design.ins}
        self.inputs = {point: word % (1 << widths[point]) for point, word in values(given.data).items() if point in widths}
        self.shown = module.run(self.stream())
        self.expected = {line.point: self.shown[line.cycle][line.name] for line in self.design.ats}
        self.compare_ports(lines.splitlines())
        self.compare_outputs(values(given.answer("run", given.whole)))

    def stream(self):
        """Gives the words of the input ports in each cycle: those of the listing, and 0 elsewhere."""
        ports = [dict.fromkeys(self.design.module.inputs, 0) for _ in range(self.design.cycles)]
        for point, port, cycle in self.design.ins:
            ports[cycle][port] = self.inputs[point]
        return ports

    def compare_ports(self, lines):
        for cycle, line in enumerate(lines[:len(self.shown)]):
            for port, word in (part.split("=") for part in line.split()[1:]):
                if self.shown[cycle][port] != int(word):
                    raise Ended(f"port {port} has {self.shown[cycle][port]} in cycle {cycle} here, and {word} in alphav trace")

    def compare_outputs(self, words):
        for point, word in words.items():
            if self.expected[point] != word:
                raise Ended(f"{point} is {self.expected[point]} here, and {word} in alphav run")


def values(text):
    """Reads lines `NAME ( INTEGER , INTEGER ) = VALUE`, of data or of what `run` writes."""
    return {Point(name, numbers(re.sub(r"\s", "", indices))): int(value) for name, indices, value in VALUE.findall(re.sub(r"--.*", "", text))}


def small(width, chance=random.Random(1)):
    """Draws a word that is easy to follow."""
    return chance.randint(1, min(9, (1 << width) - 1))


def with_data(given, draw=small):
    """Gives a text with data: its own, or else what `draw` gives for the width of each point that is read, and 0 for any other point."""
    if given.data is not None:
        return given
    design = Design(given.answer("emit"))
    widths = {line.point: design.module.inputs[line.name] for line in design.ins}
    data = "".join(f"{variable} ({','.join(map(str, indices))}) = {draw(width)}\n" for (variable, indices), width in widths.items())
    while True:
        made = Given(given.words, f"{given.system}\n%%\n{data}")
        try:
            made.answer("run", made.whole)
            return made
        except Ended as ended:
            missing = re.fullmatch(r"refused: data missing (\w+ \S+)", str(ended))
            if not missing:
                raise
            data += f"{missing.group(1)} = 0\n"

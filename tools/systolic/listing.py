"""The lines that the program writes about an array: the listing before a module, the cells and totals of `table`, the lines of `schedule`."""
import math
import re
from collections import namedtuple

from .verilog import Module

LISTED = re.compile(r"(?m)^// (in|at) (\S+) (\(\S*\)) (\S+) (\d+)$")

Cell = namedtuple("Cell", "number node coordinates")          # `cell 2 C#1 (1,1)`
Listed = namedtuple("Listed", "point name cycle")             # `in X (0) i0 0`, or `at Y (0) o0 0`


class Point(namedtuple("Point", "variable indices")):
    """A point of a variable or of a reduction."""

    def __str__(self):
        return f"{self.variable}({','.join(map(str, self.indices))})" if self.indices else self.variable


def numbers(text):
    """Reads `(1,-2)`."""
    return tuple(int(number) for number in text.strip("()").split(",") if number)


class Design:
    """A text that `emit` writes: where each input is presented, where each computed point is shown, and the module."""

    def __init__(self, text):
        self.text, self.module, self.ins, self.ats = text, Module(text), [], []
        for kind, variable, indices, name, cycle in LISTED.findall(text):
            (self.ins if kind == "in" else self.ats).append(Listed(Point(variable, numbers(indices)), name, int(cycle)))
        self.cycles = 1 + max([line.cycle for line in self.ins + self.ats], default=-1)


class Table:
    """The cells and the totals that `table` writes."""

    def __init__(self, text):
        lines = [line.split() for line in text.splitlines()]
        self.cells = [Cell(int(line[1]), line[2], numbers(line[3])) for line in lines if line[0] == "cell"]
        self.totals = " ".join(lines[-1])
        self.cycles, self.registers = int(lines[-1][1]), int(lines[-1][5])


class Node(namedtuple("Node", "linear offset")):
    """A node of the schedule: its linear part and its offset."""

    def indices(self, coordinates, cycle):
        """Gives the point that is computed in a cycle on the cell with these coordinates.

        Let the linear part be `g` times `v` without a common divisor. The coordinates are the point's entries but that at the last 1 or -1
        of `v`. Where `v` has none, the first coordinate is the sum of the entries at the last 3 and at the last 2 or 4 of `v`, each with
        the sign that `v` has there, and the others are the entries elsewhere.
        """
        if not self.linear:
            return ()
        divisor = math.gcd(*self.linear)
        vector = [entry // divisor for entry in self.linear]
        ones = [place for place, entry in enumerate(vector) if abs(entry) == 1]
        solved = ones[-1:] or [max(place for place, entry in enumerate(vector) if abs(entry) in sizes) for sizes in ((3,), (2, 4))]
        rest = list(coordinates[len(solved) - 1:])
        point = [0 if place in solved else rest.pop(0) for place in range(len(vector))]
        left = (cycle - self.offset - sum(a * b for a, b in zip(self.linear, point))) // divisor
        if ones:
            point[solved[0]] = left * vector[solved[0]]
            return tuple(point)
        # the two entries x and y, taken with the signs of the vector: |v_p| x + |v_q| y = left, and x + y is the first coordinate
        (p, q), total = solved, coordinates[0]
        x = (left - abs(vector[q]) * total) // (abs(vector[p]) - abs(vector[q]))
        point[p], point[q] = math.copysign(1, vector[p]) * x, math.copysign(1, vector[q]) * (total - x)
        return tuple(map(int, point))


def schedule(text):
    """Gives the nodes by name."""
    return {name: Node(numbers(linear), int(offset)) for name, linear, offset in map(str.split, text.splitlines())}

"""A run of the array that `alphav stream` writes, on some problems one after another.

What it must show is taken from `alphav trace` and `alphav run` on each problem alone. The points of problem B have `@B` behind their variable's name.
"""
import re
from collections import namedtuple

from .clocked import Clocked, values, with_data
from .command import Ended, Given
from .listing import Design, Listed, Point

Sequence = namedtuple("Sequence", "text module ins ats cycles")     # a design whose lines are those of all problems


def of_problem(number, point):
    return Point(f"{point.variable}@{number}", point.indices)


class Streamed:
    """`design` has the text, with the lines of all problems; `inputs` and `expected` have the words by point, as those of `Clocked`."""

    def __init__(self, given, sets):
        text, _, lines = given.answer("stream", given.system + "".join(f"\n%%\n{data}" for data in sets)).partition("\n%%\n")
        self.lines, self.period = lines.splitlines(), period(text)
        alone = [Clocked(Given(given.words, f"{given.system}\n%%\n{data}")) for data in sets]
        self.inputs = {of_problem(number, point): word for number, run in enumerate(alone) for point, word in run.inputs.items()}
        self.expected = {of_problem(number, point): word for number, run in enumerate(alone) for point, word in run.expected.items()}
        one = Design(text + "\n")
        self.design = Sequence(one.text, one.module, self.later(one.ins, len(sets)), self.later(one.ats, len(sets)),
                               one.cycles + self.period * (len(sets) - 1))
        self.compare()

    def later(self, lines, count):
        """Gives the lines of so many problems, each a period later than those of the one before."""
        return [Listed(of_problem(number, point), name, cycle + number * self.period) for number in range(count) for point, name, cycle in lines]

    def compare(self):
        """Ends where the run that was written is not as long as it must be, or does not show each word at its port."""
        if len(self.lines) != self.design.cycles:
            raise Ended(f"alphav stream writes {len(self.lines)} cycles, and not {self.design.cycles}")
        shown = [dict(part.split("=") for part in line.split()[1:]) for line in self.lines]
        for lines, words in ((self.design.ins, self.inputs), (self.design.ats, self.expected)):
            for point, name, cycle in lines:
                if int(shown[cycle].get(name, words[point])) != words[point]:
                    raise Ended(f"{point} is {shown[cycle][name]} on {name} in cycle {cycle} of alphav stream, and not {words[point]}")


def period(text):
    """Gives the period, which stands in the second line of the text."""
    found = re.match(r"// alphav 2\n// period (\d+)\n", text)
    if not found:
        raise Ended("the second line of alphav stream tells no period")
    return int(found.group(1))


def data_sets(given, count, chance):
    """Gives so many sets of data for a text, each word by chance; those of points that no cell reads are 0."""
    points = values(with_data(Given(given.words, given.system)).data)
    design = Design(given.answer("emit"))
    widths = {line.point: design.module.inputs[line.name] for line in design.ins}

    def word(point):
        return chance.getrandbits(widths[point]) if point in widths else 0
    return ["".join(f"{point.variable} ({','.join(map(str, point.indices))}) = {word(point)}\n" for point in points) for _ in range(count)]

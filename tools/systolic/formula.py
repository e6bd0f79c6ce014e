"""What a cell computes, as a formula of what it reads: `C#1 + A × B`."""
from .verilog import Literal, signed

RANKS = {"+": 1, "-": 1, "*": 2}
HIGHEST = 3
SIGNS = {"*": "×", "-": "−", "==": "=", "!=": "≠", "<=": "≤", ">=": "≥"}


def formulas(array):
    """Gives each node its formulas over variables, in the order of the cycles in which they come first."""
    found = {}
    for cell, cycle in sorted(array.computed, key=lambda place: place[::-1]):
        found.setdefault(array.cells[cell].node, {})[formula(array, f"c{cell}", cycle, variable)] = True
    return found


def variable(array, line, cycle):
    """Names what a port or line carries in a cycle by its variable alone."""
    point = array.carried(line, cycle)
    return point.variable if point else "?"


def formula(array, name, cycle, spelled):
    """Gives the formula of a wire in a cycle; `spelled(array, line, cycle)` names what a port or the head of a delay line has in a cycle."""
    return Formulas(array, spelled).ranked(name, cycle)[0]


def number(literal):
    """Gives a literal with its sign; one of a single bit has none."""
    return str(signed(*literal) if literal.width > 1 else literal.word).replace("-", "−")


class Formulas:
    def __init__(self, array, spelled):
        self.array, self.spelled = array, spelled

    def ranked(self, operand, cycle):
        """Gives an operand's formula, and its rank: the highest for a name, a number or a call, less where parentheses may be wanted."""
        if not isinstance(operand, str):
            return number(operand), HIGHEST
        if operand not in self.array.module.drives:
            line, delay = self.array.tapped(operand)
            return self.spelled(self.array, line, cycle - delay), HIGHEST
        operator, operands = self.array.operation(operand, cycle)
        if operator == "?":
            return self.choice(operands, cycle)
        if operator == "":
            return self.ranked(operands[0], cycle)
        return self.joined(operator, [self.ranked(it, cycle) for it in operands])

    def joined(self, operator, sides):
        """Gives the formula of two operands, shorter where one is 0 or 1: a reduction begins with its identity, and `-e` is `0 - e`."""
        rank = RANKS.get(operator, 0)
        (left, left_rank), (right, right_rank) = sides
        if operator in "+*" and left == "01"[operator == "*"]:
            return right, right_rank
        if operator == "-" and right == "0":
            return left, left_rank
        if right_rank < rank or right_rank == rank and operator == "-":
            right = f"({right})"
        if operator == "-" and left == "0":
            return f"−{right}", 0
        if left_rank < rank:
            left = f"({left})"
        return f"{left} {SIGNS.get(operator, operator)} {right}", rank

    def choice(self, operands, cycle):
        """Gives the formula of a selection by data: the lesser or greater of two, or an `if`."""
        test, *arms = operands
        operator, compared = self.array.operation(test, cycle)
        if self.array.module.drives[test].is_signed and sorted(map(str, compared)) == sorted(map(str, arms)):
            return self.extreme((operator[0] == "<") == (compared[0] == arms[0]), arms, cycle)
        one, other = (self.ranked(arm, cycle)[0] for arm in arms)
        return f"(if {self.ranked(test, cycle)[0]} then {one} else {other})", HIGHEST

    def extreme(self, is_least, arms, cycle):
        """Gives the formula of the lesser or greater of two; the lesser of any word and the greatest one is that word."""
        width = arms[0].width if isinstance(arms[0], Literal) else self.array.module.widths[arms[0]]
        identity = number(Literal((1 << width - 1) - is_least, width))
        one, other = (self.ranked(arm, cycle) for arm in arms)
        if identity in (one[0], other[0]):
            return other if one[0] == identity else one
        return f"{'min' if is_least else 'max'}({one[0]}, {other[0]})", HIGHEST

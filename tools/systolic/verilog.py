"""The text that `alphav emit` writes, read line by line: its flat module, and the clocked run of that.

The forms of the lines are those of docs/VERILOG.md. An operand is a name or a `Literal`. A name `n` of the kind of an instance `u` is `u_n` in the
flat module. A text without kinds is read as well.
"""
import re
from collections import namedtuple

PORT = re.compile(r"(input|output) \[(\d+):0\] (\w+)")
DECLARED = re.compile(r"  (wire|reg) \[(\d+):0\] (\w+);")
DRIVEN = re.compile(r"  assign (\w+) = (.+);")
STEPPED = re.compile(r"  always @\(posedge clk\) if \(rst\) (\w+) <= \d+'d(\d+); else \w+ <= (\S+);")
INSTANTIATED = re.compile(r"  (\w+) (\w+) \((\..+)\);")
LINKED = re.compile(r"\.(\w+)\(([^()]+)\)")
LITERAL = re.compile(r"(\d+)'d(\d+)")
CUT = re.compile(r"(\w+)\[\d+:0\]")
WIDENED = re.compile(r"\{\{\d+\{(\w+)\[\d+:\d+\]\}\}, \w+\}")

Literal = namedtuple("Literal", "word width")
Operation = namedtuple("Operation", "operator operands is_signed")     # the operator is "" for a plain operand
Step = namedtuple("Step", "reset operand")                             # what a register takes at an edge, with `rst` and without
Instance = namedtuple("Instance", "kind name links")                   # the links are operands by port

MEANING = {
    "": lambda a: a, "?": lambda condition, a, b: a if condition else b,
    "+": lambda a, b: a + b, "-": lambda a, b: a - b, "*": lambda a, b: a * b, "&": lambda a, b: a & b, "|": lambda a, b: a | b,
    "==": lambda a, b: a == b, "!=": lambda a, b: a != b, "<": lambda a, b: a < b, "<=": lambda a, b: a <= b,
    ">": lambda a, b: a > b, ">=": lambda a, b: a >= b,
}


def operand(text):
    found = LITERAL.fullmatch(text)
    return Literal(int(found.group(2)), int(found.group(1))) if found else text


def operation(text):
    """Reads the right side of an `assign`. A part select that a kind has is a plain operand whose highest bits are left out, and a widening one
    that is read as a signed number."""
    if found := CUT.fullmatch(text) or WIDENED.fullmatch(text):
        return Operation("", [found.group(1)], text.startswith("{"))
    first, *rest = re.sub(r"\$signed\((\S+)\)", r"\1", text).split()
    return Operation(rest[0] if rest else "", [operand(word) for word in [first, *rest[1::2]]], "$signed" in text)


def signed(word, width):
    """Gives a word as a number in two's complement."""
    return word - (1 << width) if word >> width - 1 else word


class Written:
    """A module as its lines say, a kind of cell or the top: its names with their widths, its drives, steps and instances."""

    def __init__(self, header):
        self.name = re.match(r"module (\w+)", header).group(1)
        self.inputs, self.outputs, self.wires, self.registers, self.drives, self.steps, self.instances = {}, {}, {}, {}, {}, {}, []
        for way, high, name in PORT.findall(header):
            (self.inputs if way == "input" else self.outputs)[name] = int(high) + 1

    def read(self, line):
        if found := DECLARED.fullmatch(line):
            (self.wires if found.group(1) == "wire" else self.registers)[found.group(3)] = int(found.group(2)) + 1
        elif found := DRIVEN.fullmatch(line):
            self.drives[found.group(1)] = operation(found.group(2))
        elif found := STEPPED.fullmatch(line):
            self.steps[found.group(1)] = Step(int(found.group(2)), operand(found.group(3)))
        elif found := INSTANTIATED.fullmatch(line):
            links = {port: operand(linked) for port, linked in LINKED.findall(found.group(3))}
            self.instances.append(Instance(found.group(1), found.group(2), links))


def modules(text):
    """Gives the modules of a text in their order: the kinds, and last the top."""
    found = []
    for line in text.splitlines():
        if line.startswith("module "):
            found.append(Written(line))
        elif found:
            found[-1].read(line)
    return found


class Module:
    """The flat module of a text: its names with their widths, the operation that drives each wire and output, and the step of each register."""

    def __init__(self, text):
        *kinds, top = modules(text)
        self.kinds, self.instances = {kind.name: kind for kind in kinds}, top.instances
        self.inputs, self.outputs, self.registers, self.steps = top.inputs, top.outputs, top.registers, top.steps
        self.wires, self.drives = dict(top.wires), {}
        for instance in top.instances:
            self._add(self.kinds[instance.kind], instance)
        self.drives.update(top.drives)
        self.widths = {**self.inputs, **self.outputs, **self.wires, **self.registers}

    def _add(self, kind, instance):
        """Adds the wires and drives of an instance: its input ports, what is inside, and the names that its output ports drive."""
        def part(name):
            return f"{instance.name}_{name}" if isinstance(name, str) else name
        self.wires.update({part(name): width for name, width in {**kind.inputs, **kind.outputs, **kind.wires}.items()})
        for port in kind.inputs:
            self.drives[part(port)] = Operation("", [instance.links[port]], False)
        for name, (operator, operands, is_signed) in kind.drives.items():
            self.drives[part(name)] = Operation(operator, [part(it) for it in operands], is_signed)
        for port in kind.outputs:
            self.drives[instance.links[port]] = Operation("", [part(port)], False)

    def settle(self, words, names=None):
        """Adds the words of all wires and outputs, or of those that are named, to the words of ports and registers."""
        for name in self.drives if names is None else names:
            drive = self.drives[name]
            operands = [words[it] if isinstance(it, str) else it.word for it in drive.operands]
            if drive.is_signed:
                operands = [signed(word, self.widths.get(it) or it.width) for word, it in zip(operands, drive.operands)]
            words[name] = int(MEANING[drive.operator](*operands)) & (1 << self.widths[name]) - 1
        return words

    def reset(self):
        """Gives the registers' words in cycle 0."""
        return {name: step.reset for name, step in self.steps.items()}

    def after(self, words, names=None):
        """Gives the words of all registers, or of those that are named, after the edge that ends a cycle with these words."""
        steps = {name: self.steps[name].operand for name in names or self.steps}
        return {name: words[it] if isinstance(it, str) else it.word for name, it in steps.items()}

    def run(self, stream):
        """Gives the words of all names, cycle by cycle from reset on, under the words of the input ports in each cycle."""
        held, shown = self.reset(), []
        for ports in stream:
            words = self.settle({**ports, **held})
            shown.append(words)
            held = self.after(words)
        return shown

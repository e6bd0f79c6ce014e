"""A design text of docs/VERILOG.md with kinds of cells, read by its grammar, its faults, its flat module, and a clocked run of that.

It is written from that page alone and shares nothing with the program, so that what `alphav sim` writes or refuses can be computed a second time.
"""
import re
from collections import namedtuple

RESERVED = {"module", "endmodule", "input", "output", "wire", "reg", "assign", "always", "posedge", "if", "else"}
SKIPPED = re.compile(r"(?:[ \t\r\n]|//[^\n]*)*")
TOKEN = re.compile(r"(?P<name>[A-Za-z_]\w*)|(?P<literal>\d+'d\d+)|(?P<number>\d+)|(?P<word>\$signed|[<>=!]=|[()\[\]{}:;,.@?=<>+\-*&|])", re.ASCII)
OPERATORS = ("+", "-", "*", "&", "|", "==", "!=", "<", "<=", ">", ">=")
INDEX = r"(?:0|-?[1-9]\d*)"
LISTED = re.compile(rf"// (in|at) ([A-Za-z]\w*) \(((?:{INDEX}(?:,{INDEX})*)?)\) (\w+) (0|[1-9]\d*)", re.ASCII)
ALPHA_WORDS = set("system returns var let tel case esac if then else reduce min max of integer word".split())

Token = namedtuple("Token", "kind text at")
Literal = namedtuple("Literal", "width value")
Operation = namedtuple("Operation", "form operands numbers")      # the form is an operator, `$signed` with one, "", "?", "part" or "widen"
Assign = namedtuple("Assign", "target operation")
Always = namedtuple("Always", "target reset operand")
Instance = namedtuple("Instance", "target kind links")    # the target is the instance's own name, and a link is a port and an operand


class Fault(Exception):
    """The text is refused for this."""


def place(text, at):
    """Gives the line and the column of a byte."""
    return f"{text.count(chr(10), 0, at) + 1}:{at - text.rfind(chr(10), 0, at)}"


def tokens(text):
    """Gives the tokens of a text, or its first byte that begins none."""
    found, at = [], SKIPPED.match(text).end()
    while at < len(text):
        here = TOKEN.match(text, at)
        if not here:
            raise Fault(f"bad byte {place(text, at)}")
        found.append(Token("word" if here.group() in RESERVED else here.lastgroup, here.group(), at))
        at = SKIPPED.match(text, here.end()).end()
    return [*found, Token("end", "", len(text))]


class ModuleText:
    """A module as it is written: a kind of cell, or the top."""

    def __init__(self, name, is_top):
        self.name, self.is_top, self.inputs, self.outputs, self.wires, self.registers, self.items = name, is_top, {}, {}, {}, {}, []
        self.declared = []           # each declared name in the order of the text
        self.undriven = []           # the outputs, wires and registers among them

    def declare(self, sort, name, width):
        ports = getattr(self, sort)
        ports.setdefault(name, width)
        self.declared.append(name)
        if sort != "inputs":
            self.undriven.append(name)

    def has(self, name):
        return any(name in ports for ports in (self.inputs, self.outputs, self.wires, self.registers))

    def is_wire(self, name):
        return name in self.outputs or name in self.wires

    def width(self, operand):
        """Gives the width of an operand, by the first declaration of a name."""
        if isinstance(operand, Literal):
            return operand.width
        return next((ports[operand] for ports in (self.inputs, self.outputs, self.wires, self.registers) if operand in ports), 1)


class Reader:
    """Reads the tokens of a text one after another; the first that does not fit is the place of a `syntax`."""

    def __init__(self, text):
        self.whole, self.tokens, self.at = text, tokens(text), 0

    def text(self):
        """Gives the next token where it is no name and no number."""
        token = self.tokens[self.at]
        return token.text if token.kind == "word" else None

    def take(self, kind, is_right=lambda _: True):
        token = self.tokens[self.at]
        if token.kind != kind or not is_right(token.text):
            raise Fault(f"syntax {place(self.whole, token.at)}")
        self.at += 1
        return token.text

    def words(self, *texts):
        for wanted in texts:
            self.take("word", lambda text, wanted=wanted: text == wanted)

    def name(self, wanted=None):
        return self.take("name", lambda text: wanted in (None, text))

    def number(self, least, most):
        return int(self.take("number", lambda text: least <= int(text) <= most))

    def literal(self):
        def parts(text):
            return map(int, text.split("'d"))

        def fits(text):
            width, value = parts(text)
            return 1 <= width <= 64 and value < 1 << width
        return Literal(*parts(self.take("literal", fits)))

    def operand(self):
        return self.name() if self.tokens[self.at].kind == "name" else self.literal()

    def width(self):
        if self.text() != "[":
            return 1
        self.words("[")
        width = self.number(0, 63) + 1
        self.words(":")
        self.take("number", lambda text: text == "0")
        self.words("]")
        return width

    def port(self, module, sort):
        width = self.width()
        module.declare(sort, self.name(), width)

    def part(self, same=False):
        """Reads `[high:low]`; in a widening both are one number."""
        self.words("[")
        high = self.number(0, 63)
        self.words(":")
        low = self.number(high if same else 0, high)
        self.words("]")
        return high, low

    def signed(self):
        self.words("$signed", "(")
        operand = self.operand()
        self.words(")")
        return operand

    def operation(self):
        if self.text() == "{":
            self.words("{", "{")
            by = self.number(1, 63)
            self.words("{")
            name = self.name()
            bit, _ = self.part(same=True)
            self.words("}", "}", ",")
            self.name(name)
            self.words("}")
            return Operation("widen", [name], (by, bit))
        if self.text() == "$signed":
            left = self.signed()
            order = self.take("word", lambda text: text in OPERATORS[-4:])
            return Operation("$signed" + order, [left, self.signed()], ())
        first = self.operand()
        if self.text() == "[" and isinstance(first, str):
            return Operation("part", [first], self.part())
        if self.text() == "?":
            self.words("?")
            second = self.operand()
            self.words(":")
            return Operation("?", [first, second, self.operand()], ())
        if self.text() in OPERATORS:
            operator = self.take("word")
            return Operation(operator, [first, self.operand()], ())
        return Operation("", [first], ())

    def assign(self):
        self.words("assign")
        target = self.name()
        self.words("=")
        operation = self.operation()
        self.words(";")
        return Assign(target, operation)

    def always(self):
        self.words("always", "@", "(", "posedge")
        self.name("clk")
        self.words(")", "if", "(")
        self.name("rst")
        self.words(")")
        target = self.name()
        self.words("<=")
        reset = self.literal()
        self.words(";", "else")
        self.name(target)
        self.words("<=")
        operand = self.operand()
        self.words(";")
        return Always(target, reset, operand)

    def link(self):
        self.words(".")
        port = self.name()
        self.words("(")
        operand = self.operand()
        self.words(")")
        return port, operand

    def instance(self):
        kind, name = self.name(), self.name()
        self.words("(")
        links = [self.link()]
        while self.text() == ",":
            self.words(",")
            links.append(self.link())
        self.words(")", ";")
        return Instance(name, kind, links)

    def item(self):
        return self.always() if self.text() == "always" else self.instance() if self.tokens[self.at].kind == "name" else self.assign()

    def kind_ports(self, module):
        while self.text() == "input":
            self.words("input")
            self.port(module, "inputs")
            self.words(",")
        self.words("output")
        self.port(module, "outputs")
        while self.text() == ",":
            self.words(",", "output")
            self.port(module, "outputs")

    def top_ports(self, module):
        self.words("input")
        self.name("clk")
        self.words(",", "input")
        self.name("rst")
        while self.text() == "," and not module.outputs:
            self.words(",")
            is_input = self.text() == "input"
            self.words("input" if is_input else "output")
            self.port(module, "inputs" if is_input else "outputs")
        while self.text() == ",":
            self.words(",", "output")
            self.port(module, "outputs")

    def module(self):
        self.words("module")
        name = self.name()
        self.words("(")
        module = ModuleText(name, self.text() == "input" and self.tokens[self.at + 1].text == "clk")
        (self.top_ports if module.is_top else self.kind_ports)(module)
        self.words(")", ";")
        sorts = {"wire": "wires", "reg": "registers"} if module.is_top else {"wire": "wires"}
        while self.text() in sorts:
            sort = sorts[self.take("word")]
            self.port(module, sort)
            self.words(";")
        while self.text() != "endmodule":
            module.items.append(self.item() if module.is_top else self.assign())
        self.words("endmodule")
        return module

    def modules(self):
        found = [self.module()]
        while not found[-1].is_top:
            found.append(self.module())
        self.take("end")
        return found


class Design:
    """The text of a design: its modules, of which the last is the top, and its flat module. A text with a fault raises that."""

    def __init__(self, text):
        reader = Reader(text)
        self.modules = reader.modules()
        self.top = self.modules[-1]
        self.kinds = {kind.name: kind for kind in reversed(self.modules[:-1])}     # of two kinds with one name the first one counts
        self.look_at_listing(text[:reader.tokens[0].at].split("\n")[:-1])
        rows = {"twice": self.twice, "unknown": self.unknown, "unassigned": self.unassigned, "order": self.early, "width": self.unsuited}
        for fault, row in rows.items():
            for name in row():
                raise Fault(f"{fault} {name}")

    def look_at_listing(self, lines):
        seen = set()
        for number, line in enumerate(lines, 1):
            if line[:6] in ("// in ", "// at "):
                listed = LISTED.fullmatch(line.removesuffix("\r"))
                if not listed or not self.is_listed(*listed.groups()) or (line[3] == "i" and "a" in seen):
                    raise Fault(f"listing {number}")
                seen.add(line[3])

    def is_listed(self, way, variable, indices, name, cycle):
        entries = [int(entry) for entry in indices.split(",") if entry]
        is_there = name in self.top.inputs if way == "in" else self.top.is_wire(name)
        return is_there and variable not in ALPHA_WORDS and len(entries) <= 4 and max(map(abs, [*entries, int(cycle)])) <= 4095

    # what an item has to do with names

    def kind_of(self, item):
        return self.kinds.get(item.kind)

    def driven(self, item):
        if not isinstance(item, Instance):
            return [item.target]
        kind = self.kind_of(item)
        return [operand for port, operand in item.links if kind and port in kind.outputs and isinstance(operand, str)]

    def read_as_wires(self, item):
        """Gives the names that an `assign` or an instance reads."""
        if isinstance(item, Always):
            return []
        if isinstance(item, Assign):
            return [it for it in item.operation.operands if isinstance(it, str)]
        return [it for port, it in item.links if port in self.kind_of(item).inputs and isinstance(it, str)]

    # the rows, each giving its names in the order of the text

    def twice(self):
        named = set()
        for module in self.modules:
            if module.name in named:
                yield module.name
            named.add(module.name)
            yield from self.twice_in(module)
        known = {"clk", "rst", *self.top.declared, *[item.target for item in self.top.items if isinstance(item, Instance)]}
        for instance in self.instances():
            for name in self.flat_names(instance):
                if name in known:
                    yield name
                known.add(name)

    def twice_in(self, module):
        declared, driven = {"clk", "rst"}, set()

        def again(name, names):
            is_again = name in names
            names.add(name)
            return [name] if is_again else []
        for name in module.declared:
            yield from again(name, declared)
        for item in module.items:
            if not isinstance(item, Instance):
                yield from again(item.target, driven)
                continue
            yield from again(item.target, declared)
            linked, kind = set(), self.kind_of(item)
            for port, operand in item.links:
                yield from again(port, linked)
                if kind and port in kind.outputs and isinstance(operand, str):
                    yield from again(operand, driven)

    def unknown(self):
        for module in self.modules:
            for item in module.items:
                yield from self.unknown_in(module, item)

    def unknown_in(self, module, item):
        def wrong(operands):
            return [it for it in operands if isinstance(it, str) and not module.has(it)]
        if isinstance(item, Assign):
            yield from [] if module.is_wire(item.target) else [item.target]
            yield from wrong(item.operation.operands)
        elif isinstance(item, Always):
            yield from [] if item.target in module.registers else [item.target]
            yield from wrong([item.operand])
        elif not self.kind_of(item):
            yield item.kind
        else:
            for port, operand in item.links:
                if port in self.kind_of(item).inputs:
                    yield from wrong([operand])
                elif port not in self.kind_of(item).outputs or isinstance(operand, Literal):
                    yield port
                elif not module.is_wire(operand):
                    yield operand

    def unassigned(self):
        for module in self.modules:
            driven = {name for item in module.items for name in self.driven(item)}
            yield from [name for name in module.undriven if name not in driven]
            for item in module.items:
                if isinstance(item, Instance):
                    kind = self.kind_of(item)
                    yield from [port for port in [*kind.inputs, *kind.outputs] if port not in dict(item.links)]

    def early(self):
        for module in self.modules:
            driven = set()
            for item in module.items:
                if any(module.is_wire(name) and name not in driven for name in self.read_as_wires(item)):
                    yield item.target
                driven.update(self.driven(item))

    def unsuited(self):
        for module in self.modules:
            yield from [item.target for item in module.items if not self.suits(module, item)]

    def suits(self, module, item):
        if isinstance(item, Instance):
            ports = {**self.kind_of(item).inputs, **self.kind_of(item).outputs}
            return all(module.width(operand) == ports[port] for port, operand in item.links)
        wanted = module.width(item.target)
        if isinstance(item, Always):
            return module.width(item.reset) == module.width(item.operand) == wanted
        form, numbers, widths = item.operation.form, item.operation.numbers, [module.width(it) for it in item.operation.operands]
        if form == "part":
            return numbers[0] < widths[0] and numbers[0] + 1 - numbers[1] == wanted
        if form == "widen":
            return numbers[1] + 1 == widths[0] and widths[0] + numbers[0] == wanted
        if form == "?":
            return widths == [1, wanted, wanted]
        is_test = form.startswith("$signed") or form in OPERATORS[5:]
        return len(set(widths)) == 1 and wanted == (1 if is_test else widths[0])

    # the flat module

    def instances(self):
        return [item for item in self.top.items if isinstance(item, Instance) and self.kind_of(item)]

    def flat_names(self, instance):
        kind = self.kind_of(instance)
        return [f"{instance.target}_{name}" for name in [*kind.inputs, *kind.outputs, *kind.wires]]

    def flat_drives(self):
        """Gives each drive of the flat module: its target with its width, its operation, and the width of its first operand."""
        for item in self.top.items:
            if isinstance(item, Assign):
                yield self.drive(self.top, item, lambda name: name)
            elif isinstance(item, Instance):
                yield from self.part_drives(item)

    def drive(self, module, item, named):
        operands = [named(it) if isinstance(it, str) else it for it in item.operation.operands]
        return named(item.target), module.width(item.target), item.operation._replace(operands=operands), module.width(item.operation.operands[0])

    def part_drives(self, instance):
        kind, links = self.kind_of(instance), dict(instance.links)

        def inner(name):
            return f"{instance.target}_{name}"
        for port, width in kind.inputs.items():
            yield inner(port), width, Operation("", [links[port]], ()), width
        for item in kind.items:
            yield self.drive(kind, item, inner)
        for port, width in kind.outputs.items():
            yield links[port], width, Operation("", [inner(port)], ()), width

    def run(self, stream):
        """Gives the words of all names of the flat module in each cycle, under the words of the input ports."""
        drives = list(self.flat_drives())
        steps = [item for item in self.top.items if isinstance(item, Always)]
        held = {step.target: step.reset.value for step in steps}
        for ports in stream:
            words = {**ports, **held}

            def word(operand, words=words):
                return words[operand] if isinstance(operand, str) else operand.value
            for target, width, operation, operand_width in drives:
                words[target] = meaning(operation, [word(it) for it in operation.operands], operand_width) & (1 << width) - 1
            yield words
            held = {step.target: word(step.operand) for step in steps}


def meaning(operation, words, width):
    """Gives the word of an operation whose first operand has this width."""
    form, first = operation.form, words[0]
    if form == "part":
        return first >> operation.numbers[1]
    if form == "widen":
        return first - (first >> width - 1 << width)
    if form == "?":
        return words[1] if first else words[2]
    if form.startswith("$signed"):
        words, form = [word - (word >> width - 1 << width) for word in words], form.removeprefix("$signed")
    tests = {"==": "__eq__", "!=": "__ne__", "<": "__lt__", "<=": "__le__", ">": "__gt__", ">=": "__ge__",
             "+": "__add__", "-": "__sub__", "*": "__mul__", "&": "__and__", "|": "__or__"}
    return int(getattr(words[0], tests[form])(words[1])) if form else first


def read_stimulus(design, stimulus):
    """Gives the words of the input ports in each cycle, of a stimulus that is well formed."""
    lines = [line.split() for line in re.sub(r"--.*", "", stimulus).splitlines() if line.split() not in ([], ["%%"])]
    ports = [dict.fromkeys(design.top.inputs, 0) for _ in range(int(lines[0][1]))]
    for _, cycle, port, value in lines[1:]:
        ports[int(cycle)][port] = int(value)
    return ports


def simulated(text, stimulus):
    """Gives what `alphav sim` is to write for a text and a stimulus: the lines of the run, or the text's refusal."""
    try:
        design = Design(text)
    except Fault as fault:
        return f"refused: verilog {fault}\n"
    shown = [*design.top.inputs, *design.top.outputs]
    lines = enumerate(design.run(read_stimulus(design, stimulus)))
    return "".join(" ".join([str(cycle), *[f"{port}={words[port]}" for port in shown]]) + "\n" for cycle, words in lines)

"""The flat module of an emitted text, in the first version of the text (docs/VERILOG.md)."""
from .verilog import Literal, Module


def spelled(operand):
    return f"{operand.width}'d{operand.word}" if isinstance(operand, Literal) else operand


def resized(name, width, of):
    """Gives a name's word as one of another width: its lowest bits, or with copies of its highest bit above it."""
    return f"{name}[{width - 1}:0]" if width < of else f"{{{{{width - of}{{{name}[{of - 1}:{of - 1}]}}}}, {name}}}"


def written(operation, width, widths):
    """Gives the right side of an `assign` to a name of this width."""
    operator, operands, is_signed = operation
    if operator == "" and widths.get(operands[0], width) != width:
        return resized(operands[0], width, widths[operands[0]])
    words = [f"$signed({spelled(it)})" if is_signed else spelled(it) for it in operands]
    if operator == "?":
        return f"{words[0]} ? {words[1]} : {words[2]}"
    return f" {operator} ".join(words)


def ports(way, widths):
    return [f"{way} [{width - 1}:0] {name}" for name, width in widths.items()]


def flat_text(text):
    """Gives the first version of the text: the listing, and the flat module."""
    module = Module(text)
    head = [line for line in text.splitlines() if line.startswith("// in ") or line.startswith("// at ")]
    header = ", ".join(["input clk", "input rst", *ports("input", module.inputs), *ports("output", module.outputs)])
    declared = [f"  wire [{width - 1}:0] {name};" for name, width in module.wires.items()]
    declared += [f"  reg [{width - 1}:0] {name};" for name, width in module.registers.items()]
    driven = [f"  assign {name} = {written(operation, module.widths[name], module.widths)};" for name, operation in module.drives.items()]
    stepped = [f"  always @(posedge clk) if (rst) {name} <= {module.registers[name]}'d{step.reset}; else {name} <= {spelled(step.operand)};"
               for name, step in module.steps.items()]
    return "\n".join(["// alphav 1", *head, f"module array({header});", *declared, *driven, *stepped, "endmodule", ""])

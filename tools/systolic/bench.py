"""A test bench for an emitted module, in plain Verilog of IEEE 1364-2005.

It presents the data at the listed ports in the listed cycles, puts words by chance on the ports in all other cycles and in all registers before
the reset edge, and checks each listed wire in its listed cycle. It does so in several rounds with other words by chance.

The rounds are an `always` block and their number is compared at the end, because Verilator 5.006 passes silently over a task with delays that
stands in a loop of an `initial` block.
"""

START = """\
  integer seed, rounds, round, checked;
  reg has_failed;

  // any word; a function wants an input
  function [63:0] any(input unused);
    any = {$random(seed), $random(seed)};
  endfunction

  task tick;
    begin
      #1 clk = 1;
      #1 clk = 0;
    end
  endtask

  task check(input [8 * @POINT@ - 1:0] point, input [8 * @WIRE@ - 1:0] name, input integer cycle, input [63:0] shown, input [63:0] expected);
    begin
      checked = checked + 1;
      if (shown !== expected && !has_failed) begin
        has_failed = 1;
        $display("FAIL: %0s on %0s in cycle %0d is %0d and not %0d (round %0d)", point, name, cycle, shown, expected, round);
        $stop;
      end
    end
  endtask
"""
END = """\
  initial begin
    if (!$value$plusargs("seed=%d", seed)) seed = @SEED@;
    if (!$value$plusargs("rounds=%d", rounds)) rounds = @ROUNDS@;
    clk = 0;
    round = 0;
    checked = 0;
    has_failed = 0;
  end

  always begin
    #1;
    power_up;
    idle;
    rst = 1;
    tick;
    rst = 0;
    run;
    round = round + 1;
    if (round == rounds && !has_failed) begin
      if (checked == rounds * @CHECKS@) begin
        $display("PASS: %0d words, each on its wire in its cycle, in %0d rounds", checked, rounds);
        $finish;
      end else begin
        has_failed = 1;
        $display("FAIL: %0d words were checked, and not %0d", checked, rounds * @CHECKS@);
        $stop;
      end
    end
  end
endmodule
"""


def task(name, lines):
    """Gives the lines of a task."""
    return [f"  task {name};", "    begin", *[f"      {line}" for line in lines or [";"]], "    end", "  endtask", ""]


def cycles(design, inputs, expected):
    """Gives the statements of the cycles: what is presented, what is checked, and the edge."""
    presented, checks, module = {}, {}, design.module
    for point, port, cycle in design.ins:
        presented.setdefault(cycle, []).append(f"{port} = {module.widths[port]}'d{inputs[point]};  // {point}")
    for point, wire, cycle in design.ats:
        name = wire if wire in module.outputs else f"dut.{wire}"
        checks.setdefault(cycle, []).append(f'check("{point}", "{wire}", {cycle}, {name}, {module.widths[wire]}\'d{expected[point]});')
    for cycle in range(design.cycles):
        yield from [f"// cycle {cycle}", "idle;", *presented.get(cycle, []), "#1;", *checks.get(cycle, []), "tick;"]


def declarations(module):
    """Gives the lines that declare a port of the bench for each port of the module, and connect them."""
    inputs, outputs = {"clk": 1, "rst": 1, **module.inputs}, module.outputs
    regs = [f"  reg [{width - 1}:0] {name};" if width > 1 else f"  reg {name};" for name, width in inputs.items()]
    wires = [f"  wire [{width - 1}:0] {name};" for name, width in outputs.items()]
    ends = ", ".join(f".{name}({name})" for name in [*inputs, *outputs])
    return ["module bench;", *regs, *wires, "", f"  array dut({ends});", ""]


def bench(design, inputs, expected, rounds=4, seed=1, head=""):
    """Gives the bench for a design, the words of the inputs and those of the listed computed points, both by point."""
    module = design.module
    fill = {"POINT": max([len(str(line.point)) for line in design.ats], default=1), "WIRE": max([len(line.name) for line in design.ats], default=1),
            "SEED": seed, "ROUNDS": rounds, "CHECKS": len(design.ats)}
    parts = ["// " + line for line in head.splitlines()] + declarations(module) + [START]
    parts += ["  // before the reset edge each register has any word", *task("power_up", [f"dut.{name} = any(0);" for name in module.registers])]
    parts += ["  // a port without a listed word has any word", *task("idle", [f"{name} = any(0);" for name in module.inputs])]
    parts += [*task("run", list(cycles(design, inputs, expected))), END]
    text = "\n".join(parts)
    for name, value in fill.items():
        text = text.replace(f"@{name}@", str(value))
    return text


def replay(top, inputs, outputs, stream):
    """Gives a bench that presents the words of a stream, cycle by cycle, and writes the lines that `alphav sim` writes of it."""
    ports = [*inputs, *outputs]
    ends = ", ".join(f".{name}({name})" for name in ["clk", "rst", *ports])
    form = "".join(f" {name}=%0d" for name in ports)
    lines = ["module bench;", "  reg clk;", "  reg rst;", *[f"  reg [{width - 1}:0] {name};" for name, width in inputs.items()],
             *[f"  wire [{width - 1}:0] {name};" for name, width in outputs.items()], f"  {top} dut({ends});", "  initial begin",
             "    clk = 0;", "    rst = 1;", *[f"    {name} = 0;" for name in inputs], "    #1 clk = 1;", "    #1 clk = 0;", "    rst = 0;"]
    for cycle, words in enumerate(stream):
        lines += [f"    {name} = {inputs[name]}'d{word};" for name, word in words.items()]
        lines += ["    #1;", f'    $display("{cycle}{form}"' + "".join(f", {name}" for name in ports) + ");", "    #1 clk = 1;", "    #1 clk = 0;"]
    return "\n".join([*lines, "    $finish;", "  end", "endmodule", ""])

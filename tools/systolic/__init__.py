"""What `tools/picture`, `tools/play`, `tools/testbench` and the checks beside them share.

They read what the program writes, or compute it a second time, and prove nothing.

| Module | Has |
|---|---|
| `command` | the words and the text that a tool is given, and the program's answers |
| `verilog` | an emitted text, read line by line: its flat module, and the clocked run of that |
| `listing` | the listing before a module, and the lines of `table` and `schedule` |
| `array` | the array: cells, what they compute when, links and ports |
| `formula` | what a cell computes, as a formula |
| `layout` | where each cell, link and port stands in the picture |
| `svg` | colours, and the few shapes that the pictures are made of |
| `picture`, `spacetime` | the two pictures |
| `clocked` | a run on data, compared with what `run` and `trace` write |
| `streamed` | a run on one problem after another, compared with what `run` and `trace` write of each |
| `bench` | test benches in Verilog |
| `designs` | a Verilog text with kinds and instances by its rules: grammar, faults, flat module, run |
| `dump` | what a value change dump tells, whoever wrote it |
| `flat` | the flat module of an emitted text, in the first version of the text |
| `others` | what Icarus Verilog, Verilator and Yosys say of a text |
| `page` | the page that plays a run; `page.html` is its frame |
| `examples` | the texts in examples/, and those in the tests of designs |
"""

"""What designers' tools say of a text in a folder: Icarus Verilog, Verilator and Yosys, which are found on the path (Debian's packages iverilog,
verilator and yosys). Each answer is a fault, or nothing."""
import re
import shutil
import subprocess

PACKAGES = ("iverilog", "verilator", "yosys")
STYLE = {"DECLFILENAME", "UNUSED", "UNUSEDSIGNAL", "UNUSEDPARAM", "EOFNEWLINE"}


def missing():
    """Gives the packages that are not there, and says so."""
    absent = [package for package in PACKAGES if not shutil.which(package)]
    for package in absent:
        print(f"{package} is not installed (Debian: apt-get install {package}): passed over")
    return absent


def run(words, folder):
    return subprocess.run(words, cwd=folder, text=True, capture_output=True, check=False)


def clocked(folder):
    """Compiles `text.v` with the bench `bench.v`, and runs it: gives a fault, and the status and what was written."""
    built = run(["iverilog", "-g2005", "-Wall", "-Wno-timescale", "-o", "bench", "bench.v", "text.v"], folder)
    if built.returncode or built.stderr.strip():
        return f"iverilog says {(built.stdout + built.stderr).strip()}", None
    return "", run(["vvp", "-N", "bench"], folder)


def linted(folder, top):
    said = run(["verilator", "--lint-only", "-Wall", "--default-language", "1364-2005", "--top-module", top, "text.v"], folder)
    found = set(re.findall(r"%(?:Warning|Error)-(\w+)", said.stderr)) - STYLE
    if "%Error:" in said.stderr and not found and "Exiting due to" not in said.stderr:
        found.add("error")
    return f"verilator says {' '.join(sorted(found))}" if found else ""


def synthesised(folder, top, wanted):
    """Instances are put into the top first. The bits of the flip-flops must be those of the declared registers."""
    script = (f"read_verilog text.v; hierarchy -check -top {top}; proc; flatten; tee -o before.txt stat -width; check -assert; "
              f"synth -top {top}; check -assert; select -assert-none t:$dlatch t:$_DLATCH_*; tee -o after.txt stat")
    said = run(["yosys", "-q", "-p", script], folder)
    if said.returncode:
        return f"yosys says {(said.stdout + said.stderr).strip()[-400:]}"
    with open(f"{folder}/before.txt", encoding="utf-8") as file:
        before = file.read()
    bits = sum(int(width) * int(count) for width, count in re.findall(r"\$s?dff(?:e|ce)?_(\d+)\s+(\d+)", before))
    if bits != wanted:
        return f"yosys has {bits} bits of flip-flops and the text declares {wanted}"
    with open(f"{folder}/after.txt", encoding="utf-8") as file:
        after = file.read()
    cells = re.search(r"Number of cells:\s+(\d+)", after)
    left = sum(int(count) for count in re.findall(r"\$_S?DFF\w*\s+(\d+)", after))
    print(f"  yosys: {bits} bits of flip-flops, {left} after synth, in {cells.group(1) if cells else '?'} cells")
    return ""

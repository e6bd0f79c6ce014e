"""The words and the text that a tool is given, and the program's answers."""
import os
import re
import shutil
import subprocess
import sys

TOP = os.path.dirname(os.path.dirname(os.path.dirname(os.path.abspath(__file__))))
BUILT = f"{TOP}/crates/alphav/out/alphav"
MISSING, WRITE_FAILED = 127, 4       # the status of a shell that does not find a command, and that of alphav where a write fails


class Ended(Exception):
    """A tool ends here: with a line for standard error, and a status."""

    def __init__(self, line, status=1):
        super().__init__(line)
        self.status = status


def program():
    """Gives the path of the built program, which `ALPHAV` in the environment may name."""
    found = shutil.which(os.environ.get("ALPHAV", BUILT))
    if not found:
        raise Ended(f"{os.environ.get('ALPHAV', BUILT)} is missing: `{TOP}/alphav demo 2` proves and builds the program, once, which can "
                    "take an hour. ALPHAV in the environment can name one that is built already.", MISSING)
    return found


class Given:
    """The words and the input of a tool: an Alpha text, and data behind a line `%%` (None without such a line)."""

    def __init__(self, words, text):
        self.words, self.whole = words, text
        self.system, *data = re.split(r"(?m)^%%\r?$\n?", text, maxsplit=1)
        self.data = data[0] if data else None

    def answer(self, command, text=None):
        """Gives what the program writes for a command; a refusal is told as it is, with its status."""
        text = self.system if text is None else text
        ran = subprocess.run([program(), command, *self.words], input=text.encode("latin-1"), capture_output=True, check=False)
        if ran.returncode:
            line = (ran.stdout + ran.stderr).decode("latin-1").strip()
            raise Ended(line or f"alphav {command} ended with status {ran.returncode}", ran.returncode)
        return ran.stdout.decode("latin-1")

    def title(self):
        """Gives the name of the system and the sizes."""
        found = re.search(r"\bsystem\s+(\w+)", re.sub(r"--.*", "", self.system))
        return " ".join([*(found.groups() if found else ()), *[word for word in self.words if re.fullmatch(r"\w+=-?\d+", word)]])


def guarded(tool, *words):
    """Gives the status with which a tool ends; where it ends early, it is told why on standard error."""
    try:
        return tool(*words)
    except Ended as ended:
        print(ended, file=sys.stderr)
        return ended.status


def write(text):
    """Writes a text to standard output, and gives the status: that of the program where a write fails."""
    try:
        sys.stdout.buffer.write(text.encode("utf-8"))
        sys.stdout.flush()
    except BrokenPipeError:
        os.dup2(os.open(os.devnull, os.O_WRONLY), sys.stdout.fileno())     # so that Python's own flush at the end is silent
        return WRITE_FAILED
    return 0


def main(tool, help_text):
    """Runs a tool that makes one text of another: it takes what is given, and gives what is to be written."""
    words = sys.argv[1:]
    if {"-h", "--help"} & set(words):
        sys.exit(print(help_text))

    sys.exit(guarded(lambda: write(tool(Given(words, sys.stdin.buffer.read().decode("latin-1"))))))

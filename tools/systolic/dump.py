"""What a value change dump tells (IEEE 1364-2005, 18.2), whoever wrote it: the marks of numbers, the order of changes and the codes of ports are left out."""
import itertools
from collections import namedtuple

# a port's bits by its name; the changes as triples of cycle, port and value; the greatest time, which is the number of cycles
Dump = namedtuple("Dump", "timescale module ports changes cycles")


def read(text):
    """Gives what a dump of one scope with wires of two states tells."""
    words = iter(text.split())
    timescale = module = None
    names, ports, changes, cycle = {}, {}, set(), None
    for word in words:
        if word[0] == "#":
            cycle = int(word[1:])
        elif word[0] == "b":
            changes.add((cycle, names[next(words)], int(word[1:], 2)))
        elif word[0] in "01":
            changes.add((cycle, names[word[1:]], int(word[0])))
        elif word not in ("$dumpvars", "$end"):
            said = list(itertools.takewhile(lambda it: it != "$end", words))
            if word == "$timescale":
                timescale = "".join(said)
            elif word == "$scope":
                module = said[1]
            elif word == "$var":
                names[said[2]] = said[3]
                ports[said[3]] = int(said[1])
    return Dump(timescale, module, ports, changes, cycle)


def words_of(dump):
    """Gives the words of the ports in each cycle."""
    news = {}
    for cycle, port, value in dump.changes:
        news.setdefault(cycle, {})[port] = value
    words, lines = {}, []
    for cycle in range(dump.cycles):
        words = {**words, **news.get(cycle, {})}
        lines.append(words)
    return lines

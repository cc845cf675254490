"""Each allocation of the library refused in turn (memory.c), and what its calls tell beside the plain model."""
import os
import re
import subprocess
import tempfile

import model

HERE = os.path.dirname(os.path.realpath(__file__))
SCRIPT = os.path.join(HERE, "rows", "memory.txt")
CALLS = ("malloc", "realloc", "posix_memalign")


class Part:
    """The attributes of a part of the script, its table, and that of the last commit."""

    def __init__(self, kinds):
        self.fields = [(chr(ord("f") + at), *kind.split(":")) for at, kind in enumerate(kinds.split(","))]
        self.table, self.committed, self.operations, self.commits, self.saved = {}, {}, 0, 0, 0

    def told(self, line):
        """What the call of a line tells."""
        if line == "commit":
            self.commits, self.committed, self.saved = self.commits + 1, dict(self.table), self.operations
            return f"commit {self.commits} of {self.operations}"
        if line.startswith("ask "):
            return self.answer(line[4:])
        self.operations += 1
        return "skipped" if model.step(self.table, model.read_line(line.encode(), self.fields), self.fields) else "changed"

    def answer(self, text):
        try:
            word = model.Word(text.encode(), self.fields)
        except model.QueryFault as fault:
            return "code 11 at " + str(fault).rpartition(" ")[2]
        if word.dot is None:
            return "".join(f" {doc}" for doc in sorted(self.committed) if word.matches(word.query, self.committed[doc]))
        found = [(doc, word.score(self.committed[doc])) for doc in sorted(self.committed)]
        return "".join(f" {doc}={score}" for doc, score in found if score is not None)

    def end(self):
        """The save, and that of an engine that has loaded it, whose number of operations is told as 0."""
        return [model.save_of(self.committed, self.fields[0], operations).hex() for operations in (self.saved, 0)]


def wanted():
    """What the script tells, line by line."""
    told, part = [], None
    with open(SCRIPT, encoding="utf-8") as file:
        for line in file.read().split("\n"):
            if line.startswith("on "):
                told += part.end() if part else []
                part = Part(line[3:])
            elif line and not line.startswith("#"):
                told.append(part.told(line))
    return told + part.end()


def build(folder, library):
    program = os.path.join(folder, "memory")
    parts = [os.path.join(HERE, "memory.c"), os.path.join(library, "libvattr.a")]
    words = [os.environ.get("CC", "cc"), "-O2", "-I", os.path.join(HERE, "..", "include"), *parts, *(f"-Wl,--wrap={call}" for call in CALLS)]
    subprocess.run([*words, "-o", program], check=True)
    return program


def results(library):
    """One result for each line that is told, and one for the refusals: nothing where it is right, or what is wrong. Then what was refused."""
    with tempfile.TemporaryDirectory() as folder:
        ran = subprocess.run([build(folder, library), SCRIPT], stdout=subprocess.PIPE, text=True, check=False)
    *told, last = ran.stdout.rstrip("\n").split("\n")
    lines = wanted()
    found = [None if one == other else f"memory.txt: {one[:300]} in place of {other[:300]}" for one, other in zip(told, lines)]
    if len(told) != len(lines):
        found.append(f"memory.txt: {len(told)} lines in place of {len(lines)}")
    found.append(None if ran.returncode == 0 and re.search(r"of \d+ allocations", last) else f"memory.c: {last}")
    return found, last

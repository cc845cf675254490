"""Reads the rows of tests/rows/ and runs them. tests/README.md says how a row is written."""
import os
import re
import resource
import shlex
import signal
import subprocess
import tempfile

# Feeds of at least this many bytes are run once.
LONG = 40_000
# A run that takes longer has failed.
SECONDS = 120

KINDS = {"single": 0, "array": 1, "weightedset": 2}


class BadRow(Exception):
    """A row that is not in the form of tests/README.md."""


class Row:
    """One row: the words, the feed, and what must come of them."""

    def __init__(self, place, name):
        self.place, self.name = place, name
        self.words, self.feed, self.output = None, b"", b""
        self.status, self.rounds, self.points = None, None, []
        self.table, self.skipped, self.refused = [], None, []
        self.unread, self.takes, self.memory, self.input, self.full = False, None, None, None, False


def expanded(text):
    """The text with each `<<N TEXT>>` written N times, and each `<<A..B TEXT>>` once for each number in place of `#`."""
    def copies(match):
        if match[2] is None:
            return match[3] * int(match[1])
        return "".join(match[3].replace("#", str(number)) for number in range(int(match[1]), int(match[2]) + 1))
    return re.sub(r"<<(\d+)(?:\.\.(\d+))? (.*?)>>", copies, text)


def numbered(text, number):
    """A line of `<each`: `#` is the number, `#%K` its rest by K."""
    text = re.sub(r"#%(\d+)", lambda it: str(number % int(it[1])), text)
    return text.replace("#", str(number))


def span(text):
    """The numbers of `A..B`, or of `A` alone."""
    first, _, last = text.partition("..")
    return range(int(first), int(last or first) + 1)


def take_point(row, rest):
    """`at N / LINE / ..`, or `at A..B by S / LINE / ..`."""
    where, *lines = rest.split(" / ")
    numbers, _, step = where.partition(" by ")
    for number in list(span(numbers))[::int(step or 1)]:
        row.points.append((number, "".join(line + "\n" for line in [f"at {number}", *lines]).encode()))


def take_line(row, line):
    """One line of a row."""
    kind, _, rest = line.partition(" ")
    if kind == "$":
        row.words = [word.encode() for word in shlex.split(expanded(rest))[1:]]
    elif kind == "$x":
        row.words.append(bytes.fromhex(rest))
    elif kind == "<":
        row.feed += expanded(rest).encode() + b"\n"
    elif kind == "<-":
        row.feed += expanded(rest).encode()
    elif kind == "<x":
        row.feed += bytes.fromhex(rest)
    elif kind == "<each":
        numbers, _, text = rest.partition(" ")
        row.feed += "".join(numbered(expanded(text), number) + "\n" for number in span(numbers)).encode()
    elif kind == "<lines":
        row.feed += b"\n" * int(rest)
    elif kind == ">":
        row.output += expanded(rest).encode() + b"\n"
    elif kind == ">x":
        row.output += bytes.fromhex(rest)
    elif kind == "exit":
        row.status = int(rest)
    elif kind == "rounds":
        row.rounds = tuple(int(number) for number in rest.split())
    elif kind == "at":
        take_point(row, rest)
    elif kind == "=":
        row.table.append(rest)
    elif kind == "skipped":
        row.skipped = int(rest)
    elif kind in ("!", "?", "-"):
        wanted, _, text = rest.partition(" " if kind == "!" else ": ")
        row.refused.append((kind, wanted, text))
    elif kind == "takes":
        row.takes = span(rest)
    elif kind == "memory":
        row.memory = int(rest)
    elif line == "unread":
        row.unread = True
    elif line == "input directory":
        row.input = "directory"
    elif line == "output full":
        row.full = True
    else:
        raise BadRow(f"{row.place}: no such line: {line[:60]}")


def read(path):
    """The rows of a file."""
    rows, row = [], None
    with open(path, encoding="utf-8") as file:
        for number, line in enumerate(file.read().split("\n"), 1):
            if line.startswith("== "):
                row = Row(f"{os.path.basename(path)}:{number}", line[3:])
                rows.append(row)
            elif line and not line.startswith("#"):
                if row is None:
                    raise BadRow(f"{path}:{number}: a line before the first row")
                take_line(row, line)
    for row in rows:
        if row.words is None or [row.status is not None, row.skipped is not None, bool(row.refused)].count(True) != 1:
            raise BadRow(f"{row.place}: a row has `$ attr ..`, and then `exit`, or `skipped`, or lines of refusals")
    return rows


def run(program, words, feed, takes=None, memory=None, directory=False, full=False):
    """The status, the output, and how many bytes of the input were read."""
    def limits():
        if takes is not None:
            signal.signal(signal.SIGXFSZ, signal.SIG_IGN)
            resource.setrlimit(resource.RLIMIT_FSIZE, (takes, takes))
        if memory is not None:
            resource.setrlimit(resource.RLIMIT_AS, (memory * 1024, memory * 1024))
    limited = limits if takes is not None or memory is not None else None
    with tempfile.TemporaryFile() as source, tempfile.TemporaryFile() as sink:
        source.write(feed)
        source.seek(0)
        given = os.open("/", os.O_RDONLY) if directory else source.fileno()
        taken = os.open("/dev/full", os.O_WRONLY) if full else sink.fileno()
        ran = subprocess.run([program.encode(), *words], stdin=given, stdout=taken, stderr=subprocess.PIPE, preexec_fn=limited,
                             timeout=SECONDS, check=False)
        at = os.lseek(source.fileno(), 0, os.SEEK_CUR)
        sink.seek(0)
        output = sink.read()
        for mine, own in ((given, directory), (taken, full)):
            if own:
                os.close(mine)
    if ran.stderr:
        output += b"standard error: " + ran.stderr
    return ran.returncode, output, at


def after_rounds(output, readers, rounds, points):
    """What follows the rounds: each has the lines of a commit point, and those of one reader never go back."""
    for reader in range(1, readers + 1):
        seen = 0
        for number in range(1, rounds + 1):
            front = f"reader {reader} round {number} ".encode()
            if not output.startswith(front):
                return None
            output = output[len(front):]
            fits = [at for at in range(seen, len(points)) if output.startswith(points[at][1])]
            if not fits:
                return None
            seen = fits[0]
            output = output[len(points[seen][1]):]
    return output


def shown(status, output):
    """What a run came to, in one line."""
    text = output.decode(errors="backslashreplace") if b"\x00" not in output else output.hex()
    text = text if len(text) < 700 else text[:500] + ".." + text[-150:]
    return f"exit {status}: {text!r}"


def fault(row, words, wanted, found):
    told = shlex.join(word.decode(errors="backslashreplace") for word in words)
    told = told if len(told) < 400 else told[:400] + ".."
    return f"{row.place}: {row.name}\n    attr {told}\n    wanted {wanted}\n    found  {found}"


def small(words):
    """The words of another run of a row: with a small store, if they do not set its size and there are few operations."""
    return words if b"--buffers" in words or b"--make" in words else [b"--buffers", b"8", b"--words", b"8192", *words]


def with_rounds(output, readers, rounds):
    """The report of a run without readers, with the rounds that it has with readers after the load."""
    if not output.startswith(b"final "):
        return output
    answers = [line for line in output.split(b"\n")[:-1] if not line.startswith((b"full ", b"done "))]
    lines = b"\n".join([answers[0][len(b"final "):], *answers[1:]]) + b"\n"
    return b"".join(f"reader {reader} round {number} ".encode() + lines
                    for reader in range(1, readers + 1) for number in range(1, rounds + 1)) + output


def variants(row):
    """The words and the output of the other runs of a row: with wide references and bit vectors, which change no answer, and with readers
    after the load in place of none."""
    if len(row.feed) >= LONG or row.output.startswith(b"ATS1"):
        return
    if b"--wide" not in row.words and b"--dense" not in row.words and row.output != b"attr: usage: size\n":
        yield small([b"--wide", b"--dense", *row.words]), row.output
    at = next((at for at, word in enumerate(row.words) if row.words[at:at + 2] == [b"--readers", b"0"]), None)
    if at is not None and row.status in (0, 6) and row.output.startswith((b"final ", b"made ")):
        words = [*row.words[:at], b"--readers", b"2", b"--rounds", b"2", b"--after", *row.words[at + 2:]]
        yield small(words), with_rounds(row.output, 2, 2)


def run_plain(program, row):
    """A row with its output and status, and its variants."""
    runs = [(row.words, row.output)]
    if row.memory is None and row.input is None and not row.full and row.rounds is None:
        runs += variants(row)
    for words, wanted in runs:
        status, output, at = run(program, words, row.feed, None, row.memory, row.input is not None, row.full)
        if row.rounds is not None:
            rest = after_rounds(output, *row.rounds, row.points)
            right = rest == wanted and status == row.status
        else:
            right = output == wanted and status == row.status
        if right and row.unread and at > 0:
            right, output = False, output + f"and {at} bytes of the feed were read".encode()
        yield None if right else fault(row, words, shown(row.status, wanted), shown(status, output))


def run_takes(program, row):
    """A row whose output ends after so many bytes: just these are written."""
    for takes in row.takes:
        status, output, _ = run(program, row.words, row.feed, takes)
        right = status == row.status and output == row.output[:takes]
        wanted = shown(row.status, row.output[:takes])
        yield None if right else fault(row, [*row.words, f"(at most {takes} bytes)".encode()], wanted, shown(status, output))


def attributes(words):
    """The attributes of a row: name, kind, value type."""
    word = dict(zip(words[::2], words[1::2]))
    first = [word.get(b"--field", b"f"), word[b"--kind"], word[b"--value"]]
    also = word.get(b"--also")
    return [first, *([it.split(b":") for it in also.split(b",")] if also else [])]


def saved_item(text, kind, value):
    """The bytes of an item as a row has it: `5`, `"a"`, and in a weighted set `5*3`."""
    weight = b""
    if kind == b"weightedset":
        text, _, number = text.rpartition("*")
        weight = int(number).to_bytes(4, "big", signed=True)
    if value == b"long":
        return int(text).to_bytes(8, "big", signed=True) + weight
    inner = text[1:-1].encode()
    return len(inner).to_bytes(2, "big") + inner + weight


def saved(row, at, kind, value, operations):
    """The save of one attribute of the row's table, by docs/FORMATS.md."""
    bytes_ = b"ATS1" + bytes([KINDS[kind.decode()], 0 if value == b"long" else 1])
    bytes_ += operations.to_bytes(4, "big") + len(row.table).to_bytes(4, "big")
    for line in row.table:
        doc, _, fields = line.partition(":")
        items = fields.split("|")[at].split()
        bytes_ += int(doc).to_bytes(4, "big") + len(items).to_bytes(2, "big")
        bytes_ += b"".join(saved_item(item, kind, value) for item in items)
    return bytes_


def run_table(program, row):
    """A row with a table: the report says how many operations were skipped, and a save of each attribute has its items."""
    operations = sum(1 for line in row.feed.split(b"\n") if line.strip())
    words = [*row.words, b"--readers", b"0"]
    wanted = f"final at {operations}\ndone {operations} operations {row.skipped} skipped\n".encode()
    status, output, _ = run(program, words, row.feed)
    yield None if (status, output) == (0, wanted) else fault(row, words, shown(0, wanted), shown(status, output))
    fields = attributes(row.words)
    for at, (name, kind, value) in enumerate(fields):
        words = [b"--field", name, b"--kind", kind, b"--value", value, b"--readers", b"0", b"--after", b"--save"]
        others = [b":".join(it) for other, it in enumerate(fields) if other != at]
        words += [b"--also", b",".join(others)] if others else []
        wanted = saved(row, at, kind, value, operations)
        status, output, _ = run(program, words, row.feed)
        yield None if (status, output) == (0, wanted) else fault(row, words, shown(0, wanted), shown(status, output))


def refusal(row, kind, wanted, text):
    """The words, the feed, the status and the output of a line that says what is refused."""
    if kind == "!":
        return row.words, expanded(text).encode() + b"\n", 3, f"attr: feed line 1: {wanted}\n".encode()
    if kind == "?":
        return [*row.words, b"--", expanded(text).encode()], b"", 2, f"attr: usage: query 1: {wanted}\n".encode()
    words = [*row.words, *(word.encode() for word in shlex.split(expanded(text)))]
    return words, b"", 2, f"attr: usage: {wanted}\n".encode()


def run_refused(program, row):
    """A row of refusals, each run for itself."""
    for line in row.refused:
        words, feed, code, wanted = refusal(row, *line)
        status, output, _ = run(program, words, feed)
        right = (status, output) == (code, wanted)
        yield None if right else fault(row, words, shown(code, wanted), shown(status, output) + f" on {feed!r}"[:300])


def results(program, row):
    """One result for each run of a row: nothing where it is right, or what is wrong."""
    try:
        if row.skipped is not None:
            yield from run_table(program, row)
        elif row.refused:
            yield from run_refused(program, row)
        elif row.takes is not None:
            yield from run_takes(program, row)
        else:
            yield from run_plain(program, row)
    except subprocess.TimeoutExpired:
        yield f"{row.place}: {row.name}\n    no end after {SECONDS} seconds"

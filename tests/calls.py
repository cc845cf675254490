"""Reads the rows of tests/rows/*.calls, and makes their calls of the library by the Python package of python/. tests/README.md says how a row
is written."""
import os
import re
import shlex

import library
import model
from rows import BadRow, expanded, numbered, span

# The calls of a row that are answered by a line behind ` = `.
CALLS = ("open", "feed", "commit", "compact", "hold", "release", "ask", "count", "scores", "items", "save", "load", "counts", "guarded", "until",
         "gathered")
KINDS = ("single", "array", "weightedset")
TYPES = ("long", "string")


class Row:
    """The steps of a row, each with its place, its words and what it has to answer."""

    def __init__(self, place, name):
        self.place, self.name, self.steps = place, name, []


def feed_lines(line):
    """The lines of a feed that one line of a row stands for."""
    kind, _, rest = line.partition(" ")
    if kind == "<each":
        numbers, _, text = rest.partition(" ")
        return [numbered(expanded(text), number).encode() for number in span(numbers)]
    if kind == "<":
        return [expanded(rest).encode()]
    raise BadRow(f"no such line: {line[:60]}")


def read(path):
    """The rows of a file."""
    rows = []
    with open(path, encoding="utf-8") as file:
        for number, line in enumerate(file.read().split("\n"), 1):
            place = f"{os.path.basename(path)}:{number}"
            if line.startswith("== "):
                rows.append(Row(place, line[3:]))
            elif line and not line.startswith("#"):
                call, _, wanted = line.rpartition(" = ") if " = " in line else (line.removesuffix(" ="), "", "")
                word = line.split(" ")[0]
                if line.startswith("<"):
                    rows[-1].steps.append((place, "<", line, None))
                elif word in SAVES or word in CALLS:
                    rows[-1].steps.append((place, word, call[len(word):].strip(), expanded(wanted)))
                else:
                    raise BadRow(f"{place}: no such line: {line[:60]}")
    return rows


def told_item(item):
    """An item as rows have it: `5`, `'a'`, and with a weight that is not 1 `5*3`."""
    value = f"'{item.value}'" if isinstance(item.value, str) else str(item.value)
    return value if item.weight == 1 else f"{value}*{item.weight}"


def told_full(told):
    return f"Full {told.active}/{told.held}"


class Play:
    """One row on its way: an engine, its readers, and the lines that are not fed yet."""

    def __init__(self, attr):
        self.attr, self.engine, self.readers, self.guards, self.lines, self.last = attr, None, [], {}, [], 0

    def close(self):
        for reader in self.readers:
            reader.close()
        if self.engine is not None:
            self.engine.close()

    def reader(self, text):
        """The reader that a step names by `@2` at its head, and the rest of it; else the first."""
        head, _, rest = text.partition(" ")
        if head.startswith("@"):
            return self.readers[int(head[1:]) - 1], rest, int(head[1:])
        return self.readers[0], text, 1

    def refusal(self, refused, place=False):
        """What a refused call answers."""
        name = "".join(word.capitalize() for word in self.attr.Code(refused.code).name.split("_"))
        if refused.code == library.FULL:
            return told_full(refused.told)
        return f"{name} at {refused.place}" if place else name

    # ---- calls, each with what it answers ----

    def open(self, text):
        self.close()
        self.readers, self.guards = [], {}
        attributes, *words = shlex.split(text)
        sizes = {"buffers": 64, "words": 8192, "readers": 2}
        sizes.update({name: int(number) for name, number in (word.split("=") for word in words if "=" in word)})
        sizes.update({word: True for word in words if "=" not in word})
        try:
            self.engine = self.attr.Engine(attributes, **sizes)
        except self.attr.Refused as refused:
            return self.refusal(refused, place=refused.code == self.attr.Code.ATTRIBUTES)
        self.readers = [self.engine.reader() for _ in range(sizes["readers"])]
        return ""

    def feed(self, _):
        data, self.lines = b"\n".join(self.lines) + b"\n", []
        try:
            told = self.engine.feed(data)
        except self.attr.Refused as refused:
            told = refused.told
            return f"{self.refusal(refused)}, line {told.line} from {told.place} to {told.next}, {told.operations} operations"
        return f"{told.operations} operations, {told.skipped} skipped"

    def commit(self, _):
        try:
            told = self.engine.commit()
        except self.attr.Refused as refused:
            return self.refusal(refused)
        return f"{told.commit} of {told.operations}" + (f", {told.oldest} held" if told.is_held else "")

    def compact(self, text):
        try:
            told = self.engine.compact(int(text))
        except self.attr.Refused as refused:
            return f"{self.refusal(refused)}, {refused.told.keys} keys"
        return f"buffer {told.buffer}" if told.finished else f"{told.keys} keys"

    def hold(self, text):
        reader, _, which = self.reader(text)
        self.guards[which] = reader.hold()
        return f"{self.guards[which].commit} of {self.guards[which].operations}"

    def release(self, text):
        self.guards.pop(self.reader(text)[2]).release()
        return ""

    def asked(self, text, call):
        reader, query, _ = self.reader(text)
        query = query.replace("$last", str(self.last)).replace("$next", str(self.last + 1))
        try:
            return call(reader, expanded(query))
        except self.attr.Refused as refused:
            return self.refusal(refused, place=refused.code in (self.attr.Code.SYNTAX, self.attr.Code.NO_FIELD))

    def ask(self, text):
        return self.asked(text, lambda reader, query: " ".join(map(str, reader.hits(query))))

    def count(self, text):
        return self.asked(text, lambda reader, query: str(reader.count(query)))

    def scores(self, text):
        return self.asked(text, lambda reader, query: " ".join(f"{it.document}={it.score}" for it in reader.scores(query)))

    def items(self, text):
        """The items of a document in each attribute, with bars between."""
        reader, document, _ = self.reader(text)
        found = [reader.items(int(document), number) for number in range(len(self.engine.names))]
        return " | ".join("none" if it is None else " ".join(map(told_item, it)) for it in found)

    def save(self, text):
        return self.reader(text)[0].save().hex()

    def counts(self, text):
        counts = self.engine.counts()
        return " ".join(str(getattr(counts, name)) for name in text.split(" "))

    def until(self, text):
        """`until LIMIT LINE`: feeds the line for the numbers from 1 on, each with a commit, until a call is refused: which one, with its
        number. `$last` in a query is the last number that was committed, `$next` the one after it."""
        limit, _, line = text.partition(" ")
        for number in range(1, int(limit) + 1):
            for call, made in (("feed", lambda: self.engine.feed(numbered(line, number) + "\n")), ("commit", self.engine.commit)):
                try:
                    made()
                except self.attr.Refused as refused:
                    return f"{call} {number}, {self.refusal(refused)}"
            self.last = number
        return "none"

    def guarded(self, text):
        """`guarded DOCUMENTS PUTS BATCH GUARD KEYS`: PUTS numbers are put to the documents in turn, each BATCH committed, with a step of a
        compaction behind. After GUARD puts a reader takes a guard, which is released when the store is full or all is put; then the rest is
        put. Answers how many puts were committed under it. A full store has no free buffer, and tells the guard's commit as the oldest."""
        documents, puts, batch, guard, keys = map(int, text.split())
        before, refused = self.puts(0, guard, documents, batch, keys)
        library.must((before, refused), (guard, None), "the puts before the guard")
        held = self.readers[0].hold()
        under, refused = self.puts(before, puts, documents, batch, keys)
        if refused is not None:
            told = refused.told
            library.must(told.active + told.held, self.engine.counts().buffers, "buffers in use or held")
            library.must((told.is_held, told.oldest), (1, held.commit), "the commit that is held")
        library.must(held.commit, guard // batch, "the commit of the guard")
        library.must(list(self.readers[0].hits("[;]")), list(range(1, min(documents, guard) + 1)), "what the guard sees")
        held.release()
        after, refused = self.puts(under, puts, documents, batch, keys)
        library.must((after, refused), (puts, None), "the puts after the release")
        return str(under)

    def gathered(self, text):
        """`gathered READERS KEYS`: so many readers take a guard one after another, and each time a compaction empties one more buffer, which
        stays held. Each sees at the end what it saw at first. After their releases and three commits no buffer is held. Answers how many
        were held."""
        many, keys = map(int, text.split())
        seen = []
        for reader in self.readers[:many]:
            guard = reader.hold()
            seen.append((reader, guard, self.sight(reader)))
            self.empty_one(keys)
        held = self.engine.counts().held
        for reader, guard, sight in reversed(seen):
            library.must(self.sight(reader), sight, f"what the guard of commit {guard.commit} sees")
            guard.release()
        for _ in range(3):
            self.engine.commit()
        library.must(self.engine.counts().held, 0, "buffers held after the releases")
        return str(held)

    @staticmethod
    def sight(reader):
        return list(reader.hits("[;]")), reader.save()

    def empty_one(self, keys):
        """Steps of a compaction until it has emptied a buffer, and a commit."""
        for _ in range(100_000):
            told = self.engine.compact(keys)
            if told.finished:
                self.engine.commit()
                return
            library.must(told.keys, keys, "the keys of a step")
        raise library.Wrong("a compaction does not end")

    def puts(self, above, last, documents, batch, keys):
        """Makes puts until one or its commit is refused. How many were committed, and the refusal."""
        committed = above
        try:
            for number in range(above + 1, last + 1):
                self.engine.feed(f'{{"put":"id:n:t::{number % documents + 1}","fields":{{"f":{number}}}}}\n')
                if number % batch == 0:
                    self.engine.commit()
                    committed = number
                    self.step(keys)
        except self.attr.Refused as refused:
            library.must(refused.code, library.FULL, f"put {committed}")
            return committed, refused
        return committed, None

    def step(self, keys):
        """A step of a compaction, which may find no room."""
        try:
            if keys:
                self.engine.compact(keys)
        except self.attr.Refused as refused:
            library.must(refused.code, library.FULL, "a step of a compaction")


class Loads:
    """Loads of saves. An engine that has refused one is as it was, and takes the next one."""

    def __init__(self, attr):
        self.attr, self.engines = attr, {}

    def close(self):
        for engine in self.engines.values():
            engine.close()

    def load(self, data):
        """What a load of bytes answers, over an engine of their kind and value type where they name them: `saved` where a save of it has the
        same bytes, but for the number of operations; and the table."""
        kind = KINDS[data[4]] if len(data) > 4 and data[4] < 3 else "single"
        value = TYPES[data[5]] if len(data) > 5 and data[5] < 2 else "long"
        engine = self.engines.pop((kind, value), None) or self.attr.Engine(f"f:{kind}:{value}", buffers=16, words=8192, readers=1)
        try:
            told = engine.load(data)
        except self.attr.Refused as refused:
            self.engines[kind, value] = engine
            code = refused.code
            return (str(refused.told.place) if code == self.attr.Code.BAD_SAVE else self.attr.Code(code).name), []
        with engine:
            return self.saved(engine, data[:6] + told.operations.to_bytes(4, "big") + data[10:])

    @staticmethod
    def saved(engine, wanted):
        engine.commit()
        with engine.reader() as reader:
            again = reader.save()
            table = [(int(doc), reader.items(doc, 0)) for doc in reader.hits("[;]")]
            return ("saved" if again == wanted else f"another save: {again.hex()}"), table


def told_table(table):
    return "; ".join(f"{doc}: " + " ".join(map(told_item, items)) for doc, items in table)


def changed(base, word, rest):
    """The bytes of `cut FROM..TO`, each front, and of `change PLACE FROM..TO`, each byte put at a place."""
    *place, numbers = rest.split(" ")
    for number in span(numbers):
        if word == "cut":
            yield base[:number]
        else:
            yield base[:int(place[0])] + bytes([number]) + base[int(place[0]) + 1:]


# The lines of a row of saves: `base HEX`, `load HEX`, `tell HEX`, `cut ..`, `change ..`.
SAVES = ("base", "load", "tell", "cut", "change")


def of_save(loads, base, word, rest):
    """What each load of a line of saves answers."""
    if word == "tell":
        yield told_table(loads.load(bytes.fromhex(rest))[1])
        return
    for data in [bytes.fromhex(rest)] if word == "load" else changed(base, word, rest):
        yield loads.load(data)[0]


def fault(row, place, wanted, found):
    if found == wanted:
        return None
    return f"{place}: {row.name}\n    wanted {wanted[:600]}\n    found  {found[:600]}"


def is_in(found, wanted):
    """Whether an answer is the wanted one, with any number from A to B where that has `A..B`."""
    pairs = list(zip(re.split("[ ,]", found), re.split("[ ,]", wanted)))
    spans = [(number, re.fullmatch(r"(\d+)\.\.(\d+)", words)) for number, words in pairs]
    rest = "".join(number if between and number.isdigit() and int(number) in range(int(between[1]), int(between[2]) + 1) else words
                   for (number, between), (_, words) in zip(spans, pairs))
    return found == wanted or len(re.split("[ ,]", found)) == len(re.split("[ ,]", wanted)) and rest == "".join(number for number, _ in pairs)


def results(attr, row):
    """One result for each step of a row: nothing where it is right, or what is wrong."""
    play, loads, base = Play(attr), Loads(attr), b""
    try:
        for place, word, text, wanted in row.steps:
            if word == "<":
                play.lines += feed_lines(text)
            elif word == "base":
                base = bytes.fromhex(text)
            elif word in SAVES:
                for found in of_save(loads, base, word, text):
                    yield fault(row, place, wanted, found)
            else:
                found = getattr(play, word)(text)
                yield None if is_in(found, wanted) else fault(row, place, wanted, found)
    except (library.Wrong, attr.Refused) as wrong:
        yield f"{place}: {row.name}\n    {wrong}"
    finally:
        play.close()
        loads.close()


def run(job):
    """The results of a row over the library at a path."""
    path, row = job
    return list(results(library.load_engine(path), row))

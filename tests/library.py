"""Random calls of the library for C beside the plain model, by the Python package of python/.

Feeds in pieces, lines that are refused, commits, compactions, queries, items and saves, at the last commit and under a guard of an older
one; and over each answer, and over one of an older commit, documents by value, totals, groups, terms, best scores and numbers in bulk.
Each eighth case is of a store that is full again and again.
"""
import importlib
import os
import sys

import cases
import model

LINE_CODES = {"NotJson": 21, "NoOperation": 22, "BadId": 23, "BadValue": 24, "Unsupported": 25, "TooManyItems": 26}
QUERY_CODES = {"Syntax": 11, "NoField": 12, "WrongType": 13, "OutOfRange": 14, "TooDeep": 15}
FULL = 7


class Wrong(Exception):
    """What is wrong with a call."""


def must(found, wanted, what):
    if found != wanted:
        raise Wrong(f"{what}: {str(found)[:500]} in place of {str(wanted)[:500]}")


def load_engine(library):
    """The package vattr over a library."""
    os.environ["VATTR_LIBRARY"] = os.path.abspath(library)
    folder = os.path.join(os.path.dirname(os.path.dirname(os.path.realpath(__file__))), "python")
    if folder not in sys.path:
        sys.path.insert(0, folder)
    return importlib.import_module("vattr")


class Case:
    """An engine, its plain table, and the table of the last commit."""

    def __init__(self, attr, maker):
        self.attr, self.maker, self.fields = attr, maker, maker.fields
        dice = maker.dice
        text = ",".join(":".join(field) for field in self.fields)
        self.engine = attr.Engine(text, buffers=dice.choice([12, 24, 64]), words=8192, readers=2, wide=maker.odd(0.2), dense=maker.odd(0.3))
        self.table, self.committed, self.operations, self.commits = {}, {}, 0, 0
        self.saved_operations = 0
        # (the documents of the answer that each reader keeps)
        self.kept = {}

    def feed(self, lines):
        """Feeds lines in one call, and again from behind each line that is refused. Returns whether there was room for all."""
        while lines:
            data = b"\n".join(lines) + b"\n"
            applied = skipped = 0
            code, at = 0, 0
            for at, line in enumerate(lines):
                if not line.strip(b" \t\r"):
                    continue
                try:
                    operation = model.read_line(line, self.fields)
                except model.Fault as fault:
                    code = LINE_CODES[str(fault)]
                    break
                skipped += model.step(self.table, operation, self.fields)
                applied += 1
            try:
                told, found = self.engine.feed(data), 0
            except self.attr.Refused as refused:
                told, found = refused.told, refused.code
            if found == FULL:
                return False
            must((found, told.operations, told.skipped), (code, applied, skipped), f"a feed of {data[:300]!r}")
            self.operations += applied
            if code == 0:
                return True
            place = sum(len(line) + 1 for line in lines[:at])
            must((told.line, told.place, told.next), (at + 1, place, place + len(lines[at]) + 1), f"the refused line of {data[:300]!r}")
            lines = lines[at + 1:]
        return True

    def commit(self):
        """Returns whether there was room."""
        try:
            told = self.engine.commit()
        except self.attr.Refused as refused:
            must(refused.code, FULL, "a commit")
            return False
        self.commits += 1
        must((told.commit, told.operations), (self.commits, self.operations), "a commit")
        self.committed, self.saved_operations = dict(self.table), self.operations
        return True

    def compact(self):
        try:
            self.engine.compact(self.maker.dice.choice([1, 16, 256, 4096]))
        except self.attr.Refused as refused:
            must(refused.code, FULL, "a step of a compaction")

    def ask(self, reader, text, table):
        """One query or dot product."""
        try:
            word, code, place = model.Word(text.encode(), self.fields), 0, 0
        except model.QueryFault as fault:
            name, _, place = str(fault).partition(" at ")
            code = QUERY_CODES[name]
        if code:
            try:
                reader.ask(text)
                found = (0, 0)
            except self.attr.Refused as refused:
                found = (refused.code, refused.told.place if place else "")
            must(found, (code, int(place) if place else ""), f"the query {text}")
        elif word.dot is None:
            wanted = [doc for doc in sorted(table) if word.matches(word.query, table[doc])]
            must(list(reader.hits(text)), wanted, f"the query {text}")
            must(reader.count(text), len(wanted), f"the count of {text}")
            self.kept[reader] = wanted
        else:
            found = [(doc, word.score(table[doc])) for doc in sorted(table)]
            scores = [(it.document, it.score) for it in reader.scores(text)]
            must(scores, [(doc, score) for doc, score in found if score is not None], f"the dot product {text}")
            self.kept[reader] = [doc for doc, score in found if score is not None]
        if not code:
            self.best(reader, text, word, table)
            self.terms(reader, text, word, table)
            must(list(reader.hits()), self.kept[reader], f"the answer that is kept after {text}")

    def room(self):
        """How many are asked for: none, some, as many as there are, or more."""
        return self.maker.dice.choice([0, 1, 2, 5, 20, None, 2**63])

    def best(self, reader, text, word, table):
        most = self.room()
        most = 2**63 if most is None else most
        best = [(it.document, it.score, it.exact) for it in reader.best(text, most)]
        must(best, model.best_scores(table, word, most), f"the {most} best scores of {text}")

    def terms(self, reader, text, word, table):
        most = self.room()
        try:
            found = reader.terms(text, most)
        except self.attr.Refused as refused:
            must((refused.code, refused.told.place), (QUERY_CODES["Syntax"], 0), f"the terms of {text}")
            found = None
        if word.dot is None and word.query[0] == "leaf":
            groups = model.groups_of(table, table, word.field(word.query[1]))
            wanted = [group for group in groups if model.meets(word.query[2], group[0])][:most]
            must(found, wanted, f"the first {most} terms of {text}")
        else:
            must(found, None, f"the terms of {text}")

    def over(self, reader, table):
        """What is asked over the documents of the answer that a reader keeps, in an attribute."""
        dice, documents = self.maker.dice, self.kept.get(reader, [])
        field, flag, most = dice.randrange(len(self.fields)), self.maker.odd(0.5), self.room()
        name = self.fields[field][0] if self.maker.odd(0.5) else field
        first = dice.choice([0, 0, 1, 3, len(documents), len(documents) + 1, 2**63])
        wanted = model.sorted_documents(table, documents, field, flag)[first:]
        what = f"in attribute {field} of {self.fields} over {documents[:50]}"
        must(list(reader.sort(name, flag, first, most)), wanted[:most], f"{most} documents by value from {first} on, {flag}, {what}")
        must(reader.totals(name), model.totals_of(table, documents, field), f"the totals {what}")
        must(reader.groups(name, flag, most), model.groups_of(table, documents, field, flag)[:most], f"{most} groups, {flag}, {what}")
        must(list(reader.hits()), documents, "the answer that is kept")
        asked = [dice.choice([0, 1, 2**20, 2**32 - 1, dice.randrange(1, self.maker.documents + 2)]) for _ in range(dice.randrange(12))]
        asked += documents[:20] if self.maker.odd(0.7) else []
        asked = sorted(asked) if self.maker.odd(0.5) else asked
        values = [model.first_value(table, document, field) for document in asked]
        values = [it if isinstance(it, int) else None for it in values]
        numbers, present = reader.longs(name, asked)
        must((list(numbers), list(present)), ([it or 0 for it in values], [int(it is not None) for it in values]), f"the numbers of {asked} {what}")
        first = dice.choice([0, 1, 2, dice.randrange(self.maker.documents + 2), 2**20, 2**32 - 1])
        found = list(reader.documents(first, most))
        must(found, [document for document in sorted(table) if document >= first][:most], f"{most} documents from {first} on")

    def items(self, reader, document, table):
        """The items of a document in each attribute."""
        for number in range(len(self.fields)):
            found = reader.items(document, number)
            must(found, table.get(document, [None] * len(self.fields))[number], f"the items of document {document} in attribute {number}")

    def save(self, reader, table, operations):
        must(reader.save(), model.save_of(table, self.fields[0], operations), "the bytes of a save")

    def look(self, reader, table, operations):
        """Queries, items and a save of a reader; the first looks are over an answer of an older commit."""
        self.over(reader, table)
        for _ in range(self.maker.dice.randrange(3)):
            text = self.maker.asked()
            if "\0" not in text:
                self.ask(reader, text, table)
                if self.maker.odd(0.5):
                    self.over(reader, table)
        for _ in range(2):
            self.items(reader, self.maker.dice.randrange(1, self.maker.documents + 2), table)
        if self.maker.odd(0.3):
            self.save(reader, table, operations)

    def run(self):
        """Makes the case with two readers. Returns its kind."""
        reader, older = self.engine.reader(), self.engine.reader()
        try:
            return self.course(reader, older)
        finally:
            reader.close()
            older.close()

    def course(self, reader, older):
        """Feeds all lines in pieces, and looks at the table after each."""
        held = guard = None
        lines = self.maker.feed().split(b"\n")
        while lines:
            size = self.maker.dice.choice([1, 1, 3, 10])
            if not self.feed(lines[:size]) or self.maker.odd(0.6) and not self.commit():
                # (a full store: the last commit stands)
                self.look(reader, self.committed, self.saved_operations)
                return "full"
            lines = lines[size:]
            if self.maker.odd(0.5):
                self.compact()
            self.look(reader, self.committed, self.saved_operations)
            if held is None and self.maker.odd(0.2):
                guard = older.hold()
                must(guard.operations, self.saved_operations, "a guard")
                held = (self.committed, self.saved_operations)
            elif held is not None:
                self.look(older, *held)
                if self.maker.odd(0.2):
                    guard.release()
                    held = None
        return "done"


class Full(Case):
    """A case in so few buffers that operations are refused. A refused one changes nothing, and is made again after a commit; the case ends
    where it is refused even then, or where a commit is."""

    def __init__(self, attr, maker):
        super().__init__(attr, maker)
        self.engine.close()
        dice = maker.dice
        text = ",".join(":".join(field) for field in self.fields)
        self.engine = attr.Engine(text, buffers=dice.choice([4, 5, 5, 6, 8]), words=8192, readers=2, dense=maker.odd(0.3))
        self.documents, self.values = dice.choice([600, 1000, 2400]), dice.choice([4, 8, 200])

    def item(self, kind, value):
        """The value of a field in a put, of a few values."""
        dice = self.maker.dice
        drawn = [dice.randrange(self.values) for _ in range(1 if kind == "single" else dice.randrange(4))]
        texts = [f'"{"x" * (number % 72)}{number}"' if value == "string" else str(number) for number in drawn]
        if kind == "single":
            return texts[0]
        if kind == "array":
            return f"[{','.join(texts)}]"
        names = [text if text.startswith('"') else f'"{text}"' for text in dict.fromkeys(texts)]
        return "{" + ",".join(f"{name}:{dice.randrange(-9, 10)}" for name in names) + "}"

    def line(self, number):
        """The operation of a number: in one period one of eight is a remove, in the next five of eight."""
        dice = self.maker.dice
        name = f'"id:n:t::{dice.randrange(1, self.documents + 1)}"'
        if dice.randrange(8) < (5 if number // 1500 % 2 else 1):
            return f'{{"remove":{name}}}'.encode()
        fields = ",".join(f'"{field}":{self.item(kind, value)}' for field, kind, value in self.fields)
        return f'{{"put":{name},"fields":{{{fields}}}}}'.encode()

    def apply(self, line):
        """Whether there was room for an operation, which then does what it does to the plain table."""
        try:
            told = self.engine.feed(line)
        except self.attr.Refused as refused:
            must((refused.code, refused.told.operations), (FULL, 0), "an operation in a full store")
            return False
        skipped = model.step(self.table, model.read_line(line, self.fields), self.fields)
        must((told.operations, told.skipped), (1, skipped), f"the operation {line}")
        self.operations += 1
        return True

    def course(self, reader, older):
        refused = 0
        for number in range(3000):
            line = self.line(number)
            if not self.apply(line):
                refused += 1
                self.look(reader, self.committed, self.saved_operations)
                if not self.commit() or not self.apply(line):
                    break
            if number % 500 == 499 and not self.commit():
                break
        for _ in range(5):
            self.look(reader, self.committed, self.saved_operations)
        return "full again and again" if refused > 1 else "full" if refused else "nearly full"


def case(library, seed, number):
    """Makes a case. Returns what is wrong, or None, and its kind."""
    attr = load_engine(library)
    made = None
    try:
        made = (Full if number % 8 == 7 else Case)(attr, cases.Maker(f"library {seed}:{number}"))
        return None, made.run()
    except Wrong as wrong:
        return f"library case {number} of seed {seed}: {wrong}", "wrong"
    finally:
        if made is not None:
            made.engine.close()


def batch(job):
    """Makes the cases of a range. Returns the faults, and how many cases of each kind there were."""
    library, seed, first, last = job
    faults, kinds = [], {}
    for number in range(first, last):
        found, kind = case(library, seed, number)
        kinds[kind] = kinds.get(kind, 0) + 1
        if found:
            faults.append(found)
    return faults, kinds

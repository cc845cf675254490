"""A plain model of `attr`, written from docs/FEED.md, docs/QUERIES.md, docs/COMMAND_LINE.md and, for a save, docs/FORMATS.md alone.

A table is a dict from document to one list of items for each attribute; an item is a pair of value and weight. A value is an int or a
str; Python compares texts by their code points, which is by their bytes in UTF-8. Nothing here knows buffers, trees or threads, and nothing
was taken from the program.
"""
import re

import json_lines

MOST_ITEMS, MOST_BYTES, MOST_FEED, MOST_DOCUMENT = 1023, 1024, 16_777_216, 1_048_575
KINDS, TYPES = ("single", "array", "weightedset"), ("long", "string")


class Refused(Exception):
    """What the program writes in place of a report, and its exit status."""

    def __init__(self, status, text):
        super().__init__(text)
        self.status, self.text = status, text


class Fault(Exception):
    """A refusal of one line of a feed, by its name."""


def fits(number, bits):
    return -2**(bits - 1) <= number < 2**(bits - 1)


def is_integer(value):
    return isinstance(value, int) and not isinstance(value, bool)


# The command line.

RANGES = {"batch": (1, 1_000_000), "readers": (0, 8), "rounds": (1, 1000), "buffers": (8, 8191), "words": (8192, 65536),
          "make": (1, 1_000_000), "seed": (0, 65535)}
DEFAULTS = {"field": "f", "batch": 100, "readers": 2, "rounds": 4, "buffers": 64, "words": 16384, "seed": 1}
FLAGS = ("after", "wide", "dense", "save")
USAGE_WORDS = Refused(2, "attr: usage: words\n")


class Help(Exception):
    """The words ask for help."""


def option_value(name, text):
    """The value of an option."""
    if name not in RANGES:
        return text
    if not re.fullmatch(r"\+?[0-9]+", text) or not RANGES[name][0] <= int(text) <= RANGES[name][1]:
        raise USAGE_WORDS
    return int(text)


def read_words(words):
    """The options that the words give, and the queries among them."""
    given, queries, at = {}, [], 0
    try:
        words = [word.decode() for word in words]
    except UnicodeDecodeError:
        raise USAGE_WORDS from None
    while at < len(words):
        word, at = words[at], at + 1
        if word == "--":
            queries += words[at:]
            break
        if not word.startswith("-") or word == "-":
            queries.append(word)
            continue
        if not word.startswith("--"):
            raise Help if word.startswith("-h") else USAGE_WORDS
        name, has_value, value = word[2:].partition("=")
        if name == "help" and not has_value:
            raise Help
        if name in given:
            raise USAGE_WORDS
        if name in FLAGS:
            if has_value:
                raise USAGE_WORDS
            given[name] = True
        elif name in ("kind", "value", "field", "also", *RANGES):
            if not has_value:
                if at == len(words) or words[at].startswith("-") and words[at] != "-":
                    raise USAGE_WORDS
                value, at = words[at], at + 1
            given[name] = option_value(name, value)
        else:
            raise USAGE_WORDS
    if "kind" not in given or "value" not in given:
        raise USAGE_WORDS
    return given, queries


def read_also(text, first):
    """The further attributes that `--also` names."""
    fields, taken = [], {first}
    for part in text.split(","):
        parts = part.split(":")
        if len(fields) == 7 or len(parts) != 3 or parts[1] not in KINDS or parts[2] not in TYPES:
            raise Refused(2, "attr: usage: also\n")
        if not re.fullmatch(r"[A-Za-z_][A-Za-z0-9_]*", parts[0]) or parts[0] in taken:
            raise Refused(2, "attr: usage: also\n")
        taken.add(parts[0])
        fields.append(tuple(parts))
    return fields


class Settings:
    """The settings of a run. They are refused in the order of docs/COMMAND_LINE.md."""

    def __init__(self, words):
        given, queries = read_words(words)
        for name in (*DEFAULTS, "also", "make"):
            setattr(self, name, given.get(name, DEFAULTS.get(name)))
        for name in FLAGS:
            setattr(self, name, name in given)
        if given["kind"] not in KINDS:
            raise Refused(2, "attr: usage: kind\n")
        if given["value"] not in TYPES:
            raise Refused(2, "attr: usage: value\n")
        too_large = self.buffers * self.words > 67_108_864 if self.wide else self.buffers > 1023
        if too_large:
            raise Refused(2, "attr: usage: size\n")
        self.fields = [(self.field, given["kind"], given["value"])]
        if self.also is not None:
            self.fields += read_also(self.also, self.field)
        self.queries = []
        for number, query in enumerate(queries, 1):
            try:
                self.queries.append(Word(query.encode(), self.fields))
            except QueryFault as fault:
                raise Refused(2, f"attr: usage: query {number}: {fault}\n") from None


# The queries.

class QueryFault(Exception):
    """A refusal of a query."""


class Word:
    """A query word: `parse` reads it by the grammar, and `check` looks at its names, types, numbers and levels."""

    def __init__(self, text, fields):
        self.text, self.at, self.fields = text, 0, fields
        self.names, self.types, self.in_range, self.levels = [], [], True, 1
        self.dot = None
        self.query = self.parse()
        self.check()

    def byte(self):
        return self.text[self.at:self.at + 1]

    def fail(self):
        raise QueryFault(f"Syntax at {self.at}")

    def take(self, byte):
        if self.byte() != byte:
            self.fail()
        self.at += 1

    def number(self):
        start = self.at
        if self.byte() == b"-":
            self.at += 1
            if not self.byte() or self.byte() not in b"123456789":
                self.fail()
        elif not self.byte() or self.byte() not in b"0123456789":
            self.fail()
        first, self.at = self.byte(), self.at + 1
        while first != b"0" and self.byte() and self.byte() in b"0123456789":
            self.at += 1
        digits = self.text[start:self.at]
        return int(digits) if len(digits) < 25 else (-1 if digits.startswith(b"-") else 1) * 2**80

    def quoted(self):
        self.take(b'"')
        found = b""
        while self.byte() != b'"':
            if self.byte() == b"\\":
                self.at += 1
                if not self.byte() or self.byte() not in b'"\\':
                    self.fail()
            if not self.byte():
                self.fail()
            found += self.byte()
            self.at += 1
        self.at += 1
        if len(found) > MOST_BYTES:
            self.in_range = False
        return found.decode()

    def value(self):
        """A number or a text, with its type."""
        if self.byte() == b'"':
            return self.quoted(), "string"
        number = self.number()
        if not fits(number, 64):
            self.in_range = False
        return number, "long"

    def bounds(self):
        """What follows the bracket of a range."""
        low = high = kind = None
        if self.byte() != b";":
            low, kind = self.value()
        self.take(b";")
        if self.byte() != b"]":
            if kind == "long" and self.byte() == b'"' or kind == "string" and self.byte() != b'"':
                self.fail()
            high, kind = self.value()
        self.take(b"]")
        return ("range", low, high), kind

    def leaf(self, name):
        """A leaf of the attribute of this name; of attribute 0 where it is None."""
        byte = self.byte()
        if byte == b"[":
            self.at += 1
            test, kind = self.bounds()
        elif byte in (b"<", b">"):
            self.at += 1
            value, kind = self.value()
            test = ("below" if byte == b"<" else "above", value)
        else:
            value, kind = self.value()
            test = ("is", value)
            if kind == "string" and self.byte() == b"*":
                self.at += 1
                test = ("prefix", value)
        self.names.append(name)
        self.types.append((name, kind, False))
        return ("leaf", name, test)

    def parts(self, name):
        """What follows `dot(`."""
        parts = []
        while True:
            value, kind = self.value()
            self.types.append((name, kind, True))
            self.take(b":")
            weight = self.number()
            if not fits(weight, 32):
                self.in_range = False
            parts.append((value, weight))
            if self.byte() != b",":
                break
            self.at += 1
        self.take(b")")
        self.names.append(name)
        self.dot = (name, parts)

    def head(self, alone):
        """A leaf, a dot product where the word is this alone, or the name of a list that is open now."""
        if not re.match(rb"[A-Za-z_]", self.byte()):
            return self.leaf(None)
        name = re.compile(rb"[A-Za-z0-9_]*").match(self.text, self.at)[0].decode()
        self.at += len(name)
        if self.byte() == b"(" and name in ("and", "or"):
            self.at += 1
            return name
        if self.byte() == b"(" and name == "dot" and alone:
            self.at += 1
            self.parts(None)
            return None
        self.take(b":")
        if alone and self.byte() == b"d":
            for byte in (b"d", b"o", b"t", b"("):
                self.take(byte)
            self.parts(name)
            return None
        return self.leaf(name)

    def parse(self):
        lists = []
        while True:
            node = self.head(not lists)
            if isinstance(node, str):
                lists.append((node, []))
                self.levels = max(self.levels, len(lists) + 1)
                continue
            while lists:
                lists[-1][1].append(node)
                if self.byte() == b",":
                    self.at += 1
                    break
                self.take(b")")
                node = lists.pop()
            else:
                if self.at < len(self.text):
                    self.fail()
                return node

    def field(self, name):
        """The number of the attribute of a name."""
        if name is None:
            return 0
        return next((at for at, field in enumerate(self.fields) if field[0] == name), None)

    def check(self):
        if any(self.field(name) is None for name in self.names):
            raise QueryFault("NoField")
        for name, kind, is_part in self.types:
            field = self.fields[self.field(name)]
            if kind not in (None, field[2]) or is_part and field[1] != "weightedset":
                raise QueryFault("WrongType")
        if not self.in_range:
            raise QueryFault("OutOfRange")
        if self.levels > 32:
            raise QueryFault("TooDeep")

    def matches(self, node, lists):
        """Whether a document with these items matches."""
        if node[0] != "leaf":
            every = all if node[0] == "and" else any
            return every(self.matches(member, lists) for member in node[1])
        return any(meets(node[2], value) for value, _ in lists[self.field(node[1])])

    def score(self, lists):
        """The score of a document in a dot product; None where it has the value of no part."""
        name, parts = self.dot
        weights = dict(lists[self.field(name)])
        found = [weight * weights[value] for value, weight in parts if value in weights]
        return sum(found) if found else None

    def answer(self, table):
        """What stands after the colon in the answer line."""
        if self.dot is None:
            return "".join(f" {doc}" for doc in sorted(table) if self.matches(self.query, table[doc]))
        scores = ((doc, self.score(table[doc])) for doc in sorted(table))
        return "".join(f" {doc}={score}" for doc, score in scores if score is not None)


def meets(test, value):
    """Whether a value meets the test of a leaf."""
    if test[0] == "range":
        return (test[1] is None or test[1] <= value) and (test[2] is None or value <= test[2])
    if test[0] == "prefix":
        return value.startswith(test[1])
    return {"is": value == test[1], "below": value < test[1], "above": value > test[1]}[test[0]]


# What include/attr.h asks besides, of a table and some of its documents.

def items_in(table, document, field):
    """The items of a document in an attribute; none where it is not there."""
    return table[document][field] if document in table else []


def first_value(table, document, field):
    """The value by which a document is sorted and counted: that of its first item; None where it has none."""
    items = items_in(table, document, field)
    return items[0][0] if items else None


def sorted_documents(table, documents, field, descending):
    """The documents by their values: equal values by document, and those without a value last."""
    valued = [document for document in sorted(documents) if first_value(table, document, field) is not None]
    others = [document for document in sorted(documents) if first_value(table, document, field) is None]
    return sorted(valued, key=lambda document: first_value(table, document, field), reverse=descending) + others


def totals_of(table, documents, field):
    """The count, the sum, the least and the greatest of the numbers of the documents."""
    numbers = [it for it in (first_value(table, document, field) for document in documents) if isinstance(it, int)]
    return len(numbers), sum(numbers), min(numbers, default=None), max(numbers, default=None)


def groups_of(table, documents, field, by_count=False):
    """Each distinct value of the documents with how many of them have it."""
    counts = {}
    for document in documents:
        for value in {value for value, _ in items_in(table, document, field)}:
            counts[value] = counts.get(value, 0) + 1
    return sorted(sorted(counts.items()), key=lambda group: -group[1] if by_count else 0)


def best_scores(table, word, most):
    """The best scores of a dot product, as they are told: the nearest number of 64 bits, and whether it is exact."""
    found = [(document, word.score(lists)) for document, lists in table.items()] if word.dot else []
    best = sorted((-score, document) for document, score in found if score is not None)[:most]
    return [(document, min(max(-minus, -2**63), 2**63 - 1), int(fits(-minus, 64))) for minus, document in best]


# The feed.

def value_of(json, value_type):
    """A value, or BadValue."""
    if value_type == "long":
        if is_integer(json) and fits(json, 64):
            return json
    elif isinstance(json, str) and len(json.encode()) <= MOST_BYTES:
        return json
    raise Fault("BadValue")


def named(name, value_type):
    """The value that a name in a weighted set stands for, or BadValue."""
    if value_type == "string":
        return value_of(name, value_type)
    if re.fullmatch(r"0|-?[1-9][0-9]{0,18}", name) and fits(int(name), 64):
        return int(name)
    raise Fault("BadValue")


def integer(json, bits):
    if is_integer(json) and fits(json, bits):
        return json
    raise Fault("BadValue")


def items_of(json, kind, value_type):
    """The items of a put or an `assign`, or BadValue."""
    if json is None:
        return []
    if kind == "single":
        return [(value_of(json, value_type), 1)]
    if kind == "array":
        if not isinstance(json, list):
            raise Fault("BadValue")
        return [(value_of(it, value_type), 1) for it in json]
    if not isinstance(json, dict):
        raise Fault("BadValue")
    return sorted((named(name, value_type), integer(weight, 32)) for name, weight in json.items())


def read_match(json, kind, value_type):
    """The change of a `match`."""
    if not isinstance(json, dict) or len(json) != 2 or "element" not in json:
        raise Fault("BadValue")
    element = json["element"]
    if kind == "array":
        if not is_integer(element) or not 0 <= element < 2**32:
            raise Fault("BadValue")
    elif is_integer(element) and value_type == "long":
        element = integer(element, 64)
    elif isinstance(element, str):
        element = named(element, value_type)
    else:
        raise Fault("BadValue")
    operator = next(name for name in json if name != "element")
    operand = json[operator]
    if operator in ("increment", "decrement") and (kind == "weightedset" or value_type == "long"):
        amount = integer(operand, 32)
        return ("match", element, "shift", amount if operator == "increment" else -amount)
    if operator != "assign":
        return None
    return ("match", element, "set", value_of(operand, value_type) if kind == "array" else integer(operand, 32))


def read_change(json, kind, value_type):
    """The change that an update makes to an attribute; None where its operator is unsupported."""
    if not isinstance(json, dict) or len(json) != 1:
        raise Fault("BadValue")
    operator, operand = next(iter(json.items()))
    if operator == "assign":
        return ("assign", items_of(operand, kind, value_type))
    if operator == "add" and kind != "single":
        if operand is None:
            raise Fault("BadValue")
        return ("add", items_of(operand, kind, value_type))
    if operator == "remove" and kind == "weightedset":
        if isinstance(operand, dict):
            return ("remove", [named(name, value_type) for name in operand])
        if isinstance(operand, list):
            return ("remove", [value_of(it, value_type) for it in operand])
        raise Fault("BadValue")
    if operator in ("increment", "decrement") and kind == "single" and value_type == "long":
        amount = integer(operand, 32)
        return ("shift", amount if operator == "increment" else -amount)
    if operator == "match" and kind != "single":
        return read_match(operand, kind, value_type)
    return None


def document_of(text):
    """The document that an id names, or BadId."""
    parts = text.split(":") if isinstance(text, str) else []
    if len(parts) == 5 and parts[0] == "id" and parts[1] and parts[2] and re.fullmatch(r"[1-9][0-9]{0,6}", parts[4]):
        if int(parts[4]) <= MOST_DOCUMENT:
            return int(parts[4])
    raise Fault("BadId")


def members(json):
    return len(json) if isinstance(json, (list, dict)) else 0


def read_line(line, fields):
    """The operation of a line: its name, document, `create`, and what it does to each attribute."""
    try:
        json = json_lines.parse(line)
    except json_lines.NotJson:
        raise Fault("NotJson") from None
    names = [name for name in ("put", "update", "remove") if isinstance(json, dict) and name in json]
    if len(names) != 1:
        raise Fault("NoOperation")
    operation = names[0]
    document = document_of(json[names[0]])
    if operation == "remove":
        if "condition" in json or "create" in json:
            raise Fault("Unsupported")
        return operation, document, False, []
    create = json.get("create", False)
    given = json.get("fields")
    if not isinstance(create, bool) or not isinstance(given, dict):
        raise Fault("BadValue")
    found, is_supported, counts = [], True, []
    for name, kind, value_type in fields:
        if name not in given:
            found.append([] if operation == "put" else ("keep",))
            continue
        field = given[name]
        if operation == "put":
            found.append(items_of(field, kind, value_type))
            counts.append(members(field))
        else:
            change = read_change(field, kind, value_type)
            found.append(change)
            is_supported = is_supported and change is not None
            counts.append(members(next(iter(field.values()))))
    if "condition" in json or not is_supported:
        raise Fault("Unsupported")
    if any(count > MOST_ITEMS for count in counts):
        raise Fault("TooManyItems")
    return operation, document, create, found


def read_feed(feed, fields):
    """The operations of a feed."""
    if len(feed) > MOST_FEED:
        raise Refused(3, "attr: feed: FeedTooLong\n")
    operations = []
    for number, line in enumerate(feed.split(b"\n"), 1):
        if not line.strip(b" \t\r"):
            continue
        try:
            operations.append(read_line(line, fields))
        except Fault as fault:
            raise Refused(3, f"attr: feed line {number}: {fault}\n") from None
    return operations


# What an operation does.

def matched(change, items, kind):
    """The items after a `match`; None where it is skipped."""
    _, element, act, by = change
    at = element if kind == "array" else next((at for at, item in enumerate(items) if item[0] == element), len(items))
    if at >= len(items):
        return None
    value, weight = items[at]
    old = value if kind == "array" else weight
    new = by if act == "set" else old + by
    if act == "shift" and not fits(new, 64 if kind == "array" else 32):
        return None
    return [*items[:at], (new, 1) if kind == "array" else (value, new), *items[at + 1:]]


def changed(change, items, kind):
    """The items after a change; None where it is skipped."""
    if change[0] == "keep":
        return items
    if change[0] == "assign":
        return change[1]
    if change[0] == "add":
        found = items + change[1] if kind == "array" else sorted({**dict(items), **dict(change[1])}.items())
        return found if len(found) <= MOST_ITEMS else None
    if change[0] == "remove":
        return [item for item in items if item[0] not in set(change[1])]
    if change[0] == "shift":
        if not items or not fits(items[0][0] + change[1], 64):
            return None
        return [(items[0][0] + change[1], 1)]
    return matched(change, items, kind)


def step(table, operation, fields):
    """Applies an operation to a table. Returns whether it was skipped."""
    name, document, create, found = operation
    if name == "put":
        table[document] = found
        return False
    if name == "remove":
        return table.pop(document, None) is None
    if document not in table and not create:
        return True
    lists = table.get(document, [[] for _ in fields])
    after = [changed(change, items, field[1]) for change, items, field in zip(found, lists, fields)]
    if any(items is None for items in after):
        return True
    table[document] = after
    return False


def distinct(lists):
    return {value for value, _ in lists[0]} if lists else set()


def saved_item(item, kind, value_type):
    """The bytes of an item in a save."""
    value, weight = item
    if value_type == "long":
        found = value.to_bytes(8, "big", signed=True)
    else:
        found = len(value.encode()).to_bytes(2, "big") + value.encode()
    return found + (weight.to_bytes(4, "big", signed=True) if kind == "weightedset" else b"")


def save_of(table, field, operations):
    """The bytes of the save of a table's first attribute, after so many operations (docs/FORMATS.md)."""
    _, kind, value_type = field
    found = [b"ATS1", bytes([KINDS.index(kind), TYPES.index(value_type)]), operations.to_bytes(4, "big"), len(table).to_bytes(4, "big")]
    for document in sorted(table):
        items = table[document][0]
        found += [document.to_bytes(4, "big"), len(items).to_bytes(2, "big")]
        found += [saved_item(item, kind, value_type) for item in items]
    return b"".join(found)


class Load:
    """The tables of a load at its commit points, with the operations skipped and the weight up to each operation (docs/COMMAND_LINE.md)."""

    def __init__(self, settings, operations):
        self.settings, self.operations = settings, operations
        self.points, self.tables, self.skips, self.weights = [0], [{}], [0], [0]
        table, skipped = {}, 0
        for count, operation in enumerate(operations, 1):
            before = distinct(table.get(operation[1]))
            skipped += step(table, operation, settings.fields)
            self.weights.append(self.weights[-1] + 1 + len(before | distinct(table.get(operation[1]))))
            if count % settings.batch == 0 or count == len(operations):
                self.points.append(count)
                self.tables.append(dict(table))
                self.skips.append(skipped)

    def answers(self, at):
        """The lines of the answers at a commit point."""
        table = self.tables[at]
        return "".join(f"{number}:{query.answer(table)}\n" for number, query in enumerate(self.settings.queries, 1))

    def save(self, at):
        """The save at a commit point."""
        return save_of(self.tables[at], self.settings.fields[0], self.points[at])

    def is_plain(self):
        """Whether the attribute is a single long alone, so that few widths are in use."""
        return self.settings.fields[0][1:] == ("single", "long")

    def is_small(self):
        """Whether the run is small, and so never full."""
        settings, weight = self.settings, self.weights[-1]
        if len(settings.fields) > 1 or weight > 127 or 10 * weight > settings.words // 34 - 1:
            return False
        return self.is_plain() or (weight <= settings.words // 256 - 1 and settings.buffers >= 11
                                   and len(self.operations) <= settings.words // 1024 - 1)

    def is_owed(self, operation, commits):
        """Whether a store that is full at this operation, after so many commits, is justified by what was made."""
        settings = self.settings
        if len(settings.fields) > 1 or settings.dense:
            return True
        made, height = self.weights[operation], 1
        while 2 * 8**height <= made:
            height += 1
        nodes = 2 * (2 * height + 1) * (made + 256 * commits)
        others = 2 * made + 257 * commits + 1
        widths, widest = (5, 16) if self.is_plain() else (11, 1024)
        return settings.buffers <= widths + nodes // (settings.words // 34 - 1) + others // (settings.words // widest - 1)

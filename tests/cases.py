"""Random runs of `attr` beside the plain model: words, queries, feeds, damaged lines, small stores.

A case is known by the seed and its number, so it can be made again: tests/check --seed S --case N.
"""
import json
import random
import shlex

import model
import rows

NAMES = ["f", "g", "h", "year", "and", "dot", "a_1", "_"]
TEXTS = ["", "a", "b", "tea", "ten", "t", "z", "é", "ü\u0000", 'q"\\', "\U0001f600", "a" * 9, "a" * 17, "tea" * 100]
LONGS = [0, 1, -1, 5, 7, 10, 2**31, -2**31 - 1, 2**63 - 1, -2**63, 2**63 - 2]
ODD_WORDS = [("batch", 7), ("kind", "list"), ("value", ""), ("seed", 65536), ("readers", 9), ("rounds", "x"), ("buffers", 1024),
             ("also", "f:single:long"), ("also", "q:single"), ("also", "q:array:long,"), ("speed", 5), ("help", None), ("help", "x"),
             ("batch", "+5"), ("batch", "007"), ("batch", "-0"), ("after", "true")]
BAD = ["1.5", "-0", "1e2", "true", "[1]", "{}", '"x"', "9223372036854775808", "-9223372036854775809", "18446744073709551616", "null", "5",
       "[]", '{"a":1}', '{"5":2147483648}', '{"05":1}', '"\\ud800"', "[null]", "1e999", "01", "+1", "nul", '"' + "a" * 1025 + '"', "[" * 130]


class Maker:
    """Makes one case."""

    def __init__(self, seed):
        self.dice = random.Random(seed)
        self.count = self.dice.choice([1, 1, 1, 2, 3])
        first = self.dice.choice([("f", None), (self.dice.choice(NAMES), 1)])
        names = [first[0], *self.dice.sample([it for it in NAMES if it != first[0]], self.count - 1)]
        self.fields = [(name, self.dice.choice(model.KINDS), self.dice.choice(model.TYPES)) for name in names]
        # (a heavy case has lists of all lengths, and so records of all widths: it fills a small store)
        self.is_heavy = self.odd(0.08)
        if self.is_heavy:
            self.fields[0] = (self.fields[0][0], self.dice.choice(model.KINDS[1:]), self.fields[0][2])
        self.documents = self.dice.choice([3, 3, 12, 12, 200, 200, 2000])
        self.values = self.dice.choice([3, 12, 1000])

    def odd(self, chance):
        """Whether something happens that happens so often."""
        return self.dice.random() < chance

    # Values as JSON.

    def value(self, value_type, odd=0.02):
        if odd and self.odd(odd):
            return None
        if value_type == "long":
            return self.dice.choice(LONGS) if self.odd(0.2) else self.dice.randrange(-self.values, self.values)
        return self.dice.choice(TEXTS) if self.odd(0.5) else f"t{self.dice.randrange(self.values)}"

    def json(self, value):
        if value is None:
            return self.dice.choice(BAD) if self.odd(0.3) else "null"
        return json.dumps(value, ensure_ascii=self.odd(0.5))

    def weight(self):
        return self.dice.choice([2**31 - 1, -2**31, 0, -1]) if self.odd(0.2) else self.dice.randrange(-9, 9)

    def element(self, value_type):
        """The name of an item in a weighted set."""
        return json.dumps(str(self.value(value_type) or 0))

    def many(self):
        """How many items: few, or now and then as many as may be, or more."""
        if self.odd(0.01):
            return self.dice.choice([1022, 1023, 1024, 1025])
        if self.is_heavy and self.odd(0.5):
            return self.dice.choice([1, 3, 7, 15, 31, 63, 127, 255, 511, 900])
        if self.odd(0.05):
            return self.dice.choice([7, 15, 31, 32, 63, 127, 255, 300, 600])
        return self.dice.randrange(4)

    def items(self, kind, value_type, count=None):
        count = self.many() if count is None else count
        if kind == "single":
            return self.json(self.value(value_type))
        if kind == "array":
            found = [self.json(self.value(value_type, 0)) for _ in range(count)]
            if found and self.odd(0.02):
                found[self.dice.randrange(count)] = self.json(None)
            return "[" + ",".join(found) + "]"
        names = [f'"{it}"' for it in range(count)] if count > 300 else [self.element(value_type) for _ in range(count)]
        return "{" + ",".join(f"{name}:{self.weight()}" for name in names) + "}"

    def amount(self):
        return str(self.dice.choice([2**31 - 1, -2**31, 2**31]) if self.odd(0.1) else self.dice.randrange(-5, 6))

    def match(self, kind, value_type):
        if kind == "array":
            element = str(self.dice.choice([0, 0, 1, 2, 3, 2**32 - 1, 2**32]))
        else:
            element = self.json(self.value(value_type)) if self.odd(0.3) else self.element(value_type)
        operator = self.dice.choice(["assign", "increment", "decrement"] if not self.odd(0.03) else ["add", "multiply"])
        operand = self.amount()
        if operator == "assign":
            operand = self.json(self.value(value_type)) if kind == "array" else str(self.weight())
        pair = [f'"element":{element}', f'"{operator}":{operand}']
        self.dice.shuffle(pair)
        return "{" + ",".join(pair) + "}"

    def change(self, kind, value_type):
        """An update's operator and its value."""
        fitting = {"single": ["assign", "increment", "decrement"], "array": ["assign", "add", "match"],
                   "weightedset": ["assign", "add", "remove", "match"]}[kind]
        operator = self.dice.choice(fitting if not self.odd(0.02) else ["assign", "add", "remove", "increment", "match", "divide"])
        if operator in ("increment", "decrement"):
            operand = self.amount()
        elif operator == "match":
            operand = self.match(kind, value_type)
        elif operator == "remove" and self.odd(0.5):
            operand = "[" + ",".join(self.json(self.value(value_type)) for _ in range(self.many())) + "]"
        else:
            operand = "null" if operator == "assign" and self.odd(0.1) else self.items(kind, value_type)
        return f'{{"{operator}":{operand if not self.odd(0.005) else self.dice.choice(BAD)}}}'

    def line(self):
        """One line of a feed."""
        document = self.dice.randrange(1, self.documents + 1) if not self.odd(0.01) else self.dice.choice([1048575, 4096, 8192])
        number = str(document) if not self.odd(0.003) else self.dice.choice(["0", "01", "1048576", "+1", "", "x"])
        middle = self.dice.choice(["::", ":g=x:", "::"]) if not self.odd(0.003) else self.dice.choice([":", "::a:", ""])
        operation = self.dice.choice(["put", "put", "put", "update", "update", "update", "remove"])
        operation_id = f"id:music:song{middle}{number}"
        found = [f'"{operation}":"{operation_id}"']
        if operation != "remove" or self.odd(0.05):
            fields = []
            for name, kind, value_type in self.fields:
                if self.odd(0.9):
                    made = self.items(kind, value_type) if operation == "put" else self.change(kind, value_type)
                    fields.append(f'"{name}":{made}')
            fields += ['"other":[1,{"f":2}]'] if self.odd(0.05) else []
            self.dice.shuffle(fields)
            found.append('"fields":{' + ",".join(fields) + "}")
        if operation == "update" and self.odd(0.3) or self.odd(0.003):
            found.append('"create":' + self.dice.choice(["true", "true", "false"] if not self.odd(0.01) else ["null", "1"]))
        for chance, extra in ((0.02, '"more":null'), (0.001, '"condition":"x"'), (0.001, '"remove":"id:a:b::1"')):
            found += [extra] if self.odd(chance) else []
        self.dice.shuffle(found)
        space = " " if self.odd(0.2) else ""
        return ("{" + f"{space},{space}".join(found) + "}" + (" \r" if self.odd(0.05) else "")).encode()

    def damaged(self, data):
        """The bytes with one place changed."""
        at = self.dice.randrange(len(data)) if data else 0
        put = self.dice.choice([b"", b"", b'"', b"{", b"}", b",", b":", b"0", b"-", b".", b"\\", b"\xff", b"\xc3", b" ", b"\x01", b"\n"])
        return self.dice.choice([data[:at] + put + data[at + 1:], data[:at] + put + data[at:], data[:at]])

    def feed(self):
        size = self.dice.choice([0, 1, 2, 5, 10, 20, 40, 40, 80]) if not self.odd(0.02) else self.dice.choice([300, 1000])
        size = size if not self.is_heavy else self.dice.choice([20, 40])
        lines = [b"" if self.odd(0.02) else self.line() for _ in range(size)]
        good = []
        for line in lines:
            # (most faults that came by chance are taken out again, so that most runs get far)
            try:
                if line:
                    model.read_line(line, self.fields)
            except model.Fault:
                if self.odd(0.97):
                    continue
            good.append(line)
        feed = b"\n".join(good) + (b"\n" if good and self.odd(0.8) else b"")
        return self.damaged(feed) if self.odd(0.1) else feed

    # Queries.

    def leaf(self):
        name, _, value_type = self.dice.choice(self.fields)
        if self.odd(0.01):
            value_type = self.dice.choice(model.TYPES)
        front = f"{name}:" if name != self.fields[0][0] or self.odd(0.3) else ""
        if self.odd(0.01):
            front = "none:" if self.odd(0.5) else front

        def value():
            found = self.value(value_type)
            if value_type == "long":
                return str(found if found is not None else 2**63 if self.odd(0.1) else 3)
            return '"' + (found or "").replace("\0", "").replace("\\", "\\\\").replace('"', '\\"') + '"'

        form = self.dice.randrange(6)
        if form == 0:
            return front + value()
        if form == 1:
            return front + self.dice.choice("<>") + value()
        if form == 2 and value_type == "string":
            return front + value() + "*"
        return front + f"[{value() if self.odd(0.7) else ''};{value() if self.odd(0.7) else ''}]"

    def query(self, depth=0):
        if depth == 0 and self.odd(0.15):
            sets = [field for field in self.fields if field[1] == "weightedset"] or ([self.fields[0]] if self.odd(0.1) else [])
            if sets:
                name, _, value_type = self.dice.choice(sets)
                values = [str(self.value("long") or 0), "5"] if value_type == "long" else ['"a"', '"tea"', '"t1"', '"t2"', '""']
                parts = ",".join(f"{self.dice.choice(values)}:{self.weight()}" for _ in range(self.dice.randrange(1, 5)))
                return (f"{name}:" if name != self.fields[0][0] else "") + f"dot({parts})"
        if depth < 3 and self.odd(0.35):
            members = ",".join(self.query(depth + 1) for _ in range(self.dice.randrange(1, 4)))
            return self.dice.choice(["and", "or"]) + f"({members})"
        return self.leaf()

    def asked(self):
        query = self.query()
        if self.odd(0.02):
            query = "and(" * self.dice.choice([29, 30, 31, 32, 40]) + query
            query += ")" * query.count("and(") if self.odd(0.8) else ""
        if self.odd(0.04):
            at = self.dice.randrange(len(query))
            put = self.dice.choice(["", "", '"', "(", ")", ",", "0", "-", "é", "*", ";", "d", "_"])
            query = query[:at] + put + query[at + self.dice.randrange(2):]
        return query

    # Words.

    def words(self):
        dice = self.dice
        buffers = dice.choice([8, 8, 8, 9, 11, 12, 20, 64] if not self.is_heavy else [8, 8, 9, 10])
        size = dice.choice([8192, 8192, 8192, 16384, 45056])
        name, kind, value_type = self.fields[0]
        given = [("kind", kind), ("value", value_type), ("buffers", buffers), ("words", size)]
        given += [("field", name)] if name != "f" or self.odd(0.1) else []
        given += [("also", ",".join(":".join(it) for it in self.fields[1:]))] if self.count > 1 else []
        given += [("batch", dice.choice([1, 2, 3, 5, 10, 100]))] if self.odd(0.8) else []
        given += [("readers", dice.choice([0, 0, 0, 1, 2, 2, 8]))] if self.odd(0.9) else []
        given += [("rounds", dice.choice([1, 2, 5, 20]))] if self.odd(0.8) else []
        given += [(flag, None) for flag, chance in (("after", 0.3), ("wide", 0.2), ("dense", 0.2), ("save", 0.15)) if self.odd(chance)]
        if self.odd(0.03):
            given.append(dice.choice(ODD_WORDS))
        if self.odd(0.02):
            del given[dice.randrange(len(given))]
        dice.shuffle(given)
        words = []
        for option, value in given:
            joined = value is not None and self.odd(0.2)
            words.append([f"--{option}={value}"] if joined else [f"--{option}"] if value is None else [f"--{option}", str(value)])
        queries = [self.asked() for _ in range(dice.choice([0, 1, 2, 3, 5]))]
        for query in queries:
            words.insert(dice.randrange(len(words) + 1), [query])
        found = [word for pair in words for word in pair]
        found += ["--", self.asked()] if self.odd(0.1) else []
        found += [dice.choice(["-x", "-h", "--help", "", "-"])] if self.odd(0.01) else []
        return [word.encode() for word in found if "\0" not in word]


HELP = ("attr --kind single|array|weightedset --value long|string [--field F] [--batch B] [--readers R]\n"
        "     [--rounds N] [--buffers U] [--words W] [--after] [--make N] [--seed S] [--wide] [--dense] [--also A] [--save] [QUERY..]\n")


def refusal(words, feed):
    """The settings and the load of a run that is not refused; or else the refusal."""
    try:
        settings = model.Settings(words)
        return settings, model.Load(settings, model.read_feed(feed, settings.fields)), None
    except model.Help:
        return None, None, model.Refused(0, HELP)
    except model.Refused as refused:
        return None, None, refused


def wrong_save(settings, load, status, output):
    """What is wrong with a save."""
    if status not in (0, 6) or status == 6 and load.is_small():
        return "exit 0 was wanted"
    fitting = [at for at in range(len(load.points)) if output == load.save(at)]
    if not fitting:
        return "the save of a commit was wanted"
    if status == 0 and settings.after and len(load.points) - 1 not in fitting:
        return "the save of the last commit was wanted"
    return None


def wrong_full(settings, load, at, lines):
    """What is wrong with the lines of a full store, after the answers at a commit point."""
    words = lines[0].split(" ") if lines else []
    if words[:3] != ["full", "at", "operation"] or len(words) != 4:
        return "full at operation J was wanted"
    operation, done = int(words[3]), load.points[at]
    if not done < operation <= min(done + settings.batch, len(load.operations)):
        return "an operation of the next batch was wanted"
    if load.is_small():
        return "a small run is never full"
    return None if load.is_owed(operation, at) else "a full store is not owed here"


def wrong_report(settings, load, status, output):
    """What is wrong with a report."""
    text = output.decode(errors="backslashreplace")
    answers = [(f"at {point}\n" + load.answers(at)) for at, point in enumerate(load.points)]
    place = text.find("final at ")
    at = next((at for at, lines in enumerate(answers) if text[place + 6:].startswith(lines)), None)
    if place < 0 or at is None:
        return f"final {answers[-1]!r} was wanted"
    lines = text[place + 6 + len(answers[at]):].split("\n")[:-1]
    if status == 6:
        wrong = wrong_full(settings, load, at, lines)
        if wrong:
            return wrong
        lines = lines[1:]
    elif status != 0 or at != len(answers) - 1:
        return f"exit 0 and final {answers[-1]!r} was wanted"
    done = f"done {load.points[at]} operations {load.skips[at]} skipped"
    if lines != [done]:
        return f"{done} was wanted"
    points = [(load.points[it], answers[it].encode()) for it in ([at] if settings.after else range(at + 1))]
    rest = rows.after_rounds(output[:len(text[:place].encode())], settings.readers, settings.rounds, points)
    return None if rest == b"" else "rounds at commit points were wanted"


def wrong(program, words, feed):
    """What is wrong with a run; None where it is as the model says. And what kind of run it was."""
    settings, load, refused = refusal(words, feed)
    status, output, at = rows.run(program, words, feed)
    if refused is not None:
        right = (status, output) == (refused.status, refused.text.encode())
        if refused.status != 3 and at > 0:
            return "nothing of the feed was to be read", "refused"
        return None if right else rows.shown(refused.status, refused.text.encode()) + " was wanted", "refused"
    check = wrong_save if settings.save else wrong_report
    kind = "full" if status == 6 else "saved" if settings.save else "beside readers" if settings.readers and not settings.after else "done"
    return check(settings, load, status, output), kind


def case(program, seed, number):
    """Runs a case. Returns what is wrong, or None, and the kind of run."""
    maker = Maker(f"{seed}:{number}")
    words, feed = maker.words(), maker.feed()
    found, kind = wrong(program, words, feed)
    if found is None:
        return None, kind
    status, output, _ = rows.run(program, words, feed)
    told = shlex.join(word.decode(errors="backslashreplace") for word in words)
    ran = rows.shown(status, output)
    return f"case {number} of seed {seed}: {found}\n    attr {told}\n    on {feed[:1500]!r}\n    found  {ran}", kind


def batch(job):
    """Runs the cases of a range. Returns the faults, and how many cases of each kind there were."""
    program, seed, first, last = job
    faults, kinds = [], {}
    for number in range(first, last):
        found, kind = case(program, seed, number)
        kinds[kind] = kinds.get(kind, 0) + 1
        if found:
            faults.append(found)
    return faults, kinds

"""JSON as docs/FEED.md takes it, which is as the crate `serde_json` parses it: RFC 8259, numbers of 64 bits or floats, 127 levels.

An integer becomes an int, every other number a Float. The last of two equal names stands.
"""
import json
import re

LEVELS = 127
NUMBER = re.compile(rb"-?(?:0|[1-9][0-9]*)(\.[0-9]+)?([eE][+-]?[0-9]+)?")
SPACE = re.compile(rb"[ \t\n\r]*")
PLAIN = re.compile(rb'[^"\\\x00-\x1f]*')
ESCAPES = {ord('"'): '"', ord("\\"): "\\", ord("/"): "/", ord("b"): "\b", ord("f"): "\f", ord("n"): "\n", ord("r"): "\r", ord("t"): "\t"}


class NotJson(Exception):
    """The bytes are no JSON value."""


class Float:
    """A number that is no integer of 64 bits."""


class Parser:
    """A place in the bytes of a value."""

    def __init__(self, data):
        self.data, self.at = data, 0

    def next(self):
        """The next byte that is no white space, or None."""
        self.at = SPACE.match(self.data, self.at).end()
        return self.data[self.at] if self.at < len(self.data) else None

    def take(self, word):
        if not self.data.startswith(word, self.at):
            raise NotJson
        self.at += len(word)

    def value(self, levels):
        byte = self.next()
        if byte is None:
            raise NotJson
        if byte == ord("{"):
            return self.object(levels)
        if byte == ord("["):
            return self.list(levels)
        if byte == ord('"'):
            return self.text()
        for word, value in ((b"null", None), (b"true", True), (b"false", False)):
            if byte == word[0]:
                self.take(word)
                return value
        return self.number()

    def number(self):
        found = NUMBER.match(self.data, self.at)
        if not found:
            raise NotJson
        self.at = found.end()
        if found[1] is None and found[2] is None and found[0] != b"-0":
            number = int(found[0]) if len(found[0]) < 25 else None
            if number is not None and -2**63 <= number < 2**64:
                return number
        if float(found[0]) in (float("inf"), float("-inf")):
            raise NotJson
        return Float()

    def hex(self):
        digits = self.data[self.at:self.at + 4]
        if not re.fullmatch(rb"[0-9a-fA-F]{4}", digits):
            raise NotJson
        self.at += 4
        return int(digits, 16)

    def escape(self):
        """What follows a backslash."""
        if self.at >= len(self.data):
            raise NotJson
        byte = self.data[self.at]
        self.at += 1
        if byte in ESCAPES:
            return ESCAPES[byte].encode()
        if byte != ord("u"):
            raise NotJson
        code = self.hex()
        if 0xDC00 <= code < 0xE000:
            raise NotJson
        if 0xD800 <= code < 0xDC00:
            self.take(b"\\u")
            low = self.hex()
            if not 0xDC00 <= low < 0xE000:
                raise NotJson
            code = 0x10000 + ((code - 0xD800) << 10) + (low - 0xDC00)
        return chr(code).encode()

    def text(self):
        """A text; texts are compared by their code points, which is by their bytes in UTF-8."""
        self.take(b'"')
        found = b""
        while True:
            end = PLAIN.match(self.data, self.at).end()
            found += self.data[self.at:end]
            self.at = end + 1
            if end >= len(self.data) or self.data[end] < 0x20:
                raise NotJson
            if self.data[end] == ord('"'):
                break
            found += self.escape()
        try:
            return found.decode()
        except UnicodeDecodeError:
            raise NotJson from None

    def members(self, end, member):
        """What stands between brackets."""
        self.at += 1
        if self.next() == end:
            self.at += 1
            return
        while True:
            member()
            byte = self.next()
            self.at += 1
            if byte == end:
                return
            if byte != ord(","):
                raise NotJson

    def list(self, levels):
        if levels == 0:
            raise NotJson
        found = []
        self.members(ord("]"), lambda: found.append(self.value(levels - 1)))
        return found

    def object(self, levels):
        if levels == 0:
            raise NotJson
        found = {}

        def member():
            if self.next() != ord('"'):
                raise NotJson
            name = self.text()
            if self.next() != ord(":"):
                raise NotJson
            self.at += 1
            found[name] = self.value(levels - 1)

        self.members(ord("}"), member)
        return found


def integer(digits):
    """The value of a number without a point and an exponent."""
    number = int(digits) if len(digits) < 25 else None
    if digits == "-0" or number is None or not -2**63 <= number < 2**64:
        raise ValueError
    return number


def no_number(_):
    raise ValueError


READER = json.JSONDecoder(parse_int=integer, parse_float=no_number, parse_constant=no_number)


def parse(data):
    """The value that all of these bytes are.

    Most lines are read by Python's own parser. A line on which the two could differ, or which Python refuses, is read by the one above.
    """
    if b"\\u" not in data and data.count(b"[") + data.count(b"{") <= LEVELS:
        try:
            return READER.decode(data.decode())
        except (ValueError, RecursionError):
            pass
    parser = Parser(data)
    value = parser.value(LEVELS)
    if parser.next() is not None:
        raise NotJson
    return value

"""Engine, Reader and Guard: handles that refuse what the library could not bear.

A handle belongs to the thread that first uses it, and to no other until unbind() or until that thread has ended. Beside that each handle
has a lock that no call waits for: where another call is under way, the later one raises. So at most one call with a handle runs at a time.
"""
import array
import collections
import ctypes
import operator
import os
import threading
import weakref
from typing import Any, Callable, Deque, Iterable, List, Optional, Union

from ._library import (Answer, AnswerTold, Code, Counts, Group, GroupTold, Handle, Item, ItemTold, Longs, Misuse, Refused, Score, Sizes, Told,
                       Totals, TotalsTold, lib, message)

Bytes = Union[bytes, bytearray, memoryview]
# The most documents that an engine can have.
_MOST = 1048575


# Stands for this process: a child of a fork has another one. The handles that it has are its parent's, and nothing may be called with them.
_process = [object()]


def _forked() -> None:
    _process[0] = object()


os.register_at_fork(after_in_child=_forked)


def _close(call: Callable[[Handle], None], at: int, process: object) -> None:
    if process is _process[0]:
        call(Handle(at))


def _number(value: int, name: str, most: int = 0xFFFFFFFF) -> int:
    number = operator.index(value)
    if not 0 <= number <= most:
        raise ValueError(f"{name} is {number}, and has to be from 0 to {most}")
    return number


def _bytes(data: Union[str, Bytes]) -> bytes:
    """The data as bytes that nobody can change while the library reads them."""
    if isinstance(data, str):
        return data.encode()
    if isinstance(data, bytes):
        return data
    if isinstance(data, (bytearray, memoryview)):
        return bytes(data)
    raise TypeError(f"text or bytes, and not {type(data).__name__}")


class _Owned:
    """A handle of the library: its pointer, its lock, its thread, and what closes it."""

    _what = "handle"

    def _own(self, at: int, closes: Callable[[Handle], None]) -> None:
        self._at: Optional[Handle] = Handle(at)
        self._lock = threading.Lock()
        self._thread: Optional[threading.Thread] = None
        self._process = _process[0]
        self._finalizer = weakref.finalize(self, _close, closes, at, self._process)
        # (at exit, other threads may still be in calls; the system takes the memory)
        self._finalizer.atexit = False

    def _enter(self, by_owner: bool = True) -> Handle:
        """Takes the lock, or raises; the caller gives it back by _leave."""
        if not self._lock.acquire(blocking=False):
            raise Misuse(f"another call with this {self._what} is under way")
        try:
            at = self._at
            if at is None:
                raise Misuse(f"the {self._what} is closed")
            if self._process is not _process[0]:
                raise Misuse(f"the {self._what} was made by the process that forked this one")
            if by_owner:
                here, owner = threading.current_thread(), self._thread
                if owner is not here:
                    if owner is not None and owner.is_alive():
                        raise Misuse(f"the {self._what} belongs to the thread {owner.name}, and this is {here.name}: "
                                     f"call unbind() there, or open a reader for each thread")
                    self._thread = here
            return at
        except BaseException:
            self._lock.release()
            raise

    def _leave(self) -> None:
        self._lock.release()

    def _forget(self) -> int:
        """The pointer, which from now on the caller alone has."""
        assert self._at is not None
        at: int = self._at.at
        self._at = None
        self._finalizer.detach()
        return at

    def unbind(self) -> None:
        """Gives the handle to the thread that uses it next. Called by its own thread."""
        self._enter()
        self._thread = None
        self._leave()

    @property
    def closed(self) -> bool:
        return self._at is None

    def close(self) -> None:
        """Closes the handle; a second time nothing happens. Any thread may do so while no call is under way."""
        if not self._lock.acquire(blocking=False):
            raise Misuse(f"another call with this {self._what} is under way")
        try:
            if self._at is not None:
                self._at = None
                self._finalizer()
        finally:
            self._leave()

    def __reduce__(self) -> Any:
        raise TypeError(f"this {self._what} cannot be copied")


class Engine(_Owned):
    """The engine and its writer: one thread feeds, commits, compacts, and hands readers out.

    attributes   name:kind:value with commas between them, such as "year:single:long,tags:weightedset:string"
    buffers, words, readers, wide, dense   as in struct attr_sizes
    """

    _what = "engine"

    def __init__(self, attributes: str, buffers: int = 256, words: int = 8192, readers: int = 4, wide: bool = False,
                 dense: bool = False) -> None:
        if "_at" in self.__dict__:
            raise Misuse("the engine is open already")
        text, out, place = _bytes(attributes), Handle(), ctypes.c_uint64()
        numbers = {"buffers": buffers, "words": words, "readers": readers, "wide": bool(wide), "dense": bool(dense)}
        sizes = Sizes(*(_number(value, name) for name, value in numbers.items()))
        code = lib.attr_open(text, len(text), ctypes.byref(sizes), ctypes.byref(out), ctypes.byref(place))
        if code:
            more = f": attribute number {place.value}, from 0" if code == Code.ATTRIBUTES else ""
            raise Refused(code, message(code) + more, place=place.value)
        self._own(out.at, lib.attr_close)
        self.names = [part.split(":")[0] for part in text.decode().split(",")]
        # (a reader keeps this and not the engine, which can go before it)
        self._mark = object()

    def _write(self, call: Callable[..., int], *words: Any) -> Told:
        told, at = Told(), self._enter()
        try:
            code = call(at, *words, ctypes.byref(told))
        finally:
            self._leave()
        if code:
            more = f": line {told.line}, at byte {told.place}" if told.line else ""
            if code == Code.FULL:
                more += f": {told.active} buffers in use, {told.held} held"
                more += f" by a reader of commit {told.oldest} or later" if told.is_held else ""
            raise Refused(code, message(code) + more, told.line, told.place, told)
        return told

    def feed(self, lines: Union[str, Bytes]) -> Told:
        """Applies lines of JSON up to one that is refused: Refused has its line, and `told.next`, where the line behind it begins."""
        data = _bytes(lines)
        return self._write(lib.attr_feed, data, len(data))

    def commit(self) -> Told:
        """Commits what was applied: from then on answers are of this commit."""
        return self._write(lib.attr_commit)

    def compact(self, keys: int = 256) -> Told:
        """Goes so many keys on in a compaction."""
        return self._write(lib.attr_compact, _number(keys, "keys"))

    def load(self, save: Bytes) -> Told:
        """Puts the documents of a save in."""
        data = _bytes(save)
        return self._write(lib.attr_load, data, len(data))

    def counts(self) -> Counts:
        """Numbers for a monitor."""
        counts, at = Counts(), self._enter()
        try:
            lib.attr_counts(at, ctypes.byref(counts))
        finally:
            self._leave()
        return counts

    def reader(self) -> "Reader":
        """Hands a reader out. It belongs to the thread that uses it first."""
        out, at = Handle(), self._enter()
        try:
            code = lib.attr_reader_open(at, ctypes.byref(out))
        finally:
            self._leave()
        if code:
            raise Refused(code)
        reader = Reader.__new__(Reader)
        reader._begin(out.at, self)
        return reader

    def take_back(self, reader: "Reader") -> None:
        """Takes a reader of this engine back, so that it can be handed out again. It is closed then, and its guards hold nothing."""
        if not isinstance(reader, Reader):
            raise TypeError("take_back is given a reader")
        if reader._mark is not self._mark:
            raise Misuse("the reader is of another engine")
        at = self._enter()
        try:
            reader._enter(by_owner=False)
            try:
                code = lib.attr_reader_return(at, Handle(reader._forget()))
            finally:
                reader._leave()
        finally:
            self._leave()
        if code:
            raise Refused(code)

    def __enter__(self) -> "Engine":
        return self

    def __exit__(self, *_: object) -> None:
        self.close()


class Guard:
    """One commit for several answers, until it is released. Guards nest: the commit is given back with the last one. One that is dropped is
    given back before the reader's next call."""

    def __init__(self, reader: "Reader", commit: int, operations: int) -> None:
        self._reader: Optional[Reader] = reader
        self.commit, self.operations = commit, operations

    def release(self) -> None:
        """Gives the guard back; a second time nothing happens. It is called by the reader's thread."""
        reader = self._reader
        if reader is not None:
            reader._release()
            self._reader = None

    def __del__(self) -> None:
        reader = self.__dict__.get("_reader")
        if reader is not None:
            reader._dropped.append(1)

    def __enter__(self) -> "Guard":
        return self

    def __exit__(self, *_: object) -> None:
        self.release()


class Reader(_Owned):
    """A reader: one thread's. While one of its calls runs, other threads run, too."""

    _what = "reader"

    def __init__(self) -> None:
        raise TypeError("a reader comes from Engine.reader()")

    def _begin(self, at: int, engine: Engine) -> None:
        self._own(at, lib.attr_reader_close)
        self._mark, self._names, self._guards, self._kept = engine._mark, engine.names, 0, 0
        self._dropped: Deque[int] = collections.deque()

    def _enter(self, by_owner: bool = True) -> Handle:
        at = super()._enter(by_owner)
        while by_owner and self._dropped:
            self._dropped.pop()
            self._give_back(at)
        return at

    def _give_back(self, at: Handle) -> None:
        self._guards -= 1
        if self._guards == 0:
            lib.attr_release(at)

    def hold(self) -> Guard:
        """Takes a guard of the last commit, or of the one that the reader holds already: `with reader.hold() as held:`."""
        told, at = AnswerTold(), self._enter()
        try:
            code = lib.attr_hold(at, ctypes.byref(told))
            if not code:
                self._guards += 1
        finally:
            self._leave()
        if code:
            raise Refused(code)
        return Guard(self, told.commit, told.operations)

    def _release(self) -> None:
        if self._at is None:
            return
        at = self._enter()
        try:
            self._give_back(at)
        finally:
            self._leave()

    @staticmethod
    def _ask(call: Callable[..., int], at: Handle, text: bytes, *words: Any, no: str = "no query and no dot product") -> AnswerTold:
        told = AnswerTold()
        code = call(at, text, len(text), *words, ctypes.byref(told))
        if code:
            place, more = 0, ""
            if code in (Code.SYNTAX, Code.NO_FIELD):
                place = told.place
                rest = text[place:place + 40].decode(errors="replace")
                more = f" at byte {place}, before {rest}" if rest else " at its end"
                if code == Code.SYNTAX:
                    raise Refused(code, f"the text is {no}: it breaks off" + more, place=place, told=told)
                more = ":" + more
            raise Refused(code, message(code) + more, place=place, told=told)
        return told

    def ask(self, text: str) -> Answer:
        """Answers a query or a dot product. The reader keeps the answer for hits() and scores() without a text."""
        data, at = _bytes(text), self._enter()
        try:
            told = self._ask(lib.attr_ask, at, data)
        finally:
            self._leave()
        self._kept = told.count
        return Answer(told.commit, told.operations, told.count)

    def count(self, text: str) -> int:
        """How many documents answer; the answer that is kept stays."""
        data, at = _bytes(text), self._enter()
        try:
            return int(self._ask(lib.attr_count, at, data).count)
        finally:
            self._leave()

    def hits(self, text: Optional[str] = None, first: int = 0, most: Optional[int] = None) -> "array.array[int]":
        """The documents that answer the text, or of the kept answer, ascending, from number `first` on and at most `most`: an array('I'),
        which numpy takes without a copy (numpy.frombuffer(hits, "uint32"))."""
        return self._answer(text, first, most, "I", 4, lib.attr_hits)

    def scores(self, text: Optional[str] = None, first: int = 0, most: Optional[int] = None) -> "ctypes.Array[Score]":
        """The documents of a dot product with their scores: an array of ctypes, which numpy takes without a copy as records of score,
        document and exact (numpy.asarray(scores))."""
        found = self._answer(text, first, most, "B", 16, lib.attr_scores)
        return self._as_scores(found)

    def _answer(self, text: Optional[str], first: int, most: Optional[int], code: str, width: int,
                call: Callable[..., int]) -> "array.array[int]":
        first = _number(first, "first", 2**63)
        wanted = None if most is None else _number(most, "most", 2**32)
        data, at = None if text is None else _bytes(text), self._enter()
        try:
            if data is not None:
                self._kept = self._ask(lib.attr_ask, at, data).count
            left = max(self._kept - first, 0)
            count = left if wanted is None else min(left, wanted)
            return self._copied(code, width, count, lambda room: call(at, first, room, count))
        finally:
            self._leave()

    @staticmethod
    def _copied(code: str, width: int, count: int, call: Callable[[Any], int]) -> "array.array[int]":
        """An array of what a call copies, at most `count` elements of `width` bytes."""
        into = array.array(code, bytes(max(count, 1) * width))
        room = (ctypes.c_char * (max(count, 1) * width)).from_buffer(into)
        copied = call(room)
        del room
        del into[copied * width // into.itemsize:]
        return into

    def _grown(self, code: str, width: int, most: int, call: Callable[[Any, int], int]) -> "array.array[int]":
        """The same of a call that tells only what it copied: with little room, and with more until not all of it is taken."""
        room = min(most, 4096)
        while True:
            found = self._copied(code, width, room, lambda into: call(into, room))
            if room == most or len(found) * found.itemsize < room * width:
                return found
            room = min(most, room * 16)

    @staticmethod
    def _told(call: Callable[..., int], *words: Any) -> int:
        """The count that a call tells."""
        told = AnswerTold()
        code = call(*words, ctypes.byref(told))
        if code:
            raise Refused(code)
        return int(told.count)

    @staticmethod
    def _as_scores(found: "array.array[int]") -> "ctypes.Array[Score]":
        return (Score * (len(found) // 16)).from_buffer(found) if found else (Score * 0)()

    # What follows is about the answer that is kept, or about given documents, by the values at the guard's commit, else at the last one. The
    # answer stays. An attribute is given by its number or its name.

    def sort(self, field: Union[int, str], descending: bool = False, first: int = 0, most: Optional[int] = None) -> "array.array[int]":
        """The documents of the kept answer by their values in an attribute, from number `first` on and at most `most`: an array('I'). Equal
        values ascend by document; documents without a value are last. Of an array or a weighted set the first item counts."""
        number, first = self._field(field), _number(first, "first", 2**63)
        wanted = None if most is None else _number(most, "most", 2**63)
        at = self._enter()
        try:
            left = max(self._kept - first, 0)
            count = left if wanted is None else min(left, wanted)
            return self._copied("I", 4, count, lambda room: self._told(lib.attr_sort, at, number, int(bool(descending)), first, room, count))
        finally:
            self._leave()

    def totals(self, field: Union[int, str]) -> Totals:
        """The count, the sum, the least and the greatest of the numbers that the documents of the kept answer have in an attribute."""
        number, told, at = self._field(field), TotalsTold(), self._enter()
        try:
            self._told(lib.attr_totals, at, number, ctypes.byref(told))
        finally:
            self._leave()
        bounds = (told.least, told.greatest) if told.count else (None, None)
        return Totals(told.count, told.high * 2**64 + told.low, *bounds)

    def best(self, text: str, most: int) -> "ctypes.Array[Score]":
        """The `most` best scores of a dot product, the greatest first, equal ones by document: an array of ctypes, as of scores()."""
        count = min(_number(most, "most", 2**63), _MOST)
        data, at = _bytes(text), self._enter()
        try:
            return self._as_scores(self._grown("B", 16, count, lambda into, room: self._ask(lib.attr_best, at, data, into, room).count))
        finally:
            self._leave()

    def groups(self, field: Union[int, str], by_count: bool = False, most: Optional[int] = None) -> List[Group]:
        """The distinct values that the documents of the kept answer have in an attribute, each with how many of them have it; at most
        `most`. They ascend by value, or (by_count) those with the most documents come first, equal counts by value."""
        number, wanted = self._field(field), 2**63 if most is None else _number(most, "most", 2**63)
        at = self._enter()
        try:
            return self._groups(at, self._told(lib.attr_group, at, number, int(bool(by_count)), wanted))
        finally:
            self._leave()

    def terms(self, text: str, most: Optional[int] = None) -> List[Group]:
        """The values that meet a query of one comparison, such as 'tags:"te"*', ascending, each with how many documents of the commit have
        it; at most `most`."""
        wanted = 2**63 if most is None else _number(most, "most", 2**63)
        data, at = _bytes(text), self._enter()
        try:
            return self._groups(at, self._ask(lib.attr_terms, at, data, wanted, no="not one comparison").count)
        finally:
            self._leave()

    @staticmethod
    def _groups(at: Handle, count: int) -> List[Group]:
        told, found, text = GroupTold(), [], ctypes.create_string_buffer(1024)
        into = ctypes.byref(told)
        for number in range(count):
            code = lib.attr_group_at(at, number, into)
            if code:
                raise Refused(code)
            if told.is_text:
                length = lib.attr_group_text(at, number, text, 1024)
                found.append(Group(text.raw[:length].decode(), told.documents))
            else:
                found.append(Group(told.number, told.documents))
        return found

    def longs(self, field: Union[int, str], documents: "Union[Iterable[int], array.array[int]]") -> Longs:
        """The numbers that given documents have in an attribute, in their order: an array('q'), beside an array('B') of which have one. The
        documents are an array('I'), as hits() and sort() give it, or any others; it is fastest where they ascend."""
        number = self._field(field)
        # (a copy, which nobody can change while the library reads it)
        asked = array.array("I", documents)
        count, at = len(asked), self._enter()
        try:
            numbers, present = array.array("q", bytes(8 * max(count, 1))), array.array("B", bytes(max(count, 1)))
            asked.append(0)
            into = (ctypes.c_char * len(asked) * 4).from_buffer(asked), (ctypes.c_int64 * len(numbers)).from_buffer(numbers), (
                ctypes.c_uint8 * len(present)).from_buffer(present)
            self._told(lib.attr_longs, at, number, into[0], count, into[1], count, into[2], count)
            del into
            del numbers[count:], present[count:]
            return Longs(numbers, present)
        finally:
            self._leave()

    def documents(self, first: int = 1, most: Optional[int] = None) -> "array.array[int]":
        """The documents of the commit that are not below `first`, ascending and at most `most`: an array('I')."""
        first, wanted = _number(first, "first"), _MOST if most is None else min(_number(most, "most", 2**63), _MOST)
        at = self._enter()
        try:
            return self._grown("I", 4, wanted, lambda into, room: self._told(lib.attr_documents, at, first, into, room))
        finally:
            self._leave()

    def _field(self, field: Union[int, str]) -> int:
        """The number of an attribute that is given by its number or name."""
        if not isinstance(field, str):
            return _number(field, "field")
        if field not in self._names:
            raise Refused(Code.NO_FIELD)
        return self._names.index(field)

    def items(self, document: int, field: Union[int, str] = 0) -> Optional[List[Item]]:
        """The items that a document has in an attribute, by its number or name; None where the document is not there."""
        document, field = _number(document, "document"), self._field(field)
        told, item, items, at = AnswerTold(), ItemTold(), [], self._enter()
        try:
            code = lib.attr_items(at, document, field, ctypes.byref(told))
            if code == Code.NO_DOCUMENT:
                return None
            if code:
                raise Refused(code)
            for number in range(told.count):
                lib.attr_item(at, number, ctypes.byref(item))
                if item.is_text:
                    text = ctypes.create_string_buffer(max(item.length, 1))
                    length = lib.attr_item_text(at, number, text, item.length)
                    items.append(Item(text.raw[:length].decode(), item.weight))
                else:
                    items.append(Item(item.number, item.weight))
            return items
        finally:
            self._leave()

    def save(self) -> bytes:
        """A save of the first attribute, as docs/FORMATS.md says."""
        told, at = AnswerTold(), self._enter()
        try:
            code = lib.attr_save(at, ctypes.byref(told))
            if code:
                raise Refused(code)
            into = ctypes.create_string_buffer(max(told.count, 1))
            length = lib.attr_saved(at, 0, into, told.count)
            return into.raw[:length]
        finally:
            self._leave()

    def __enter__(self) -> "Reader":
        return self

    def __exit__(self, *_: object) -> None:
        self.close()

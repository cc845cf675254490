"""The library by ctypes: its structs, codes and calls, as attr.h has them, and the errors that tell of a refusal."""
import array
import ctypes
import enum
import os
from typing import NamedTuple, Optional, Union

# The versions of attr.h that this module is written for: 0.2.x.
_SERIES = 2


class Code(enum.IntEnum):
    """The codes of attr.h."""
    OK = 0
    MEMORY = 1
    BOUNDS = 2
    ATTRIBUTES = 3
    NO_TEXT = 4
    NO_READER = 5
    LOST = 6
    FULL = 7
    COMMITS_SPENT = 8
    OPERATIONS_SPENT = 9
    NO_DOCUMENT = 10
    SYNTAX = 11
    NO_FIELD = 12
    WRONG_TYPE = 13
    OUT_OF_RANGE = 14
    TOO_DEEP = 15
    NOT_JSON = 21
    NO_OPERATION = 22
    BAD_ID = 23
    BAD_VALUE = 24
    UNSUPPORTED = 25
    TOO_MANY_ITEMS = 26
    LINE_TOO_LONG = 27
    BAD_SAVE = 31
    OTHER_SAVE = 32


class Handle(ctypes.Structure):
    _fields_ = [("at", ctypes.c_void_p)]


class Sizes(ctypes.Structure):
    _fields_ = [(name, ctypes.c_uint32) for name in ("buffers", "words", "readers", "wide", "dense")]


class _Shown(ctypes.Structure):
    """A struct that prints its fields."""

    def __repr__(self) -> str:
        return f"{type(self).__name__}({', '.join(f'{name}={getattr(self, name)}' for name, *_ in self._fields_)})"


class Told(_Shown):
    """What a call of the writer told, struct attr_told."""
    line: int
    place: int
    next: int
    operations: int
    skipped: int
    commit: int
    width: int
    active: int
    held: int
    oldest: int
    is_held: int
    keys: int
    finished: int
    buffer: int
    _fields_ = ([(name, ctypes.c_uint64) for name in ("line", "place", "next")]
                + [(name, ctypes.c_uint32) for name in ("operations", "skipped", "commit", "width", "active", "held", "oldest", "is_held", "keys",
                                                        "finished", "buffer")])


class Counts(_Shown):
    """Numbers for a monitor, struct attr_numbers."""
    skipped: int
    used_words: int
    dead_words: int
    held_words: int
    operations: int
    commit: int
    committed: int
    oldest: int
    is_held: int
    active: int
    held: int
    buffers: int
    words: int
    readers: int
    _fields_ = ([(name, ctypes.c_uint64) for name in ("skipped", "used_words", "dead_words", "held_words")]
                + [(name, ctypes.c_uint32) for name in ("operations", "commit", "committed", "oldest", "is_held", "active", "held", "buffers",
                                                        "words", "readers")])


class AnswerTold(ctypes.Structure):
    _fields_ = [("commit", ctypes.c_uint32), ("operations", ctypes.c_uint32), ("count", ctypes.c_uint64), ("place", ctypes.c_uint64)]


class Score(_Shown):
    """A document of the answer to a dot product, struct attr_score."""
    score: int
    document: int
    exact: int
    _fields_ = [("score", ctypes.c_int64), ("document", ctypes.c_uint32), ("exact", ctypes.c_uint32)]


class ItemTold(ctypes.Structure):
    _fields_ = [("number", ctypes.c_int64), ("length", ctypes.c_uint64), ("weight", ctypes.c_int32), ("is_text", ctypes.c_uint32)]


class TotalsTold(ctypes.Structure):
    _fields_ = [("count", ctypes.c_uint64), ("low", ctypes.c_uint64), ("high", ctypes.c_int64), ("least", ctypes.c_int64),
                ("greatest", ctypes.c_int64)]


class GroupTold(ctypes.Structure):
    _fields_ = [("number", ctypes.c_int64), ("length", ctypes.c_uint64), ("documents", ctypes.c_uint64), ("is_text", ctypes.c_uint32),
                ("zero", ctypes.c_uint32)]


class Answer(NamedTuple):
    """The commit that answered, how many operations it has, and how many documents the answer has."""
    commit: int
    operations: int
    count: int  # type: ignore[assignment]  # (a tuple's own `count` is hidden)


class Item(NamedTuple):
    """A document's item: its value, and its weight, 1 but in a weighted set."""
    value: Union[int, str]
    weight: int


class Totals(NamedTuple):
    """The numbers of some documents: how many, their sum, the least and the greatest. Without a number these two are None."""
    count: int  # type: ignore[assignment]
    sum: int
    least: Optional[int]
    greatest: Optional[int]


class Group(NamedTuple):
    """A value, and how many documents have it."""
    value: Union[int, str]
    documents: int


class Longs(NamedTuple):
    """The numbers of given documents, in their order: present[i] is 1 and numbers[i] the number, or both are 0."""
    numbers: "array.array[int]"
    present: "array.array[int]"


def _load() -> ctypes.CDLL:
    """The library that VATTR_LIBRARY names, else the one inside the package, else the installed one."""
    inside = os.path.join(os.path.dirname(os.path.abspath(__file__)), "libvattr.so")
    return ctypes.CDLL(os.environ.get("VATTR_LIBRARY") or (inside if os.path.exists(inside) else f"libvattr.so.0.{_SERIES}"))


lib = _load()
_size, _pointer, _u32, _code = ctypes.c_size_t, ctypes.c_void_p, ctypes.c_uint32, ctypes.c_int32
_handle, _told, _answer = ctypes.POINTER(Handle), ctypes.POINTER(Told), ctypes.POINTER(AnswerTold)
CALLS = {
    "attr_message": (_size, [_code, _pointer, _size]),
    "attr_version": (_u32, []),
    "attr_open": (_code, [ctypes.c_char_p, _size, ctypes.POINTER(Sizes), _pointer, ctypes.POINTER(ctypes.c_uint64)]),
    "attr_close": (None, [Handle]),
    "attr_feed": (_code, [_handle, ctypes.c_char_p, _size, _told]),
    "attr_commit": (_code, [_handle, _told]),
    "attr_compact": (_code, [_handle, _u32, _told]),
    "attr_load": (_code, [_handle, ctypes.c_char_p, _size, _told]),
    "attr_counts": (None, [_handle, ctypes.POINTER(Counts)]),
    "attr_reader_open": (_code, [_handle, _pointer]),
    "attr_reader_return": (_code, [_handle, Handle]),
    "attr_reader_close": (None, [Handle]),
    "attr_hold": (_code, [_handle, _answer]),
    "attr_release": (_code, [_handle]),
    "attr_ask": (_code, [_handle, ctypes.c_char_p, _size, _answer]),
    "attr_count": (_code, [_handle, ctypes.c_char_p, _size, _answer]),
    "attr_hits": (_size, [_handle, _size, _pointer, _size]),
    "attr_scores": (_size, [_handle, _size, _pointer, _size]),
    "attr_items": (_code, [_handle, _u32, _u32, _answer]),
    "attr_item": (_code, [_handle, _size, ctypes.POINTER(ItemTold)]),
    "attr_item_text": (_size, [_handle, _size, _pointer, _size]),
    "attr_save": (_code, [_handle, _answer]),
    "attr_saved": (_size, [_handle, _size, _pointer, _size]),
    "attr_sort": (_code, [_handle, _u32, _u32, _size, _pointer, _size, _answer]),
    "attr_totals": (_code, [_handle, _u32, ctypes.POINTER(TotalsTold), _answer]),
    "attr_best": (_code, [_handle, ctypes.c_char_p, _size, _pointer, _size, _answer]),
    "attr_longs": (_code, [_handle, _u32, _pointer, _size, _pointer, _size, _pointer, _size, _answer]),
    "attr_group": (_code, [_handle, _u32, _u32, _size, _answer]),
    "attr_terms": (_code, [_handle, ctypes.c_char_p, _size, _size, _answer]),
    "attr_group_at": (_code, [_handle, _size, ctypes.POINTER(GroupTold)]),
    "attr_group_text": (_size, [_handle, _size, _pointer, _size]),
    "attr_documents": (_code, [_handle, _u32, _pointer, _size, _answer]),
}
for _name, (_gives, _takes) in CALLS.items():
    _call = getattr(lib, _name, None)
    if _call is None:
        raise ImportError(f"libvattr has no {_name}, so it is older than this package")
    _call.restype, _call.argtypes = _gives, _takes

VERSION: int = lib.attr_version()
if VERSION // 1000 != _SERIES:
    raise ImportError(f"libvattr has version {VERSION}, and this package is for 0.{_SERIES}")


def message(code: int) -> str:
    """What a code means."""
    text = ctypes.create_string_buffer(80)
    length = lib.attr_message(code, text, 80)
    return text.raw[:length].decode()


def quoted(text: str) -> str:
    """A text as a leaf of a query, in quotes, with its own quotes and backslashes escaped: no text can become another query."""
    return '"' + text.replace("\\", "\\\\").replace('"', '\\"') + '"'


class Refused(Exception):
    """A call was refused: `code` says why, `line` and `place` where, and `told` has all that the call told."""

    def __init__(self, code: int, text: str = "", line: int = 0, place: int = 0, told: object = None) -> None:
        super().__init__(text or message(code))
        self.code, self.line, self.place, self.told = Code(code), line, place, told


class Misuse(RuntimeError):
    """A closed handle, a thread that is not the handle's, or a reader of another engine. Nothing was called."""

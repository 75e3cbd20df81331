"""The library libants.so, as Python calls it: where it is found, what is passed to it, and what it refuses."""
import ctypes
import functools
import mmap
import operator
import os
import pathlib
import sys
from array import array
from ctypes import byref, c_size_t, c_uint32
from typing import Dict, Iterable, Iterator, List, Mapping, NamedTuple, Optional, Union

from . import _declared
from ._declared import Kind

Text = Union[str, bytes, bytearray, memoryview]
Texts = Dict[str, bytes]  # the bytes of texts by their names, in the order in which they are passed

MOST_NUMBER = 2 ** 32 - 1
MOST_ROUNDS = 10 ** 6
MOST_BYTES = 1 << 28  # of a text that a command prints, unless the caller says otherwise
MOST_LISTED = 1 << 26  # of a text that is returned as a list, whose lines take some 20 times as much
_WORDS = 1024  # bytes for the words of a fault, which have some dozens
_NO_RESERVE = getattr(mmap, "MAP_NORESERVE", 0x4000)  # which Python names from 3.13 on


class Fault(NamedTuple):
    """Why a command is refused, in numbers: the same as a `Refused` has, if a text is refused, which is status 5.

    At status 2 `number` is the refused word, and at status 3 it is the word that names a file that isn't there, both counted from 1. Then `kind` is None,
    both texts are empty and the other numbers are 0.
    """
    name: str
    words: str
    kind: Optional[Kind]
    line: int
    column: int
    number: int


class Refused(ValueError):
    """A text is refused, or an element of a generated world has no room. It reads as the program's line does, with the text's name for a file's.

    name: which text, as the parameter is called, or "" if it is none. words: the program's words, such as "line 3: unknown word".
    kind: what is wrong, a `Kind`. line: the line, from 1, or the row of a world, from 0. column: the column of a world, from 0. number: how many ants
    there are (WORLD_TOO_MANY_ANTS), the state that is not there (BRAIN_NO_SUCH_STATE), the round of the save (SAVE_ALREADY_AT), or the number of the
    element (NO_ROOM). Each is 0 if the kind has none.
    """

    def __init__(self, name: str, words: str, kind: Kind, line: int, column: int, number: int) -> None:
        super().__init__(name, words, kind, line, column, number)
        self.name, self.words, self.kind, self.line, self.column, self.number = name, words, kind, line, column, number

    def __str__(self) -> str:
        return self.name + ": " + self.words if self.name else self.words


def _places() -> Iterator[str]:
    """Where the library may be, the first place first."""
    here = pathlib.Path(__file__).resolve().parent
    if "ANTS_LIBRARY" in os.environ:
        yield os.environ["ANTS_LIBRARY"]
        return
    for folder in (here, here.parent, here.parent / "lib", *(it for it in here.parents if it.name == "lib"), pathlib.Path(sys.prefix, "lib")):
        for name in ("libants.so", "libants.so.1"):
            if (folder / name).exists():
                yield str(folder / name)
    yield "libants.so.1"


@functools.lru_cache(maxsize=None)
def library() -> ctypes.CDLL:
    """The library, of this version, with the types of its functions. If it isn't there, or is another one, it is an ImportError."""
    place = next(_places())
    try:
        found = ctypes.CDLL(place)
    except OSError as fault:
        raise ImportError("%s; ANTS_LIBRARY may name libants.so, which `make library` makes" % fault) from None
    for name, given in _declared.FUNCTIONS.items():
        try:
            function = getattr(found, name)
        except AttributeError:
            raise ImportError("%s: no %s in it, so it is not libants.so of version %s" % (place, name, _declared.VERSION)) from None
        function.argtypes, function.restype = given, c_uint32
    out, used = ctypes.create_string_buffer(64), c_size_t()
    found.ants_version(out, len(out), byref(used))
    version = out.value.decode("ascii", "replace")
    if version != _declared.VERSION:
        raise ImportError("%s: of version %s, and icfp_ants is of %s" % (place, version, _declared.VERSION))
    return found


def _encoded(name: str, text: str, errors: str) -> bytes:
    """A str as UTF-8."""
    try:
        return text.encode("utf-8", errors)
    except UnicodeEncodeError as fault:
        raise ValueError("%s: no character: %r" % (name, text[fault.start])) from None


def line_of(name: str, word: str) -> bytes:
    """A word as a line."""
    if "\n" in word:
        raise ValueError("%s: a line break in %r" % (name, word))
    return _encoded(name, word, "strict") + b"\n"


def bytes_of(name: str, text: Text) -> bytes:
    """The bytes of the text of this name."""
    if isinstance(text, str):
        return _encoded(name, text, "surrogateescape")
    try:
        view = memoryview(text)
        is_text = view.ndim == 1 and view.format in ("B", "b", "c")
    except TypeError:
        is_text = False
    if not is_text:
        raise TypeError("%s: a text is wanted, as str or bytes, and not a file's name or anything else: %s" % (name, type(text).__name__))
    return text if isinstance(text, bytes) else view.tobytes()


def names_of(kind: str, texts: Mapping[str, Text]) -> List[str]:
    """The names of texts that are given by their names."""
    if not isinstance(texts, Mapping):
        raise TypeError("%s: texts by their names are wanted, as a dict, and not %s" % (kind, type(texts).__name__))
    for name in texts:
        if not isinstance(name, str):
            raise TypeError("%s: a name is wanted, as str, and not %s" % (kind, type(name).__name__))
    return list(texts)


def str_of(name: str, text: str) -> str:
    """A text that the package has given, as str."""
    if not isinstance(text, str):
        raise TypeError("%s: a text is wanted, as str, and not %s" % (name, type(text).__name__))
    return text


def texts_of(**texts: Text) -> Texts:
    """The bytes of texts by their names."""
    return {name: bytes_of(name, text) for name, text in texts.items()}


def number_of(name: str, value: int, least: int = 0, most: int = MOST_NUMBER) -> int:
    """A number within its limits, which ctypes would take modulo 2^32."""
    try:
        number = operator.index(value)
    except TypeError:
        raise TypeError("%s: a whole number is wanted, and not %s" % (name, type(value).__name__)) from None
    if not least <= number <= most:
        raise ValueError("%s: %d is not %d to %d" % (name, number, least, most))
    return number


def whole_numbers(name: str, values: Iterable[int], most: int = MOST_NUMBER) -> List[int]:
    """Numbers, each within its limits."""
    if isinstance(values, memoryview) and values.ndim != 1:
        raise TypeError("%s: whole numbers are wanted, as a list, and not a memoryview of %d dimensions" % (name, values.ndim))
    try:
        given = iter(values)
    except TypeError:
        raise TypeError("%s: whole numbers are wanted, as a list, and not %s" % (name, type(values).__name__)) from None
    return [number_of(name, it, most=most) for it in given]


def numbers_of(name: str, values: Iterable[int]) -> "array[int]":
    """Numbers as C has them, with one more after them, so that their place is not null."""
    return array("I", [*whole_numbers(name, values), 0])


class Answer:
    """What a call of the library writes if it refuses a text, and what is raised then."""

    def __init__(self) -> None:
        self.fault, self.words = _declared.Fault(), ctypes.create_string_buffer(_WORDS)
        self.passed = byref(self.fault), self.words, _WORDS

    def is_done(self, status: int, names: Iterable[str]) -> bool:
        """Whether there was enough room. Anything else that is wrong is raised. The texts have these names."""
        if status == _declared.NUMBER:
            raise ValueError("a number is beyond its limits")
        if status == _declared.REFUSED:
            fault, line = self.fault, self.words.raw[:self.fault.words].decode("utf-8", "replace")
            raise Refused(["", *names][fault.text], line, Kind(fault.kind), fault.line, fault.column, fault.number)
        if status == _declared.MEMORY:
            raise MemoryError("out of memory")
        return status == _declared.DONE


def is_done(function: str, texts: Texts, *more: object) -> bool:
    """Calls a function of the library; whether it had enough room."""
    answer, passed = Answer(), [it for text in texts.values() for it in (text, len(text))]
    return answer.is_done(getattr(library(), function)(*passed, *more, *answer.passed), texts)


def area_of(room: int) -> mmap.mmap:
    """A room of this many bytes, at least 1. Only those that are written take memory."""
    try:
        return mmap.mmap(-1, room, flags=mmap.MAP_PRIVATE | mmap.MAP_ANONYMOUS | _NO_RESERVE)
    except (OSError, OverflowError):
        raise MemoryError("out of memory") from None

"""The program's commands as words, over files that the caller holds. All functions that print a text rest on this one call."""
import sys
from ctypes import byref, c_char, c_size_t, c_uint32, create_string_buffer
from types import MappingProxyType
from typing import Iterable, List, Mapping, NamedTuple, Optional

from . import _declared
from ._declared import Kind
from ._library import MOST_BYTES, Fault, Refused, Text, Texts, area_of, bytes_of, library, line_of, names_of, number_of, numbers_of

_MOST_OF_TEXT = 4194304
_LARGEST_ROOM = 1 << 40  # bytes; no machine has memory for a longer text
_REST_OF_LINE = 256  # bytes of a line besides the name in it
_NO_FILES: Mapping[str, Text] = MappingProxyType({})


class Called(NamedTuple):
    """The result of a command: the program's status, what it printed, the line of its error, which is empty at status 0, and the error in numbers.

    `numbers` is None except at status 2, 3 and 5.
    """
    status: int
    output: str
    fault: str
    numbers: Optional[Fault]


def _words(words: Iterable[str]) -> List[str]:
    """The words of a command."""
    if isinstance(words, str):
        raise TypeError("words: a list of words is wanted, and not one of them")
    found = list(words)
    for it in found:
        if not isinstance(it, str):
            raise TypeError("words: a word is wanted, as str, and not %s: %r" % (type(it).__name__, it))
    return found


def call(words: Iterable[str], files: Mapping[str, Text] = _NO_FILES, most: int = MOST_BYTES) -> Called:
    """Runs the program with these words, without its name, over these files by their names; "-" is a name like any other.

    Nothing is read from the machine: if the words name a file that isn't among these, the status is 3. `--far` is refused, and every game is played on
    this thread. A line break in a word or a name is a ValueError. So is a text of more than `most` bytes, since some lines of a program with blocks become
    gigabytes of labels. A call reserves `most` bytes, and takes memory only for those that are written. So no game is played twice.
    """
    found, names = _words(words), names_of("files", files)
    return _called(found, {name: bytes_of(name, text) for name, text in files.items()}, names, most)


def _called(words: Iterable[str], files: Texts, names: List[str], most: int) -> Called:
    """Runs the program with these words over these files; a file that is refused has the name of its place here."""
    spoken = b"".join(line_of("words", it) for it in words)
    named = b"".join(line_of("files", it) for it in files)
    texts = [text if len(text) <= _MOST_OF_TEXT else text[:_MOST_OF_TEXT + 1] for text in files.values()]  # a longer one is as wrong
    sizes, contents = numbers_of("files", map(len, texts)), b"".join(texts)
    room = min(number_of("most", most, most=sys.maxsize), _LARGEST_ROOM)
    area, line = area_of(max(1, room)), create_string_buffer(len(spoken) + _REST_OF_LINE)
    out, used, told, fault = c_char.from_buffer(area), c_size_t(), c_size_t(), _declared.Fault()
    status = library().ants_call(
        spoken, len(spoken), named, len(named), byref(c_uint32.from_buffer(sizes)), len(texts), contents, len(contents), byref(out), room, byref(used),
        line, len(line), byref(told), byref(fault))
    if status == _declared.MEMORY:
        raise MemoryError("out of memory")
    if status == _declared.NO_ROOM:
        raise ValueError("most: the text has %d bytes, and %d are allowed" % (used.value, most))
    said = line.raw[:told.value].decode()
    with memoryview(area) as output:
        return Called(status, str(output[:used.value], "utf-8"), said, _fault_of(status, fault, said, names))


def _fault_of(status: int, fault: _declared.Fault, line: str, names: List[str]) -> Optional[Fault]:
    """The numbers of a refusal, with the name of its file, and its words, which end the line."""
    if status == _declared.DONE:
        return None
    words = line.rstrip("\n")
    return Fault(
        ["", *names][fault.text], words[len(words) - fault.words:], Kind(fault.kind) if fault.kind else None, fault.line, fault.column, fault.number)


def output_of(words: Iterable[object], files: Texts, names: Optional[List[str]] = None, most: int = MOST_BYTES) -> str:
    """What a command prints over these files. If one of them is refused, it is named by its place among these names, or else by its own."""
    status, output, line, numbers = _called(map(str, words), files, list(files) if names is None else names, most)
    if status == _declared.DONE:
        return output
    if numbers and numbers.kind:
        raise Refused(numbers.name, numbers.words, numbers.kind, numbers.line, numbers.column, numbers.number)
    raise ValueError(line[len("ants: "):].rstrip("\n"))

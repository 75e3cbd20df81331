"""The rows of faults.txt: refused commands, with their errors in numbers and in words."""
import os
import re
from typing import Dict, List, NamedTuple

NAME = os.path.join(os.path.dirname(os.path.abspath(__file__)), "faults.txt")


class Row(NamedTuple):
    """A command over files, its status, its fault in numbers, and the line."""
    words: List[str]
    files: Dict[str, bytes]
    status: int
    text: int
    kind: int
    line: int
    column: int
    number: int
    said: str

    @property
    def says(self) -> str:
        """The words of the fault, which end the line: what follows the name of the file."""
        before = "ants: %s: " % [*self.files][self.text - 1] if self.text else "ants: "
        return self.said[len(before):-1] if self.kind else ""


def text_of(written: str) -> bytes:
    """The bytes of a text as it is written in a row."""
    repeated = 1
    while repeated:
        written, repeated = re.subn(r"\{(\d+) ([^{}]*)\}", lambda it: it[2] * int(it[1]), written)
    return re.sub(rb"\\(n|x..)", lambda it: b"\n" if it[1] == b"n" else bytes([int(it[1][1:], 16)]), written.encode())


def rows() -> List[Row]:
    with open(NAME, encoding="ascii") as file:
        lines = [it for it in file.read().split("\n") if not it.startswith("#")]
    found = []
    for row in "\n".join(lines).strip("\n").split("\n\n"):
        words, *files, numbers, said = row.strip("\n").split("\n")
        given = dict(it.split(": ", 1) for it in files)
        found.append(Row(words.split(" ")[2:], {name: text_of(it) for name, it in given.items()}, *map(int, numbers.split(" ")), said + "\n"))
    return found

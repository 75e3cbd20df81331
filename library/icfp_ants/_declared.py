"""What libants.so declares, as library/ants.h has it; made of the same source by `make documents`."""
import ctypes
import enum
from ctypes import POINTER, c_char_p, c_size_t, c_uint16, c_uint32, c_uint64, c_uint8

VERSION = "1.2.0-dev"
DONE = 0  # Done.
UNREADABLE = 1  # The words of a command, or the names and sizes of its files, can't be read.
NUMBER = 2  # A number is outside its limits, or the words are not a command.
NO_FILE = 3  # The words of a command name a file that is missing.
NO_ROOM = 4  # The caller's room is too small.
REFUSED = 5  # A text was refused, or an element of a generated world has no room.
MEMORY = 6  # Out of memory.


class Kind(enum.IntEnum):
    """What is wrong with a text, or with none. The numbers stay."""
    TOO_LONG = 1  # a text has more than 4,194,304 bytes
    WORLD_BAD_WIDTH = 10  # bad width
    WORLD_BAD_HEIGHT = 11  # bad height
    WORLD_MISSING_ROW = 12  # a row is missing
    WORLD_BAD_CELL = 13  # a bad cell
    WORLD_SHORT_ROW = 14  # a row is short
    WORLD_LONG_ROW = 15  # a row is long
    WORLD_EXTRA_ROW = 16  # a row more
    WORLD_OPEN_RIM = 17  # the rim is open
    WORLD_TOO_MANY_ANTS = 18  # too many ants
    BRAIN_BAD_BYTE = 20  # a bad byte
    BRAIN_UNKNOWN_WORD = 21  # an unknown word
    BRAIN_MISSING_TOKEN = 22  # a token is missing
    BRAIN_BAD_NUMBER = 23  # a bad number
    BRAIN_EXTRA_TOKEN = 24  # a token more
    BRAIN_TOO_MANY = 25  # too many instructions
    BRAIN_EMPTY = 26  # no instruction
    BRAIN_NO_SUCH_STATE = 27  # no such state
    PROGRAM_BAD_BYTE = 30  # a bad byte
    PROGRAM_UNKNOWN_WORD = 31  # an unknown word
    PROGRAM_MISSING_TOKEN = 32  # a token is missing
    PROGRAM_BAD_NUMBER = 33  # a bad number
    PROGRAM_EXTRA_TOKEN = 34  # a token more
    PROGRAM_BAD_NAME = 35  # a bad name
    PROGRAM_MISPLACED = 36  # misplaced
    PROGRAM_TWICE = 37  # a name is taken
    PROGRAM_NO_BLOCK = 38  # no such block
    PROGRAM_WRONG_COUNT = 39  # a different number of labels
    PROGRAM_TOO_MANY = 40  # too many
    PROGRAM_EMPTY_BLOCK = 41  # an empty block
    PROGRAM_EMPTY = 42  # no instruction
    PROGRAM_NO_LABEL = 43  # no such label
    SAVE_BAD_LINE = 50  # a line isn't in its form
    SAVE_BAD_STATE = 51  # no state of a game
    SAVE_ALREADY_AT = 52  # more rounds are done than were requested
    NO_ROOM = 60  # an element of a world to be generated has no room
    BREAKS_UNKNOWN_WORD = 70  # an unknown word
    BREAKS_MISSING_TOKEN = 71  # a token is missing
    BREAKS_BAD_NUMBER = 72  # a bad number
    BREAKS_EXTRA_TOKEN = 73  # a token more
    BREAKS_TOO_MANY = 74  # too many breaks


class Ant(ctypes.Structure):
    _fields_ = [("state", c_uint32), ("resting", c_uint32), ("column", c_uint16), ("row", c_uint16), ("alive", c_uint8), ("colour",
        c_uint8), ("direction", c_uint8), ("laden", c_uint8)]


class Fault(ctypes.Structure):
    _fields_ = [("text", c_uint32), ("kind", c_uint32), ("line", c_uint32), ("column", c_uint32), ("number", c_uint64), ("words", c_uint64)]


class Score(ctypes.Structure):
    _fields_ = [("red", c_uint32), ("black", c_uint32)]


FUNCTIONS = {
    "ants_version": [c_char_p, c_size_t, POINTER(c_size_t)],
    "ants_score": [c_char_p, c_size_t, c_char_p, c_size_t, c_char_p, c_size_t, c_uint32, c_uint32, POINTER(Score), POINTER(Fault), c_char_p,
        c_size_t],
    "ants_scores": [c_char_p, c_size_t, c_char_p, c_size_t, c_char_p, c_size_t, POINTER(c_uint32), c_size_t, c_uint32, POINTER(Score),
        c_size_t, POINTER(Fault), c_char_p, c_size_t],
    "ants_look": [c_char_p, c_size_t, c_char_p, c_size_t, c_char_p, c_size_t, c_uint32, POINTER(c_uint32), c_size_t, POINTER(Score),
        c_size_t, POINTER(Ant), c_size_t, POINTER(c_size_t), POINTER(Fault), c_char_p, c_size_t],
    "ants_call": [c_char_p, c_size_t, c_char_p, c_size_t, POINTER(c_uint32), c_size_t, c_char_p, c_size_t, c_char_p, c_size_t,
        POINTER(c_size_t), c_char_p, c_size_t, POINTER(c_size_t), POINTER(Fault)],
}

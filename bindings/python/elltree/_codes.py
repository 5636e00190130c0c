"""The codes of the library, and the exceptions by which a call is refused."""

from __future__ import annotations

import enum


class Code(enum.IntEnum):
    """What a call of the library returns: an answer, or a negative code that says why the call was refused. text(code) describes each."""

    NO = 0
    YES = 1
    OTHER_VALUE = 2
    BUSY = -1
    SPENT = -2
    NO_TRIES = -4
    BAD_CARDS = -5
    BAD_KEY = -6
    BAD_START = -7
    NO_ROOM = -8
    NO_MEMORY = -9
    CLOSED = -10
    OPEN = -11
    NULL = -13
    SAME = -14
    IN_CALL = -15
    TOO_MANY_HANDLES = -16
    FORKED = -18

    # Codes are written as numbers, in Python 3.10 too.
    __str__ = int.__repr__
    __format__ = int.__format__


NO = Code.NO
YES = Code.YES
OTHER_VALUE = Code.OTHER_VALUE
BUSY = Code.BUSY
SPENT = Code.SPENT
NO_TRIES = Code.NO_TRIES
BAD_CARDS = Code.BAD_CARDS
BAD_KEY = Code.BAD_KEY
BAD_START = Code.BAD_START
NO_ROOM = Code.NO_ROOM
NO_MEMORY = Code.NO_MEMORY
CLOSED = Code.CLOSED
OPEN = Code.OPEN
NULL = Code.NULL
SAME = Code.SAME
IN_CALL = Code.IN_CALL
TOO_MANY_HANDLES = Code.TOO_MANY_HANDLES
FORKED = Code.FORKED

_NUMBERS = frozenset(Code)


def text(code: int) -> str:
    """Returns a text that describes a code."""
    from ._library import code_text  # which needs this module

    return code_text(code)


class Refused(Exception):
    """A call was refused, and has changed nothing.

    The attribute code says why: it is a Code, or a plain number if the library has no such code.
    """

    code: int

    def __init__(self, code: int) -> None:
        code = Code(code) if code in _NUMBERS else code
        super().__init__(code)
        self.code = code

    def __str__(self) -> str:
        return text(self.code)


class Busy(Refused):
    """Something was in the way of each try of a change, or another handle changed the value first. The same call may be made again."""

    def __init__(self, code: int = BUSY) -> None:
        super().__init__(code)


class Spent(Refused):
    """A change needs a card, and all cards of the tree are given out. Calls that read go on, and so does the program with a new Tree of the pairs.
    Where cards come back, no card could be taken, and the same call may be made again."""

    def __init__(self, code: int = SPENT) -> None:
        super().__init__(code)


def answer(code: int) -> bool:
    """Returns whether a code is yes, or raises the exception of the refusal that it is."""
    if code < 0:
        raise {BUSY: Busy, SPENT: Spent}.get(code, Refused)(code)
    return code == YES

"""The numbers that calls answer, and the error that carries one."""
from enum import IntEnum
from typing import Optional

__all__ = ["Number", "Refused"]


class Number(IntEnum):
    """What a call answers, by the names of include/chronicle_map.h."""

    DONE = 0
    ABSENT = 1
    BLOCK = 2
    FIELD = 3
    FRAME = 4
    CHAINS = 5
    ENTRIES = 6
    CHUNKS = 7
    KEY = 8
    VALUE = 9
    FULL = 10
    PAIR = 11
    DELAY = 12
    NO_BULK = 13
    WALK = 18

    def __str__(self) -> str:
        """The number alone. Python before 3.11 would give the name."""
        return str(int(self))

    @property
    def sentence(self) -> str:
        """What the number means, in one sentence without a full stop."""
        return _SENTENCES[self]


_SENTENCES = {
    Number.DONE: "done, or found",
    Number.ABSENT: "no such key, entry or pair",
    Number.BLOCK: "the block's length, its length field or its version is wrong",
    Number.FIELD: "a field of the block breaks its rule",
    Number.FRAME: "the image's length, its offsets or its store size is wrong",
    Number.CHAINS: "the chains of tiers are broken",
    Number.ENTRIES: "a slot or an entry is broken",
    Number.CHUNKS: "the marks of chunks or the counters do not fit the entries",
    Number.KEY: "the key is empty or longer than 1,024 bytes",
    Number.VALUE: "the record is longer than 65,535 bytes, or takes more chunks than an entry may",
    Number.FULL: "no tier has room for the entry, and none is free",
    Number.PAIR: "a channel is not one of 1 to 32, or the two are equal",
    Number.DELAY: "the delay, given or stored, is -2,147,483,648, or the stored record is not 4 bytes",
    Number.NO_BULK: "the image is too short for one more bulk, or the tiers would pass 1,024",
    Number.WALK: "the search for the key met a broken next, slot or entry",
}


class Refused(ValueError):
    """A call was refused. `number` says why; the image is as it was before the call.

    `about` names what the number is about where the call alone does not tell it, and is None elsewhere.
    """

    def __init__(self, number: int, about: Optional[str] = None) -> None:
        super().__init__(number, about)
        self.number = Number(number)
        self.about = about

    def __str__(self) -> str:
        """The number and its sentence: `refused 8: the key is empty or longer than 1,024 bytes`."""
        behind = "" if self.about is None else f" ({self.about})"
        return f"refused {int(self.number)}: {self.number.sentence}{behind}"

"""What calls answer beside their number. Segments, slots and chunks are counted from 0, tiers from 1."""
from typing import NamedTuple, Optional, Tuple

__all__ = ["Counts", "Entry", "Lookup", "Place", "Row", "Tier", "View"]


class Counts(NamedTuple):
    """What the check counts over an accepted image."""

    entries: int  # live entries
    chunks: int  # marked chunks
    tiers: int  # tiers in the segments' chains
    free: int  # tiers in the free chain


class Place(NamedTuple):
    """Where a record stands. Where the key is absent: offset and length 0, and where the search for it ended."""

    offset: int  # where in the image it starts
    length: int  # its length in bytes
    tier: int  # the tier of its entry
    slot: int  # the slot of its entry in that tier


class Lookup(NamedTuple):
    """What a lookup answers: whether the key is there, and the place."""

    found: bool
    place: Place


class View(NamedTuple):
    """A record as a read-only part of the image, and its place."""

    record: memoryview
    place: Place


class Row(NamedTuple):
    """Where a live entry stands, and its lengths: the seven numbers of a lister's line."""

    segment: int
    tier: int
    slot: int
    chunk: int  # its first chunk in that tier
    chunks: int  # how many chunks it takes
    key_length: int  # in bytes
    value_length: int  # the record's, in bytes


class Entry(NamedTuple):
    """A live entry: its row, and copies of its key and its record."""

    row: Row
    key: bytes
    record: bytes


class Tier(NamedTuple):
    """A tier with its live entries, by slot."""

    tier: int  # its index, from 1
    segment: Optional[int]  # None for a tier of the free chain
    order: int  # its place in its chain, from 0: 0 for a main tier, and for the first free tier
    entries: Tuple[Entry, ...]

"""Where things stand in an image that the library's check accepted: tiers, chains, slots and entries.

Nothing is tested here. So only bytes that were checked may be walked, and nobody may change them meanwhile.
"""
import struct
from typing import TYPE_CHECKING, Iterator, List, Tuple

from .answers import Entry, Row, Tier

if TYPE_CHECKING:
    from .settings import Settings

__all__ = ["Layout"]

# Fields of the global state, of a segment header and of a tier's counters: offset and length in bytes.
BULKS, FIRST_FREE, HEADERS, STORE_SIZE = (8, 3), (11, 5), (21, 4), (25, 8)
HEADER_NEXT = (16, 8)
NEXT, SEGMENT = (0, 8), (24, 4)
COUNTERS = 64

# Of an entry: slot, first chunk, and where its key and its record start and end in the image.
_Bounds = Tuple[int, int, int, int, int, int]


class Layout:
    """The places of one image. Tiers are counted from 1, the main tiers first."""

    def __init__(self, settings: "Settings", image: bytes) -> None:
        self.settings = settings
        self.image = image
        self.headers = self._state(HEADERS)
        self.first_free = self._state(FIRST_FREE)
        self.store_size = self._state(STORE_SIZE)
        self.tier_count = settings.segments + self._state(BULKS) * settings.bulk_tiers
        self._mains = self.headers + settings.segments * settings.header_size
        self._bulks = self._mains + settings.segments * settings.tier_size

    def tier_at(self, tier: int) -> int:
        """Where a tier, and so its first slot, starts."""
        settings = self.settings
        if tier <= settings.segments:
            return self._mains + (tier - 1) * settings.tier_size
        bulk, place = divmod(tier - 1 - settings.segments, settings.bulk_tiers)
        return self._bulks + bulk * settings.bulk_size + settings.bulk_inner + place * settings.tier_size

    def counters_at(self, tier: int) -> int:
        """Where a tier's counters start."""
        return self.tier_at(tier) + self.settings.lookup_size

    def chunks_at(self, tier: int) -> int:
        """Where a tier's chunk 0 starts."""
        settings = self.settings
        return self.counters_at(tier) + COUNTERS + settings.free_list_size + settings.inner_offset

    def next_tier(self, tier: int) -> int:
        """The tier after this one in its chain, or 0. That of a main tier stands in its segment's header."""
        if tier <= self.settings.segments:
            return self._number(self.headers + (tier - 1) * self.settings.header_size, HEADER_NEXT)
        return self._number(self.counters_at(tier), NEXT)

    def chain(self, tier: int) -> Iterator[int]:
        """This tier and those after it in its chain; none where the tier is 0."""
        while tier:
            yield tier
            tier = self.next_tier(tier)

    def slots(self, tier: int) -> Tuple[int, ...]:
        """What the slots of a tier hold; 0 is an empty slot."""
        settings = self.settings
        kind = "I" if settings.slot_size == 4 else "Q"
        return struct.unpack_from(f"<{settings.slots}{kind}", self.image, self.tier_at(tier))

    def chained(self) -> Iterator[Tuple[int, int, int]]:
        """Of each chained tier segment, order and index: by segment, then in the order of its chain."""
        for segment in range(self.settings.segments):
            for order, tier in enumerate(self.chain(segment + 1)):
                yield segment, order, tier

    def keys(self) -> List[bytes]:
        """The keys of all live entries, in the library's order."""
        return [self.image[bounds[2]:bounds[3]] for _, _, tier in self.chained() for bounds in self._bounds(tier)]

    def items(self) -> List[Tuple[bytes, bytes]]:
        """The keys and records of all live entries, in the library's order."""
        image = self.image
        tiers = self.chained()
        return [(image[a:b], image[c:d]) for _, _, tier in tiers for _, _, a, b, c, d in self._bounds(tier)]

    def rows(self) -> List[Row]:
        """The rows of all live entries, in the library's order."""
        return [entry.row for segment, _, tier in self.chained() for entry in self._entries(segment, tier)]

    def entries(self) -> List[Entry]:
        """All live entries, in the library's order: by segment, then by the order of its chain, then by slot."""
        return [entry for segment, _, tier in self.chained() for entry in self._entries(segment, tier)]

    def tiers(self) -> List[Tier]:
        """All tiers: by segment and order of its chain, then those of the free chain in its order."""
        chained = [Tier(t, s, order, tuple(self._entries(s, t))) for s, order, t in self.chained()]
        return chained + [Tier(t, None, order, ()) for order, t in enumerate(self.chain(self.first_free))]

    def _entries(self, segment: int, tier: int) -> Iterator[Entry]:
        """The entries of a chained tier, by slot."""
        image, size, start = self.image, self.settings.chunk_size, self.chunks_at(tier)
        for slot, chunk, a, b, c, d in self._bounds(tier):
            chunks = -(-(d - start - chunk * size) // size)
            yield Entry(Row(segment, tier, slot, chunk, chunks, b - a, d - c), image[a:b], image[c:d])

    def _bounds(self, tier: int) -> Iterator[_Bounds]:
        """Where the entries of a chained tier stand, by slot."""
        image, start = self.image, self.chunks_at(tier)
        size, key_bits = self.settings.chunk_size, self.settings.key_bits
        for slot, value in enumerate(self.slots(tier)):
            if value:
                chunk = value >> key_bits
                key_length, key_at = _length(image, start + chunk * size)
                key_end = key_at + key_length
                length, at = _length(image, key_end)
                yield slot, chunk, key_at, key_end, at, at + length

    def _state(self, field: Tuple[int, int]) -> int:
        return self._number(self.settings.global_at, field)

    def _number(self, base: int, field: Tuple[int, int]) -> int:
        at, length = field
        return int.from_bytes(self.image[base + at:base + at + length], "little")


def _length(image: bytes, at: int) -> Tuple[int, int]:
    """A length of one to three bytes (LEB128), and where it ends."""
    low = image[at]
    if low < 128:
        return low, at + 1
    middle = image[at + 1]
    if middle < 128:
        return low - 128 + (middle << 7), at + 2
    return low - 128 + (middle - 128 << 7) + (image[at + 2] << 14), at + 3

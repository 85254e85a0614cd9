"""The settings block, which says how an image is laid out; and new images."""
import struct
from dataclasses import astuple, dataclass, fields
from operator import index
from typing import Optional, Tuple

from .calls import LARGEST_IMAGE, check, check_block
from .layout import BULKS, FIRST_FREE, HEADERS, NEXT, SEGMENT, STORE_SIZE, Layout
from .memory import BytesLike, Memory, copied
from .numbers import Number, Refused

__all__ = ["BLOCK_LENGTH", "Settings", "empty_image"]

# Length field, version, and the 17 fields.
_BLOCK = struct.Struct(">HB17I")
BLOCK_LENGTH = _BLOCK.size
_GLOBAL_STATE = 33


@dataclass(frozen=True, init=False)
class Settings:
    """The 17 fields of a settings block, in its order. Sizes and offsets are in bytes.

    Any can be given, by place or by name. Those that are left out get values that fit the others. No rule is tested
    here: `block` does that. `dataclasses.replace` keeps every field that it is not given.
    """

    global_at: int  # where the global state starts in the image
    segments: int
    header_size: int  # of a segment header
    slot_size: int  # 4 or 8
    slots: int  # in a tier
    key_bits: int  # of a lookup key, in a slot
    chunk_bits: int  # of a first chunk, in a slot
    lookup_size: int  # from a tier's start to its counters
    free_list_size: int  # from a tier's free list to its entry space
    inner_offset: int  # from there to its first chunk
    chunks: int  # in a tier
    chunk_size: int
    tier_size: int
    bulk_inner: int  # from a bulk's start to its first tier
    bulk_tiers: int  # in a bulk
    bulk_size: int
    most_chunks: int  # that an entry may take

    def __init__(
        self, global_at: int = 0, segments: int = 1, header_size: int = 64, slot_size: int = 4, slots: int = 1024,
        key_bits: Optional[int] = None, chunk_bits: Optional[int] = None, lookup_size: Optional[int] = None,
        free_list_size: Optional[int] = None, inner_offset: int = 0, chunks: int = 1024, chunk_size: int = 8,
        tier_size: Optional[int] = None, bulk_inner: int = 0, bulk_tiers: int = 1, bulk_size: Optional[int] = None,
        most_chunks: Optional[int] = None,
    ) -> None:
        """Takes the fields, and fills in those that are None. TypeError where one is not a whole number."""
        chunks, slot_size = index(chunks), index(slot_size)
        if chunk_bits is None:
            chunk_bits = max(1, (chunks - 1).bit_length())
        if key_bits is None:
            key_bits = min(56, 8 * slot_size - index(chunk_bits))
        if lookup_size is None:
            lookup_size = _rounded_up(index(slots) * slot_size)
        if free_list_size is None:
            free_list_size = _rounded_up(-(-chunks // 8))
        if tier_size is None:
            inner = index(lookup_size) + 64 + index(free_list_size) + index(inner_offset)
            tier_size = _rounded_up(inner + chunks * index(chunk_size))
        if bulk_size is None:
            bulk_size = _rounded_up(index(bulk_inner) + index(bulk_tiers) * index(tier_size))
        if most_chunks is None:
            most_chunks = min(64, chunks)
        values = (
            global_at, segments, header_size, slot_size, slots, key_bits, chunk_bits, lookup_size, free_list_size,
            inner_offset, chunks, chunk_size, tier_size, bulk_inner, bulk_tiers, bulk_size, most_chunks,
        )
        for field, value in zip(fields(self), values):
            object.__setattr__(self, field.name, index(value))

    def block(self) -> bytes:
        """The block of 71 bytes, which the library accepts. Refused 3 where a field breaks its rule."""
        try:
            block = _BLOCK.pack(BLOCK_LENGTH - 2, 1, *astuple(self))
        except struct.error:  # below 0, or more than four bytes
            raise Refused(Number.FIELD) from None
        check_block(block)
        return block

    @classmethod
    def read(cls, block: BytesLike) -> "Settings":
        """The settings of a block that the library accepts. Refused 2 or 3 where it does not."""
        whole = copied("the block", block)
        check_block(whole)
        return cls(*_BLOCK.unpack(whole)[2:])


def empty_image(settings: Settings, bulks: int = 0, room: int = 0) -> bytearray:
    """A new image without entries, which the library accepts.

    It has so many bulks, whose tiers are free, linked in their order, and behind the store room for so many bulks
    more. Refused 3 where a field breaks its rule, and 4 where the image would be too long or have too many tiers.
    """
    block = settings.block()
    bulks, room = _count("bulks", bulks), _count("room", room)
    headers = _rounded_up(settings.global_at + _GLOBAL_STATE)
    size = headers + settings.segments * (settings.header_size + settings.tier_size) + bulks * settings.bulk_size
    if size + room * settings.bulk_size > LARGEST_IMAGE:
        raise Refused(Number.FRAME)
    image = bytearray(size + room * settings.bulk_size)
    first_free = settings.segments + 1 if bulks else 0
    for field, value in ((BULKS, bulks), (FIRST_FREE, first_free), (HEADERS, headers), (STORE_SIZE, size)):
        _put(image, settings.global_at, field, value)
    layout = Layout(settings, image)
    for tier in range(1, settings.segments + 1):
        _put(image, layout.counters_at(tier), SEGMENT, tier - 1)
    for tier in range(settings.segments + 1, layout.tier_count):
        _put(image, layout.counters_at(tier), NEXT, tier + 1)
    check(block, Memory(image))
    return image


def _rounded_up(size: int) -> int:
    """To a multiple of 64."""
    return -(-size // 64) * 64


def _count(name: str, given: int) -> int:
    number = index(given)
    if number < 0:
        raise ValueError(f"{name} must not be below 0")
    return number


def _put(image: bytearray, base: int, field: Tuple[int, int], value: int) -> None:
    at, length = field
    image[base + at:base + at + length] = value.to_bytes(length, "little")

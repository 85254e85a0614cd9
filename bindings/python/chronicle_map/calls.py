"""The library's functions on a block and an image."""
import ctypes

from .answers import Counts
from .library import load
from .memory import BytesLike, Memory, copied
from .numbers import Number, Refused

__all__ = ["LARGEST_IMAGE", "call", "check", "check_block", "finish", "xxh64"]

LARGEST_IMAGE = 16_777_216


def call(name: str, block: bytes, image: Memory, *rest: object) -> int:
    """What chronicle_map_NAME returns. A call that edits must be given writable memory."""
    function = getattr(load(), "chronicle_map_" + name)
    return int(function(block, len(block), image.address, image.length, *rest))


def finish(number: int) -> None:
    """Nothing where a call is done; Refused by any other number."""
    if number != Number.DONE:
        raise Refused(number)


def check(block: bytes, image: Memory) -> Counts:
    """The counts of an image, after a check of the block and of the whole image. Refused 2 to 7."""
    counts = (ctypes.c_uint64 * 4)()
    finish(call("check", block, image, counts))
    return Counts(*counts)


def check_block(block: bytes) -> None:
    """Refused 2 or 3 where the block is wrong. No image is needed: the check answers both before it looks at one."""
    number = call("check", block, Memory(b""), (ctypes.c_uint64 * 4)())
    if number in (Number.BLOCK, Number.FIELD):
        raise Refused(number)


def xxh64(given: BytesLike) -> int:
    """The XXH64 hash of some bytes, with seed 0: the hash by which keys are placed."""
    whole = copied("what is hashed", given)
    return int(load().chronicle_map_xxh64(whole, len(whole)))

"""A store: a settings block and an image, and the calls on them."""
import ctypes
import os
from collections.abc import ItemsView, Iterator, MutableMapping, ValuesView
from itertools import permutations
from operator import index
from threading import RLock
from types import TracebackType
from typing import Dict, List, Optional, Tuple, Type

from .answers import Counts, Entry, Lookup, Place, Row, Tier, View
from .calls import LARGEST_IMAGE, call, check, finish
from .layout import Layout
from .memory import BytesLike, Memory, copied
from .numbers import Number, Refused
from .settings import Settings, empty_image
from .sources import Buffer, PathLike, StoreFile

__all__ = ["Counts", "Entry", "Lookup", "Place", "Row", "Store", "Tier", "View"]

_CHANNELS = range(1, 33)
_LEAST_DELAY = -2**31


class Store(MutableMapping[bytes, bytes]):
    """A block and an image, used as a mapping from keys to records, both `bytes`.

    The image may lie in any buffer of one piece: bytearray, mmap, array, memoryview, a numpy array. A writable one is
    edited in place; its owner can read and change it, but not resize or close it until the store is closed. `bytes`
    are read in place too. Any other read-only buffer is copied once, so later changes of it are not seen. A store over
    a read-only buffer cannot be edited: that is a TypeError.

    Making a store checks nothing. Each call but the quick ones checks the block and the whole image first, and raises
    `Refused` with one of 2 to 7 where they are wrong. What is said of refusals at a call comes beside these. A call
    that is refused leaves every byte of the image as it was.

    Keys and records may be any bytes-like objects, also views of the image: they are copied before the call.

    Calls on one store by several threads run one after the other. Beside them nobody may write to the image while a
    call runs: no other store over the same bytes, and no other process.
    """

    def __init__(self, block: BytesLike, image: object) -> None:
        """Takes a block, which is copied, and an image, which is not. TypeError where either is no fit buffer."""
        whole = copied("the block", block)
        memory = Memory(image)
        self._start(whole, Buffer(memory, memory.writable))

    def _start(self, block: bytes, source: Buffer) -> None:
        self._lock = RLock()
        self._block = block
        self._source: Optional[Buffer] = source

    @classmethod
    def open(cls, path: PathLike, writable: bool = False) -> "Store":
        """A store in a file: a settings block of 71 bytes, then the image. Nothing is checked yet.

        A writable store edits the file; any other never writes it. A file that is too short for a block is opened
        too, and each call on it is Refused 2. OSError where the file cannot be opened. Nobody else may shorten the
        file while the store is open: the system ends a process that reads mapped bytes which are no longer there.
        """
        source = StoreFile(path, writable)
        store = cls.__new__(cls)
        store._start(source.block, source)
        return store

    @classmethod
    def create(cls, path: PathLike, settings: Settings, bulks: int = 0, room: int = 0) -> "Store":
        """A new file with a store without entries, opened writable. For bulks and room see `empty_image`.

        FileExistsError where a file is there already, which stays as it is. Refused 3 or 4 as `empty_image` is, and
        then no file is made.
        """
        content = settings.block() + empty_image(settings, bulks, room)
        with open(path, "xb") as file:
            try:
                file.write(content)
                file.flush()
            except BaseException:
                os.unlink(path)
                raise
        return cls.open(path, writable=True)

    # ---- the store itself

    @property
    def block(self) -> bytes:
        """The settings block, of however many bytes it has."""
        return self._block

    @property
    def settings(self) -> Settings:
        """The settings that the block holds. Refused 2 or 3 where it is wrong; the image is not looked at."""
        return Settings.read(self._block)

    @property
    def image(self) -> memoryview:
        """The image in its length of now: a read-only view without a copy, which shows later edits too."""
        with self._lock:
            return self._here().image.view.toreadonly()

    def flush(self) -> None:
        """Writes the image of a writable file to the disk. Elsewhere there is nothing to write."""
        with self._lock:
            self._here().flush()

    def close(self) -> None:
        """Flushes and lets go of file and buffer; any later call is a ValueError. Closing again does nothing.

        Views that are still held stay good: the memory stays mapped, or the buffer fixed in size, until they are gone.
        """
        with self._lock:
            source, self._source = self._source, None
            if source is not None:
                source.close()

    def __enter__(self) -> "Store":
        """The store itself, which the end of `with` closes."""
        with self._lock:
            self._here()
        return self

    def __exit__(
        self, kind: Optional[Type[BaseException]], error: Optional[BaseException], trace: Optional[TracebackType]
    ) -> None:
        """Closes the store."""
        self.close()

    def __repr__(self) -> str:
        """What the store is, without a check."""
        source = self._source
        if source is None:
            return "<Store, closed>"
        return f"<Store, {source.image.length} bytes, {'writable' if source.writable else 'read-only'}>"

    # ---- keys and records

    def counts(self) -> Counts:
        """The counts of entries, marked chunks, chained tiers and free tiers, by a check of the whole image."""
        with self._lock:
            return check(self._block, self._here().image)

    def lookup(self, key: BytesLike) -> Lookup:
        """Whether a key is there, and the place of its record; else where the search ended. Refused 8.

        Keys are compared whole. The place is right until the next edit. A store of an absent key may go elsewhere.
        """
        return self._search("lookup", key)

    def quick_lookup(self, key: BytesLike) -> Lookup:
        """`lookup` without a check of the whole image. Refused 2, 3, 4, 8 or 18.

        It checks the block, the image's frame and the key, and then tests what the search for the key meets. It
        answers as `lookup` does on an image that `counts` accepted and that only this library wrote to since. On any
        other image it is safe, but damage that it does not meet is not noticed.
        """
        return self._search("quick_lookup", key)

    def quick_get(self, key: BytesLike, default: Optional[bytes] = None) -> Optional[bytes]:
        """A copy of the record of a key by `quick_lookup`, or the default where the key is absent."""
        with self._lock:
            found, place = self._search("quick_lookup", key)
            return self._part(place).tobytes() if found else default

    def view(self, key: BytesLike) -> View:
        """The record of a key as a read-only part of the image, without a copy, and its place. Refused 8.

        KeyError where the key is absent. The part shows the record until the next edit; what it shows then is
        whatever these bytes of the image hold.
        """
        with self._lock:
            found, place = self._search("lookup", key)
            if not found:
                raise KeyError(copied("the key", key))
            return View(self._part(place), place)

    def __getitem__(self, key: BytesLike) -> bytes:
        """A copy of the record of a key. KeyError where it is absent. Refused 8."""
        with self._lock:
            return self.view(key).record.tobytes()

    def __contains__(self, key: object) -> bool:
        """Whether a key is there. Refused 8."""
        return self._search("lookup", key).found

    def put(self, key: BytesLike, record: BytesLike, tight: bool = False) -> None:
        """Stores a record under a key, or replaces the one that is there. Every other key keeps its record.

        Refused 8, 9, or 10 where it finds no room. A replacement of as many chunks stays on the spot and writes its
        own bytes alone. With `tight` what is replaced is always removed first, in effect, and the entry goes to the
        lowest run of chunks in the first tier that takes it.
        """
        with self._lock:
            name, value = copied("the key", key), copied("the record", record)
            finish(self._edit("store_tight" if tight else "store", name, len(name), value, len(value)))

    def __setitem__(self, key: BytesLike, record: BytesLike) -> None:
        """Stores a record under a key: `put` without `tight`."""
        self.put(key, record)

    def __delitem__(self, key: BytesLike) -> None:
        """Removes a key with its record; every other key keeps its record. KeyError where it is absent. Refused 8.

        An extra tier that this empties becomes the first free one.
        """
        with self._lock:
            name = copied("the key", key)
            number = self._edit("remove", name, len(name))
        if number == Number.ABSENT:
            raise KeyError(name)
        finish(number)

    def clear(self) -> None:
        """Removes every key, one after the other."""
        with self._lock:
            for key in self:
                del self[key]

    def grow(self) -> None:
        """Adds one bulk behind the last, whose tiers become the first free ones, so that the next store finds room.

        Every key keeps its record, and places stay right. Where a file lacks the room it is made longer first; it is
        as before where the grow is refused. Refused 13 where a buffer lacks the room, where the tiers would pass
        1,024, or where the image would pass 16,777,216 bytes.
        """
        with self._lock:
            number = self._edit("grow")
            if number == Number.NO_BULK:
                number = self._grow_longer()
            finish(number)

    # ---- the list

    def entry(self, n: int) -> Optional[Row]:
        """The row of the n-th live entry, from 0, or None where n is past the last. ValueError where n is below 0."""
        place = index(n)
        if place < 0:
            raise ValueError("entries are counted from 0")
        row = (ctypes.c_uint64 * 7)()
        number = self._call("entry", min(place, 2**64 - 1), row)
        if number == Number.ABSENT:
            return None
        finish(number)
        return Row(*row)

    def rows(self) -> List[Row]:
        """The rows of all live entries, by segment, order of its tiers and slot, after one check."""
        return self._checked().rows()

    def entries(self) -> List[Entry]:
        """All live entries, each a row with copies of key and record, in the order of `rows`, after one check."""
        return self._checked().entries()

    def tiers(self) -> List[Tier]:
        """All tiers with their entries: by segment and order in its chain, then the free ones; after one check."""
        return self._checked().tiers()

    def __len__(self) -> int:
        """How many live entries there are."""
        return self.counts().entries

    def __iter__(self) -> Iterator[bytes]:
        """Copies of all keys as they are now, after one check. Edits meanwhile do not alter what is given."""
        return iter(self._checked().keys())

    def items(self) -> ItemsView[bytes, bytes]:
        """Copies of all keys and records. Each iteration makes one check, and is over what is there at its start."""
        return _Items(self)

    def values(self) -> ValuesView[bytes]:
        """Copies of all records. Each iteration makes one check, and is over what is there at its start."""
        return _Values(self)

    # ---- delays by pair of channels

    def delay(self, a: int, b: int) -> Optional[int]:
        """The delay of channels a and b in that order, in microseconds; None where none is stored.

        The other order has the opposite delay. Refused 11 where a channel is not one of 1 to 32 or both are the same,
        and 12 where another record than a delay is stored under the pair's key.
        """
        return self._delay("delay", a, b)

    def quick_delay(self, a: int, b: int) -> Optional[int]:
        """`delay` by `quick_lookup`, so without a check of the whole image. Refused 2, 3, 4, 11, 18 or 12."""
        return self._delay("quick_delay", a, b)

    def set_delay(self, a: int, b: int, delay: int) -> None:
        """Sets the delay of channels a and b in that order, and so of both orders. Every other key keeps its record.

        It stays on the spot as `put` does. Refused 11; 12 where the delay is not one of -2,147,483,647 to
        2,147,483,647; 9; or 10.
        """
        number = index(delay)
        fits = _LEAST_DELAY <= number < -_LEAST_DELAY
        finish(self._edit("set_delay", _channel(a), _channel(b), number if fits else _LEAST_DELAY))

    def delays(self) -> Dict[Tuple[int, int], int]:
        """The delays of both orders of every pair that is stored, after one check.

        Refused 12 where another record than a delay is stored under a pair's key; its `about` names the pair.
        """
        delays = {}
        with self._lock:
            self.counts()
            for a, b in permutations(_CHANNELS, 2):
                delay = self._delay("quick_delay", a, b)
                if delay is not None:
                    delays[a, b] = delay
        return delays

    # ---- inside

    def _here(self) -> Buffer:
        """Where the image lies."""
        if self._source is None:
            raise ValueError("the store is closed")
        return self._source

    def _call(self, name: str, *rest: object) -> int:
        with self._lock:
            return call(name, self._block, self._here().image, *rest)

    def _edit(self, name: str, *rest: object) -> int:
        with self._lock:
            if not self._here().writable:
                raise TypeError("this store is read-only")
            return self._call(name, *rest)

    def _search(self, name: str, key: object) -> Lookup:
        """A lookup of either kind."""
        place = (ctypes.c_uint64 * 4)()
        with self._lock:
            whole = copied("the key", key)
            number = self._call(name, whole, len(whole), place)
        if number != Number.ABSENT:
            finish(number)
        return Lookup(number == Number.DONE, Place(*place))

    def _part(self, place: Place) -> memoryview:
        """The bytes of a record that was found in the image as it is now."""
        view = self._here().image.view
        return view[place.offset:place.offset + place.length].toreadonly()

    def _delay(self, name: str, a: int, b: int) -> Optional[int]:
        """A delay lookup of either kind."""
        delay = ctypes.c_int32()
        number = self._call(name, _channel(a), _channel(b), ctypes.byref(delay))
        if number == Number.ABSENT:
            return None
        if number == Number.DELAY:
            raise Refused(number, f"channels {a} and {b}")
        finish(number)
        return delay.value

    def _checked(self) -> Layout:
        """The layout of a copy of the image. The copy itself is checked, so it does not matter who writes meanwhile."""
        with self._lock:
            # One byte above the limit is as wrong as any number of them.
            image = self._here().image.view[:LARGEST_IMAGE + 1].tobytes()
        check(self._block, Memory(image))
        return Layout(self.settings, image)

    def _grow_longer(self) -> int:
        """One bulk more in a longer image, where the image can be made longer. The image was accepted."""
        source = self._here()
        settings = self.settings
        length = Layout(settings, source.image.view).store_size + settings.bulk_size
        if length <= source.image.length or length > LARGEST_IMAGE:
            return Number.NO_BULK
        return source.lengthen(length, lambda image: call("grow", self._block, image))


class _Items(ItemsView[bytes, bytes]):
    """Keys and records by one walk, where the standard view would look each key up."""

    def __init__(self, store: Store) -> None:
        super().__init__(store)
        self._store = store

    def __iter__(self) -> Iterator[Tuple[bytes, bytes]]:
        return iter(self._store._checked().items())


class _Values(ValuesView[bytes]):
    """Records by one walk, where the standard view would look each key up."""

    def __init__(self, store: Store) -> None:
        super().__init__(store)
        self._store = store

    def __iter__(self) -> Iterator[bytes]:
        return (record for _, record in self._store._checked().items())

    def __contains__(self, value: object) -> bool:
        return any(record == value for record in self)


def _channel(given: int) -> int:
    """A channel in four bytes. Any other number becomes 0, which is no channel either."""
    channel = index(given)
    return channel if 0 <= channel < 2**32 else 0

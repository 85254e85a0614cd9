"""Where the image of a store lies: in a caller's buffer, or in a file."""
import mmap
import os
import stat
from contextlib import suppress
from io import FileIO
from typing import Callable, Union

from .memory import Memory
from .numbers import Number
from .settings import BLOCK_LENGTH

__all__ = ["Buffer", "PathLike", "StoreFile"]

PathLike = Union[str, "os.PathLike[str]"]


class Buffer:
    """A caller's buffer: `image` is its memory, and `writable` says whether the store may be edited."""

    def __init__(self, image: Memory, writable: bool) -> None:
        self.image = image
        self.writable = writable

    def lengthen(self, length: int, edit: Callable[[Memory], int]) -> int:
        """Answers 13: a buffer has the length that its owner gave it."""
        return Number.NO_BULK

    def flush(self) -> None:
        """Leaves all as it is: the bytes are in the owner's buffer already."""

    def close(self) -> None:
        """Lets go of the memory, which views that are still held keep."""
        self.image.release()


class StoreFile(Buffer):
    """A file of a settings block of 71 bytes and then the image, mapped into memory.

    A writable one is mapped shared, so an edit of the image is an edit of the file. Any other is mapped privately, so
    the file is never written. A file that ends before or right behind the block's 71 bytes has an empty image.
    """

    def __init__(self, path: PathLike, writable: bool) -> None:
        self._file = FileIO(path, "r+" if writable else "r")
        try:
            if not stat.S_ISREG(os.fstat(self._file.fileno()).st_mode):
                raise OSError(f"{os.fspath(path)} is not a regular file")
            self.block = os.pread(self._file.fileno(), BLOCK_LENGTH, 0)
            self._mapping = _Mapping(self._file, writable)
        except BaseException:
            self._file.close()
            raise
        super().__init__(self._mapping.image, writable)

    def lengthen(self, length: int, edit: Callable[[Memory], int]) -> int:
        """Makes the image so long, with zeros at its end, and answers what `edit` answers on it.

        Where that is not 0, or fails, the file is as before. Views of the shorter image stay good.
        """
        before = os.fstat(self._file.fileno()).st_size
        try:
            # Room on the disk is taken now: a write into a mapped hole of a full disk would end the process.
            os.posix_fallocate(self._file.fileno(), 0, BLOCK_LENGTH + length)
            longer = _Mapping(self._file, True)
            number = edit(longer.image)
        except BaseException:
            self._file.truncate(before)
            raise
        if number != Number.DONE:
            longer.close()
            self._file.truncate(before)
            return number
        self._mapping.close()
        self._mapping, self.image = longer, longer.image
        return number

    def flush(self) -> None:
        """Writes the image to the disk."""
        if self.writable:
            self._mapping.flush()

    def close(self) -> None:
        """Writes the image to the disk and lets go of file and memory. Views that are still held keep the memory."""
        try:
            self.flush()
        finally:
            self._mapping.close()
            self._file.close()


class _Mapping:
    """A file's bytes in memory, of which `image` is the part behind the block."""

    def __init__(self, file: FileIO, writable: bool) -> None:
        # An empty file cannot be mapped, and without a byte of the image there is nothing to map.
        whole = os.fstat(file.fileno()).st_size > BLOCK_LENGTH
        access = mmap.ACCESS_WRITE if writable else mmap.ACCESS_COPY
        self._bytes = mmap.mmap(file.fileno(), 0, access=access) if whole else None
        self.image = Memory(bytearray() if self._bytes is None else memoryview(self._bytes)[BLOCK_LENGTH:])

    def flush(self) -> None:
        """Writes the bytes to the disk."""
        if self._bytes is not None:
            self._bytes.flush()

    def close(self) -> None:
        """Ends the mapping, or leaves that to the last view of it."""
        self.image.release()
        if self._bytes is not None:
            with suppress(BufferError):
                self._bytes.close()

"""Bytes in the form in which the library's functions take them."""
import ctypes
from typing import Union, cast

__all__ = ["BytesLike", "Memory", "copied"]

BytesLike = Union[bytes, bytearray, memoryview]


class Memory:
    """A buffer that a store lies in: `address` and `length` for the library, and `view`, the same bytes for Python.

    The buffer itself is used where it is writable, or `bytes`. Any other read-only buffer is copied once, here, so
    later changes of it are not seen. Until `release`, and as long as a part of `view` is held, the buffer can be
    changed but not resized.
    """

    def __init__(self, buffer: object) -> None:
        given = _view("the image", buffer)
        if not given.c_contiguous:
            raise TypeError("the image must lie in one piece (a C-contiguous buffer)")
        self.length = given.nbytes
        self.writable = not given.readonly
        self._given = given  # keeps an empty buffer from being resized too
        if self.writable and self.length:
            self._in_place(given)
        else:
            self._of_bytes(_whole(given))

    def release(self) -> None:
        """Lets go of the buffer, which parts of `view` that are still held keep. The address must not be used any more.

        This does not wait for the object to go: an error that somebody keeps may keep the object with it.
        """
        self.view.release()
        self._given.release()

    def _in_place(self, given: memoryview) -> None:
        lent = (ctypes.c_uint8 * self.length).from_buffer(given)
        self.address = ctypes.addressof(lent)
        self.view = memoryview(lent).cast("B")

    def _of_bytes(self, whole: bytes) -> None:
        # A c_char_p holds the address of the bytes, and keeps them.
        self._pointer = ctypes.c_char_p(whole)
        self.address = cast(int, ctypes.c_void_p.from_buffer(self._pointer).value)
        self.view = memoryview(whole)


def copied(what: str, given: object) -> bytes:
    """The bytes of a bytes-like object, which nobody can change any more. TypeError where it is no such object."""
    return given if type(given) is bytes else _view(what, given).tobytes()


def _view(what: str, given: object) -> memoryview:
    try:
        return memoryview(cast(bytes, given))
    except TypeError:
        raise TypeError(f"{what} must be bytes-like, not {type(given).__name__}") from None


def _whole(given: memoryview) -> bytes:
    """The bytes of a view: the object that it shows where that is `bytes` and shown whole, else a copy."""
    shown: object = given.obj
    return shown if type(shown) is bytes and len(shown) == given.nbytes else given.tobytes()

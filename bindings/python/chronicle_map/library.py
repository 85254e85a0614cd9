"""Finds the shared library, loads it at the first call, and declares its functions."""
import ctypes
import os
from functools import lru_cache
from pathlib import Path
from typing import List, Optional, Tuple, Type

__all__ = ["library_path", "load", "repository"]

VARIABLE = "CHRONICLE_MAP_LIB"
SONAME = "libchronicle_map.so.0"
NAMES = (SONAME, "libchronicle_map.so")

# The arguments behind block and image, each of which is an address (or bytes) and a length.
_BLOCK = (ctypes.c_char_p, ctypes.c_size_t)
_IMAGE = (ctypes.c_void_p, ctypes.c_size_t)
_BYTES = (ctypes.c_char_p, ctypes.c_size_t)
_OUT = (ctypes.c_void_p,)
_PAIR = (ctypes.c_uint32, ctypes.c_uint32)
_ARGUMENTS = {
    "check": _OUT,
    "lookup": _BYTES + _OUT,
    "quick_lookup": _BYTES + _OUT,
    "store": _BYTES + _BYTES,
    "store_tight": _BYTES + _BYTES,
    "remove": _BYTES,
    "grow": (),
    "entry": (ctypes.c_uint64,) + _OUT,
    "delay": _PAIR + _OUT,
    "quick_delay": _PAIR + _OUT,
    "set_delay": _PAIR + (ctypes.c_int32,),
}


def repository() -> Optional[Path]:
    """The repository's folder where the package is used from its place there, else None."""
    here = Path(__file__).resolve()
    if len(here.parents) < 4 or here.parents[1].parts[-2:] != ("bindings", "python"):
        return None
    root = here.parents[3]
    return root if (root / "include" / "chronicle_map.h").is_file() else None


@lru_cache(maxsize=None)
def load() -> ctypes.CDLL:
    """The library, loaded and declared once. OSError where there is none; the next call looks again.

    It is looked for in this order: what CHRONICLE_MAP_LIB names, the repository's target/lib, the system.
    """
    looked_at: List[str] = []
    named = _named(looked_at)
    if named is not None:
        return _open(str(named), f"{VARIABLE} names {named}, which cannot be loaded")
    built = _built(looked_at)
    if built is not None:
        return _open(str(built), f"{built} cannot be loaded")
    looked_at.append(f"{SONAME} by the system's loader")
    return _open(SONAME, f"no {SONAME}; looked at: {'; '.join(looked_at)}. Run `make lib` or `make install`")


def library_path() -> str:
    """The path of the library that the calls go to. It is loaded where it was not yet."""
    library = load()
    address = ctypes.cast(library.chronicle_map_check, ctypes.c_void_p)
    about = _Symbol()
    dladdr = ctypes.CDLL(None).dladdr
    dladdr.argtypes = (ctypes.c_void_p, ctypes.c_void_p)
    if dladdr(address, ctypes.byref(about)) and about.file is not None:
        return os.fsdecode(about.file)
    return str(library._name)


class _Symbol(ctypes.Structure):
    """What dladdr tells of an address."""

    _fields_ = [
        ("file", ctypes.c_char_p),
        ("base", ctypes.c_void_p),
        ("name", ctypes.c_char_p),
        ("address", ctypes.c_void_p),
    ]


def _named(looked_at: List[str]) -> Optional[Path]:
    """The library that the environment names. A folder without one is passed over: it may hold the archive."""
    value = os.environ.get(VARIABLE, "")
    if not value:
        looked_at.append(f"{VARIABLE}, which is not set")
        return None
    path = Path(value)
    if not path.is_dir():
        return path.absolute()
    looked_at.append(f"the folder {value} of {VARIABLE}")
    return _in(path)


def _built(looked_at: List[str]) -> Optional[Path]:
    """The library that `make lib` left in the repository."""
    root = repository()
    if root is None:
        return None
    looked_at.append(str(root / "target" / "lib"))
    return _in(root / "target" / "lib")


def _in(folder: Path) -> Optional[Path]:
    """The library in a folder, where it is there."""
    paths = (folder.absolute() / name for name in NAMES)
    return next((path for path in paths if path.exists()), None)


def _open(name: str, complaint: str) -> ctypes.CDLL:
    """Loads a library and declares its functions."""
    try:
        library = ctypes.CDLL(name)
    except OSError as error:
        raise OSError(f"{complaint} ({error})") from error
    for function, rest in _ARGUMENTS.items():
        _declare(library, function, ctypes.c_uint32, _BLOCK + _IMAGE + rest)
    _declare(library, "xxh64", ctypes.c_uint64, _BYTES)
    return library


def _declare(library: ctypes.CDLL, name: str, result: Type[object], arguments: Tuple[Type[object], ...]) -> None:
    try:
        function = getattr(library, "chronicle_map_" + name)
    except AttributeError as error:
        message = f"{library._name} has no function chronicle_map_{name}: it is another library, or an older one"
        raise OSError(message) from error
    function.argtypes = arguments
    function.restype = result

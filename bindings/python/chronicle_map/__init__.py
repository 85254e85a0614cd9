"""A proved library over a lent Chronicle Map memory image.

    from chronicle_map import Store

    with Store.open("pairs.store", writable=True) as store:
        store.set_delay(4, 3, -25)
        print(store.delay(3, 4))    # 25
        print(store[bytes([3, 4])]) # the record itself

`Store` is a mapping from keys to records over a file or a buffer; `Settings` and `empty_image` make new ones; `Refused`
tells by its number why a call changed nothing.
"""
from .calls import xxh64
from .library import library_path
from .numbers import Number, Refused
from .settings import Settings, empty_image
from .store import Counts, Entry, Lookup, Place, Row, Store, Tier, View
from .version import version

__all__ = [
    "Counts", "Entry", "Lookup", "Number", "Place", "Refused", "Row", "Settings", "Store", "Tier", "View",
    "__version__", "empty_image", "library_path", "xxh64",
]

__version__ = version()

"""Stores for tests, and the lister program."""
import os
import shutil
import subprocess
import tempfile
import unittest
from pathlib import Path

from chronicle_map import Settings, Store, empty_image

REPOSITORY = Path(__file__).resolve().parents[3]

# The worked store of the scope: one bulk, every lookup key 1, every start slot 1.
X = Settings(0, 1, 32, 4, 4, 1, 4, 64, 8, 0, 8, 8, 200, 0, 1, 200, 4)

# Four segments, slots of 8 bytes, nothing aligned, a gap behind every area, bulks of three tiers.
WIDE = Settings(
    global_at=64, segments=4, header_size=37, slot_size=8, slots=8, key_bits=5, chunk_bits=9, lookup_size=71,
    free_list_size=5, inner_offset=3, chunks=21, chunk_size=7, tier_size=301, bulk_inner=11, bulk_tiers=3,
    bulk_size=930, most_chunks=9,
)

# Room for records of three length bytes and keys of two.
LONG = Settings(segments=2, slots=16, chunks=100, chunk_size=700)

FOUR = b"\x10\0\0\0"


def lent(settings=X, bulks=1, room=0):
    """A store over a bytearray, and the bytearray."""
    image = empty_image(settings, bulks, room)
    return Store(settings.block(), image), image


def worked(upto):
    """Store X after the worked case p1 to p6 of that number, and its image."""
    store, image = lent()
    calls = [[], [(1, 2)], [(2, 1)], [(3, 1)], [(1, 3)], [(4, 1), (5, 1)]]
    for key in sum(calls[:upto], []):
        store[bytes(key)] = b"\xf0\xff\xff\xff" if key == (2, 1) else FOUR
    return store, image


class Folder(unittest.TestCase):
    """A test with a folder of its own for files."""

    def setUp(self):
        self.folder = os.path.realpath(tempfile.mkdtemp())
        self.addCleanup(shutil.rmtree, self.folder)

    def path(self, name="a.store"):
        return os.path.join(self.folder, name)

    def written(self, content, name="a.store"):
        """The path of a new file with this content."""
        Path(self.path(name)).write_bytes(content)
        return self.path(name)

    def content(self, name="a.store"):
        return Path(self.path(name)).read_bytes()


def mappings(path):
    """How often the file is mapped into this process."""
    with open("/proc/self/maps", encoding="utf-8") as maps:
        return sum(line.rstrip().endswith(path) for line in maps)


def lister():
    """The path of the lister program. The test is skipped where it is not there."""
    path = Path(os.environ.get("CHRONICLE_MAP_LISTER") or REPOSITORY / "target" / "bin" / "lister")
    if not path.is_file():
        raise unittest.SkipTest(f"no lister program at {path}; CHRONICLE_MAP_LISTER may name it")
    return str(path)


def listed(content):
    """What the lister prints for a file of block and image."""
    block, image = content[:71], content[71:]
    given = block + len(image).to_bytes(4, "big") + image
    return subprocess.run([lister()], input=given, stdout=subprocess.PIPE, check=False).stdout.decode()


def lines(store):
    """What the lister has to print for a store."""
    rows = [" ".join(map(str, row)) for row in store.rows()]
    totals = "entries %d chunks %d tiers %d free %d" % store.counts()
    return "\n".join(["segment tier slot chunk chunks key value", *rows, totals, ""])

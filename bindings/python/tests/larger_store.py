"""Makes the store of docs/larger-store.svg, always the same bytes: several segments, chains, holes and free tiers.

With bindings/python in PYTHONPATH, in the repository's folder:

    python3 bindings/python/tests/larger_store.py larger.store
    python3 -m chronicle_map draw larger.store > docs/larger-store.svg
"""
import sys

from chronicle_map import Settings, Store


def make(path: str) -> None:
    """A new store with records of 0 to 40 bytes under pairs of channels, some of which are removed again."""
    settings = Settings(segments=4, slots=16, chunks=40, chunk_size=8, bulk_tiers=4)
    with Store.create(path, settings, bulks=3) as store:
        pairs = [bytes([a, b]) for a in range(1, 17) for b in range(a + 1, 17)]
        for n, pair in enumerate(pairs):
            store[pair] = bytes(7 * n % 41)
        for n, pair in enumerate(pairs):
            if n % 4 == 1:
                del store[pair]


if __name__ == "__main__":
    make(sys.argv[1])

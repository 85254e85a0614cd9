"""Settings, their block, and new images."""
import dataclasses
import unittest

from chronicle_map import Number, Refused, Settings, Store, empty_image
from tests.samples import LONG, WIDE, X, lent

NAMES = [field.name for field in dataclasses.fields(Settings)]
LARGEST = 16_777_216

# Of each field: settings at its limits, and settings just outside.
FINE = {
    "global_at": [{"global_at": 0}, {"global_at": 65536}],
    "segments": [{"segments": 1}, {"segments": 256}],
    "header_size": [{"header_size": 32}, {"header_size": 256}],
    "slot_size": [{"slot_size": 4}, {"slot_size": 8}],
    "slots": [{"slots": 4}, {"slots": 4096}],
    "key_bits": [{"key_bits": 1}, {"key_bits": 22}, {"key_bits": 56, "slot_size": 8, "chunks": 256}],
    "chunk_bits": [{"chunk_bits": 1, "chunks": 2}, {"chunk_bits": 32, "slot_size": 8}, {"chunk_bits": 10}],
    "lookup_size": [
        {"lookup_size": 4096},
        {"lookup_size": LARGEST - 64 - 128 - 8192, "tier_size": LARGEST, "bulk_size": LARGEST},
    ],
    "free_list_size": [{"free_list_size": 128}, {"free_list_size": 129, "chunks": 1025}],
    "inner_offset": [{"inner_offset": 0}, {"inner_offset": 4096}],
    "chunks": [{"chunks": 1}, {"chunks": 4096}],
    "chunk_size": [{"chunk_size": 1}, {"chunk_size": 4096}],
    "tier_size": [{"tier_size": 4096 + 64 + 128 + 8192}, {"tier_size": LARGEST, "bulk_size": LARGEST}],
    "bulk_inner": [{"bulk_inner": 0}, {"bulk_inner": 65536}],
    "bulk_tiers": [{"bulk_tiers": 1}, {"bulk_tiers": 64}],
    "bulk_size": [{"bulk_size": 12480}, {"bulk_size": LARGEST}],
    "most_chunks": [{"most_chunks": 1}, {"most_chunks": 64}, {"most_chunks": 8, "chunks": 8}],
}
WRONG = {
    "global_at": [{"global_at": 1}, {"global_at": 63}, {"global_at": 65537}, {"global_at": 65600}],
    "segments": [{"segments": 0}, {"segments": 3}, {"segments": 257}, {"segments": 512}],
    "header_size": [{"header_size": 31}, {"header_size": 257}],
    "slot_size": [{"slot_size": 3}, {"slot_size": 5}, {"slot_size": 7}, {"slot_size": 9}],
    "slots": [{"slots": 2}, {"slots": 3}, {"slots": 5}, {"slots": 4097}, {"slots": 8192}],
    "key_bits": [{"key_bits": 0}, {"key_bits": 23}, {"key_bits": 57, "slot_size": 8, "chunks": 128}],
    "chunk_bits": [
        {"chunk_bits": 0, "chunks": 1}, {"chunk_bits": 33, "slot_size": 8, "key_bits": 31}, {"chunk_bits": 9},
        {"chunk_bits": 11, "key_bits": 22},
    ],
    "lookup_size": [
        {"lookup_size": 4095},
        {"lookup_size": LARGEST - 64 - 128 - 8191, "tier_size": LARGEST, "bulk_size": LARGEST},
    ],
    "free_list_size": [{"free_list_size": 127}, {"free_list_size": 128, "chunks": 1025}],
    "inner_offset": [{"inner_offset": 4097}],
    "chunks": [{"chunks": 0, "most_chunks": 1}, {"chunks": 4097}],
    "chunk_size": [{"chunk_size": 0}, {"chunk_size": 4097}],
    "tier_size": [{"tier_size": 4096 + 64 + 128 + 8191}, {"tier_size": LARGEST + 1, "bulk_size": LARGEST + 1}],
    "bulk_inner": [{"bulk_inner": 65537}],
    "bulk_tiers": [{"bulk_tiers": 0}, {"bulk_tiers": 65}],
    "bulk_size": [{"bulk_size": 12479}, {"bulk_size": LARGEST + 1}],
    "most_chunks": [{"most_chunks": 0}, {"most_chunks": 65}, {"most_chunks": 9, "chunks": 8}],
}


class Fields(unittest.TestCase):
    def refused(self, number, call, *args):
        with self.assertRaises(Refused) as caught:
            call(*args)
        self.assertEqual(caught.exception.number, number)

    def test_defaults(self):
        settings = Settings()
        self.assertEqual(
            dataclasses.astuple(settings),
            (0, 1, 64, 4, 1024, 22, 10, 4096, 128, 0, 1024, 8, 12480, 0, 1, 12480, 64),
        )
        self.assertEqual(len(settings.block()), 71)
        self.assertEqual(settings.block()[:3], b"\0\x45\1")

    def test_block_of_x(self):
        numbers = (0, 1, 32, 4, 4, 1, 4, 64, 8, 0, 8, 8, 200, 0, 1, 200, 4)
        block = b"\0\x45\1" + b"".join(number.to_bytes(4, "big") for number in numbers)
        self.assertEqual(X.block(), block)
        self.assertEqual(Settings(**dict(zip(NAMES, numbers))), X)

    def test_left_out_fields_fit(self):
        for changes in (
            {"slots": 4, "chunks": 1}, {"slot_size": 8, "chunks": 4096}, {"chunks": 2, "chunk_size": 1},
            {"bulk_tiers": 7, "bulk_inner": 5}, {"inner_offset": 9, "chunks": 33}, {"slot_size": 8, "chunks": 100},
        ):
            with self.subTest(changes):
                settings = Settings(**changes)
                self.assertEqual(Settings.read(settings.block()), settings)
                for size in (settings.lookup_size, settings.free_list_size, settings.tier_size, settings.bulk_size):
                    self.assertEqual(size % 64, 0)
        self.assertEqual(Settings(slot_size=8, chunks=64).key_bits, 56)

    def test_limits(self):
        self.assertEqual((list(FINE), list(WRONG)), (NAMES, NAMES))
        for name, changes in [(name, changes) for name in NAMES for changes in FINE[name]]:
            with self.subTest(name, changes=changes):
                settings = Settings(**changes)
                self.assertEqual(Settings.read(settings.block()), settings)

    def test_outside(self):
        for name, changes in [(name, changes) for name in NAMES for changes in WRONG[name]]:
            with self.subTest(name, changes=changes):
                self.refused(Number.FIELD, Settings(**changes).block)

    def test_numbers_do_not_wrap(self):
        for name in NAMES:
            fine = getattr(X, name)
            for number in (-1, fine + 2**32, fine - 2**32, fine + 2**64):
                with self.subTest(name, number=number):
                    self.refused(Number.FIELD, dataclasses.replace(X, **{name: number}).block)

    def test_types(self):
        for wrong in ("4", 4.0, None, b"4"):
            with self.subTest(wrong), self.assertRaises(TypeError):
                Settings(segments=wrong)
        with self.assertRaises(TypeError):
            Settings(chunks=8.0)
        with self.assertRaises(dataclasses.FrozenInstanceError):
            Settings().slots = 8

    def test_read(self):
        block = WIDE.block()
        for given in (block, bytearray(block), memoryview(block)):
            self.assertEqual(Settings.read(given), WIDE)
        self.refused(Number.BLOCK, Settings.read, block[:-1])
        self.refused(Number.BLOCK, Settings.read, block + b"\0")
        self.refused(Number.BLOCK, Settings.read, b"")
        self.refused(Number.BLOCK, Settings.read, block[:2] + b"\2" + block[3:])
        self.refused(Number.FIELD, Settings.read, block[:7] + b"\0\0\0\3" + block[11:])
        with self.assertRaises(TypeError):
            Settings.read(71)


class EmptyImage(unittest.TestCase):
    def test_x(self):
        expected = bytearray(496)
        expected[8:9], expected[11:12], expected[21:22], expected[25:27] = b"\1", b"\2", b"\x40", b"\xf0\1"
        self.assertEqual(empty_image(X, 1), expected)

    def test_bulks_and_room(self):
        for settings in (Settings(), X, WIDE, LONG):
            for bulks, room in ((0, 0), (1, 0), (0, 1), (3, 2)):
                with self.subTest(settings=settings, bulks=bulks, room=room):
                    self.free_in_order(settings, bulks, room)

    def free_in_order(self, settings, bulks, room):
        image = empty_image(settings, bulks, room)
        start = settings.global_at + 64
        mains = settings.segments * (settings.header_size + settings.tier_size)
        self.assertEqual(len(image), start + mains + (bulks + room) * settings.bulk_size)
        store = Store(settings.block(), image)
        extra = bulks * settings.bulk_tiers
        self.assertEqual(store.counts(), (0, 0, settings.segments, extra))
        tiers = [(tier.tier, tier.segment, tier.order, tier.entries) for tier in store.tiers()]
        main = [(segment + 1, segment, 0, ()) for segment in range(settings.segments)]
        free = [(settings.segments + 1 + order, None, order, ()) for order in range(extra)]
        self.assertEqual(tiers, main + free)
        for _ in range(room):
            store.grow()
        with self.assertRaises(Refused) as caught:
            store.grow()
        self.assertEqual(caught.exception.number, Number.NO_BULK)
        self.assertEqual(store.counts().free, extra + room * settings.bulk_tiers)

    def test_every_tier_takes_entries(self):
        store, _ = lent(WIDE, bulks=2)
        with self.assertRaises(Refused) as caught:
            for n in range(1000):
                store[n.to_bytes(2, "big")] = bytes(30)
        self.assertEqual(caught.exception.number, Number.FULL)
        self.assertEqual(store.counts()[2:], (10, 0))
        self.assertTrue(all(tier.entries for tier in store.tiers()))

    def test_free_chain_order(self):
        store, _ = lent(WIDE, bulks=1, room=1)
        self.assertEqual([tier.tier for tier in store.tiers()], [1, 2, 3, 4, 5, 6, 7])
        store.grow()
        self.assertEqual([tier.tier for tier in store.tiers()], [1, 2, 3, 4, 8, 9, 10, 5, 6, 7])

    def test_too_large(self):
        for settings, bulks, room in (
            (Settings(bulk_size=LARGEST), 1, 0), (Settings(bulk_size=LARGEST), 0, 1), (Settings(), 10**30, 0),
            (Settings(), 0, 2000), (Settings(slots=4, chunks=1, bulk_tiers=64), 16, 0),
        ):
            with self.subTest(settings=settings, bulks=bulks, room=room), self.assertRaises(Refused) as caught:
                empty_image(settings, bulks, room)
            self.assertEqual(caught.exception.number, Number.FRAME)
        self.assertEqual(len(empty_image(Settings(slots=4, chunks=1, bulk_tiers=64), 15)), 64 + 320 + 15 * 64 * 256)

    def test_wrong_arguments(self):
        with self.assertRaises(Refused) as caught:
            empty_image(Settings(segments=3))
        self.assertEqual(caught.exception.number, Number.FIELD)
        for bulks, room in ((-1, 0), (0, -1)):
            with self.assertRaises(ValueError):
                empty_image(X, bulks, room)
        with self.assertRaises(TypeError):
            empty_image(X, "1")


if __name__ == "__main__":
    unittest.main()

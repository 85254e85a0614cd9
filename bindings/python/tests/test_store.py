"""The calls of a store: the worked cases, the mapping, delays, numbers out of range, threads."""
import random
import threading
import time
import unittest
from itertools import combinations, permutations
from unittest import mock

from chronicle_map import Counts, Lookup, Place, Refused, Row, Settings, Store, empty_image, xxh64
from chronicle_map.calls import call, check
from tests.samples import FOUR, X, lent, worked


def number(image, at, length):
    return int.from_bytes(image[at:at + length], "little")


def slots(image, at):
    return [number(image, at + 4 * slot, 4) for slot in range(4)]


class Worked(unittest.TestCase):
    """Store X, by bytes. Its header is at 64, tier 1 at 96 (free list 224), tier 2 at 296 (free list 424)."""

    def test_p1(self):
        store, image = worked(1)
        self.assertEqual(len(image), 496)
        self.assertEqual(store.counts(), Counts(0, 0, 1, 1))
        self.assertEqual(store.lookup(b"\1\2"), Lookup(False, Place(0, 0, 1, 1)))

    def test_p2(self):
        store, image = worked(2)
        self.assertEqual(image[232:240], b"\2\1\2\4\x10\0\0\0")
        self.assertEqual((slots(image, 96), image[224]), ([0, 1, 0, 0], 1))
        self.assertEqual((number(image, 72, 4), number(image, 76, 4)), (1, 1))
        self.assertEqual(store.counts(), (1, 1, 1, 1))

    def test_p3(self):
        store, image = worked(3)
        self.assertEqual((slots(image, 96), image[224]), ([0, 1, 3, 0], 3))
        self.assertEqual((store[b"\1\2"], store[b"\2\1"]), (b"\x10\0\0\0", b"\xf0\xff\xff\xff"))
        self.assertEqual(store.rows(), [Row(0, 1, 1, 0, 1, 2, 4), Row(0, 1, 2, 1, 1, 2, 4)])
        self.assertEqual(store.counts(), (2, 2, 1, 1))

    def test_p4(self):
        store, image = worked(4)
        self.assertEqual((slots(image, 96), image[224]), ([0, 1, 3, 5], 7))
        self.assertEqual(store.lookup(b"\1\3"), (False, (0, 0, 1, 0)))

    def test_p5(self):
        store, image = worked(5)
        self.assertEqual(slots(image, 296), [0, 1, 0, 0])
        state = number(image, 11, 5), number(image, 16, 5), number(image, 80, 8)
        self.assertEqual(state, (0, 1, 2))
        self.assertEqual((number(image, 368, 8), number(image, 388, 4)), (1, 1))
        self.assertEqual(store.lookup(b"\1\3"), (True, (436, 4, 2, 1)))
        self.assertEqual(store.counts(), (4, 4, 2, 0))

    def test_p6(self):
        store, image = worked(6)
        self.assertEqual([row.tier for row in store.rows()], [1, 1, 1, 2, 2, 2])
        before = bytes(image)
        with self.assertRaises(Refused) as caught:
            store[b"\6\1"] = FOUR
        self.assertEqual(caught.exception.number, 10)
        self.assertEqual(image, before)

    def test_p7(self):
        store, image = worked(4)
        del store[b"\1\2"]
        self.assertEqual((slots(image, 96), image[224], number(image, 76, 4)), ([0, 3, 5, 0], 6, 0))
        self.assertEqual(store.counts(), (2, 2, 1, 1))

    def test_p8(self):
        store, image = worked(4)
        store[b"\1\2"] = b"12345"
        self.assertEqual((slots(image, 96)[3], image[224]), (7, 30))
        self.assertEqual(store.lookup(b"\1\2").place[2:], (1, 3))
        self.assertEqual(store.entry(2), Row(0, 1, 3, 3, 2, 2, 5))
        self.assertEqual(store.counts(), (3, 4, 1, 1))

    def test_p9_p10(self):
        store, image = worked(1)
        store[b"\1\2"] = bytes(28)
        self.assertEqual(store.rows(), [Row(0, 1, 1, 0, 4, 2, 28)])
        with self.assertRaises(Refused) as caught:
            store[b"\1\3"] = bytes(29)
        self.assertEqual(caught.exception.number, 9)
        for at, byte, refusal in ((25, 0xEF, 4), (224, 1, 7)):
            damaged = empty_image(X, 1)
            damaged[at] = byte
            with self.assertRaises(Refused) as caught:
                Store(X.block(), damaged).counts()
            self.assertEqual(caught.exception.number, refusal)

    def test_tight(self):
        store, _ = worked(4)
        del store[b"\1\2"]
        place = store.lookup(b"\3\1").place
        store.put(b"\3\1", b"new1")
        self.assertEqual(store.lookup(b"\3\1").place, place)
        store.put(b"\3\1", b"new2", tight=True)
        self.assertEqual(store.lookup(b"\3\1").place.offset, 236)
        self.assertEqual(store[b"\3\1"], b"new2")


class Mapping(unittest.TestCase):
    """What the standard mapping adds."""

    def test_calls(self):
        store, _ = lent(Settings())
        store.update({b"a": b"1", b"b": b"2"})
        self.assertEqual((store.setdefault(b"a", b"9"), store.setdefault(b"c", b"3")), (b"1", b"3"))
        self.assertEqual((store.pop(b"a"), store.pop(b"a", b"none")), (b"1", b"none"))
        self.assertEqual(store, {b"b": b"2", b"c": b"3"})
        self.assertNotEqual(store, {b"b": b"2", b"c": b"4"})
        self.assertIn(store.popitem(), ((b"b", b"2"), (b"c", b"3")))
        self.assertEqual(len(store), 1)
        store.clear()
        self.assertEqual((dict(store), bool(store)), ({}, False))

    def test_views(self):
        store, _ = lent(Settings())
        keys, items, values = store.keys(), store.items(), store.values()
        store[b"a"] = b"1"
        self.assertEqual((keys & {b"a", b"z"}, items & {(b"a", b"1")}), ({b"a"}, {(b"a", b"1")}))
        self.assertEqual((len(keys), len(items), len(values)), (1, 1, 1))
        self.assertTrue((b"a", b"1") in items and b"1" in values and b"a" in keys)
        self.assertFalse((b"a", b"2") in items or b"2" in values or b"b" in keys or (b"b", b"1") in items)

    def test_edits_while_iterating(self):
        store, _ = lent(Settings())
        store.update((bytes([n]), bytes([n])) for n in range(50))
        for key, record in store.items():
            self.assertEqual(key, record)
            del store[key]
            store[key + b"!"] = record
        for key in store:
            store[key] = b"longer than it was before, so it moves"
        self.assertEqual(set(store), {bytes([n]) + b"!" for n in range(50)})

    def test_items_make_one_check(self):
        store, _ = lent(Settings())
        store.update((bytes([n]), b"") for n in range(50))
        for walk in (store.items, store.values, store.keys, store.entries, store.rows, store.tiers):
            watched = mock.patch("chronicle_map.store.check", wraps=check), mock.patch("chronicle_map.store.call")
            with self.subTest(walk.__name__), watched[0] as checked, watched[1] as called:
                self.assertTrue([None for _ in walk()])
                self.assertEqual((checked.call_count, called.call_count), (1, 0))


class Delays(unittest.TestCase):
    def test_every_pair(self):
        store, _ = lent(Settings(), bulks=0)
        expected = {}
        source = random.Random(6)
        for a, b in combinations(range(1, 33), 2):
            delay = source.choice((2**31 - 1, -2**31 + 1, 0, source.randrange(-10**6, 10**6)))
            given = (a, b, delay) if source.random() < 0.5 else (b, a, -delay)
            store.set_delay(*given)
            expected[a, b], expected[b, a] = delay, -delay
        self.assertEqual(store.counts(), (496, 496, 1, 0))
        self.assertEqual(store.delays(), expected)
        self.assertEqual(len(expected), 992)
        for a, b in permutations(range(1, 33), 2):
            self.assertEqual((store.delay(a, b), store.quick_delay(a, b)), (expected[a, b],) * 2)
        self.assertEqual(store[b"\3\4"], expected[3, 4].to_bytes(4, "little", signed=True))

    def test_absent(self):
        store, _ = lent()
        self.assertEqual((store.delay(1, 2), store.quick_delay(2, 1), store.delays()), (None, None, {}))
        store.set_delay(4, 3, -25)
        self.assertEqual(store.delays(), {(3, 4): 25, (4, 3): -25})
        self.assertEqual(dict(store), {b"\3\4": b"\x19\0\0\0"})

    def test_other_keys_are_no_pairs(self):
        store, _ = lent(Settings())
        store.update({b"\2\1": b"x", b"\1\1": b"y", b"\1\2\0": b"z", b"\1\x21": b"w"})
        self.assertEqual(store.delays(), {})


class OutOfRange(unittest.TestCase):
    def test_channels_do_not_wrap(self):
        store, image = lent()
        store.set_delay(1, 2, 7)
        before = bytes(image)
        for a, b in ((2**32 + 1, 2), (1, 2**32 + 2), (2**64 + 1, 2), (1 - 2**32, 2)):
            for call in (store.delay, store.quick_delay, lambda a, b: store.set_delay(a, b, 5)):
                with self.assertRaises(Refused) as caught:
                    call(a, b)
                self.assertEqual(caught.exception.number, 11)
        self.assertEqual(image, before)

    def test_delays_do_not_wrap(self):
        store, image = lent()
        store.set_delay(1, 2, 7)
        before = bytes(image)
        for delay in (2**32 + 5, 2**31, -2**32 + 5, 2**64 + 5, -2**31):
            with self.assertRaises(Refused) as caught:
                store.set_delay(1, 2, delay)
            self.assertEqual(caught.exception.number, 12)
        self.assertEqual(image, before)
        for delay in (2**31 - 1, -2**31 + 1):
            store.set_delay(1, 2, delay)
            self.assertEqual(store.delay(2, 1), -delay)

    def test_n_does_not_wrap(self):
        store, _ = worked(3)
        self.assertEqual(store.entry(1), Row(0, 1, 2, 1, 1, 2, 4))
        self.assertIsNone(store.entry(2**64 + 1))


class Hash(unittest.TestCase):
    def test_outside_values(self):
        """By xxhsum -H1."""
        due = {
            b"": 0xEF46DB3751D8E999, b"a": 0xD24EC4F1A98C6E5B, b"\x01\x02": 0x7A813DFD3986BE46,
            bytes(range(64)): 0xF7C67301DB6713F0,
        }
        for given, hashed in due.items():
            self.assertEqual(xxh64(given), hashed)
            self.assertEqual(xxh64(bytearray(given)), hashed)

    def test_type(self):
        for given in (5, "a", None):
            self.assertRaises(TypeError, xxh64, given)


class Threads(unittest.TestCase):
    def test_one_call_at_a_time(self):
        """Each call takes its time here, so two threads would meet in one without the store's lock."""
        store, _ = lent(Settings())
        running, met = [], []

        def slow(*arguments):
            running.append(None)
            time.sleep(0.001)
            met.append(len(running))
            number = call(*arguments)
            running.pop()
            return number

        with mock.patch("chronicle_map.store.call", slow):
            self.in_two_threads(store, 15)
        self.assertEqual((set(met), len(met) > 60), ({1}, True))

    def test_two_threads_on_one_store(self):
        store, _ = lent(Settings(slots=4096, chunks=4096, chunk_size=64), bulks=1)
        self.in_two_threads(store, 150)

    def in_two_threads(self, store, calls):
        """Stores, lookups and removals of two threads, each on its own keys, and what is there in the end."""
        failures, expected = [], {}

        def work(name):
            try:
                for n in range(calls):
                    self.one(store, expected, b"%s%d" % (name, n % 40), b"%d" % n * (n % 50), n % 3 == 0)
            except Exception as error:
                failures.append(error)

        threads = [threading.Thread(target=work, args=(name,)) for name in (b"a", b"b")]
        for thread in threads:
            thread.start()
        for thread in threads:
            thread.join()
        self.assertEqual(failures, [])
        self.assertEqual(store, expected)
        self.assertGreater(len(expected), 10)

    def one(self, store, expected, key, record, remove):
        store[key] = expected[key] = record
        if store[key] != record or store.quick_get(key) != record:
            raise AssertionError(key)
        if remove:
            del store[key], expected[key]


if __name__ == "__main__":
    unittest.main()

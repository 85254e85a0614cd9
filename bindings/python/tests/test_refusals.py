"""Every number by which a call refuses, through the Python calls. A refused call leaves every byte as it was."""
import pickle
import unittest

from chronicle_map import Number, Refused, Settings, Store, empty_image
from tests.samples import FOUR, WIDE, X, Folder, lent, worked

KEY = b"\1\2"

# The calls that check the whole image first, and those that do not.
READS = {
    "counts": lambda store: store.counts(),
    "len": len,
    "get item": lambda store: store[KEY],
    "get": lambda store: store.get(KEY),
    "in": lambda store: KEY in store,
    "lookup": lambda store: store.lookup(KEY),
    "view": lambda store: store.view(KEY),
    "iterate": list,
    "keys": lambda store: list(store.keys()),
    "items": lambda store: list(store.items()),
    "values": lambda store: list(store.values()),
    "entry": lambda store: store.entry(0),
    "rows": lambda store: store.rows(),
    "entries": lambda store: store.entries(),
    "tiers": lambda store: store.tiers(),
    "delay": lambda store: store.delay(1, 2),
    "delays": lambda store: store.delays(),
}
EDITS = {
    "set item": lambda store: store.__setitem__(KEY, FOUR),
    "put": lambda store: store.put(KEY, FOUR),
    "put tight": lambda store: store.put(KEY, FOUR, tight=True),
    "del": lambda store: store.__delitem__(KEY),
    "pop": lambda store: store.pop(KEY),
    "clear": lambda store: store.clear(),
    "set_delay": lambda store: store.set_delay(1, 2, 3),
    "grow": lambda store: store.grow(),
}
QUICK = {
    "quick_lookup": lambda store: store.quick_lookup(KEY),
    "quick_get": lambda store: store.quick_get(KEY),
    "quick_delay": lambda store: store.quick_delay(1, 2),
}
CHECKED = {**READS, **EDITS}


class Refusals(unittest.TestCase):
    def refused(self, number, store, call):
        """The call is refused by this number, and the image is as it was."""
        before = bytes(store.image)
        with self.assertRaises(Refused) as caught:
            call(store)
        self.assertIs(caught.exception.number, Number(number))
        self.assertEqual(bytes(store.image), before)
        return caught.exception

    def every_call(self, number, calls, block, image):
        for name, call in calls.items():
            with self.subTest(name, number=number):
                self.refused(number, Store(block, bytearray(image)), call)

    def broken(self, changes, upto=3):
        """The image of a worked case with some bytes changed."""
        image = bytearray(worked(upto)[1])
        for at, byte in changes.items():
            self.assertNotEqual(image[at], byte)
            image[at] = byte
        return image

    def test_2_block(self):
        block, image = X.block(), worked(3)[1]
        wrong = [b"", block[:-1], block + b"\0", b"\1" + block[1:], block[:1] + b"\x44" + block[2:]]
        wrong += [block[:2] + version + block[3:] for version in (b"\0", b"\2")]
        for given in wrong:
            self.every_call(2, {**CHECKED, **QUICK}, given, image)
            self.refused(2, Store(given, image), lambda store: store.settings)
        self.every_call(2, {**CHECKED, **QUICK}, b"", b"")

    def test_3_field(self):
        block, image = X.block(), worked(3)[1]
        for at, byte in ((10, 3), (6, 32), (70, 9)):
            self.every_call(3, {**CHECKED, **QUICK}, block[:at] + bytes([byte]) + block[at + 1:], image)
        wrong = Store(block[:10] + b"\3" + block[11:], image)
        self.refused(3, wrong, lambda store: store.settings)

    def test_4_frame(self):
        fine = worked(3)[1]
        too_long = fine + bytes(2**24 + 1 - len(fine))
        for image in (b"", bytes(32), self.broken({25: 0xEF}), fine[:-1], self.broken({21: 32}), too_long):
            self.every_call(4, {**CHECKED, **QUICK}, X.block(), image)
        self.assertEqual(len(Store(X.block(), too_long[:-1]).rows()), 2)

    def test_5_chains(self):
        for changes in ({80: 1}, {80: 3}, {11: 0}, {16: 1}, {168: 1}, {360: 2}):
            self.every_call(5, CHECKED, X.block(), self.broken(changes))

    def test_6_entries(self):
        for changes in ({100: 2}, {100: 33}, {235: 0x84, 236: 0}, {232: 0}, {234: 7, 104: 1}):
            self.every_call(6, CHECKED, X.block(), self.broken(changes))

    def test_7_chunks(self):
        for changes in ({224: 7}, {224: 1}, {72: 1}, {76: 3}, {296: 1}, {424: 1}):
            self.every_call(7, CHECKED, X.block(), self.broken(changes))

    def test_8_key(self):
        store, _ = worked(4)
        calls = (
            lambda store, key: store.lookup(key), lambda store, key: store[key], lambda store, key: key in store,
            lambda store, key: store.get(key), lambda store, key: store.view(key),
            lambda store, key: store.quick_lookup(key), lambda store, key: store.quick_get(key),
            lambda store, key: store.put(key, FOUR), lambda store, key: store.put(key, bytes(70000), tight=True),
            lambda store, key: store.__delitem__(key),
        )
        for key in (b"", bytes(1025), bytes(70000)):
            for n, call in enumerate(calls):
                with self.subTest(n, length=len(key)):
                    self.refused(8, store, lambda store: call(store, key))
        self.assertFalse(store.lookup(bytes(1024)).found)

    def test_9_value(self):
        store, _ = worked(4)
        for tight in (False, True):
            for key, length in ((KEY, 29), (b"\7\7", 29), (KEY, 65536), (bytes(1024), 0)):
                with self.subTest(tight=tight, key=len(key), length=length):
                    self.refused(9, store, lambda store: store.put(key, bytes(length), tight))
        tiny, _ = lent(Settings(chunk_size=1, most_chunks=7))
        self.refused(9, tiny, lambda store: store.set_delay(1, 2, 3))

    def test_10_full(self):
        store, _ = worked(6)
        self.refused(10, store, lambda store: store.put(b"\6\1", FOUR))
        self.refused(10, store, lambda store: store.put(b"\6\1", FOUR, tight=True))
        self.refused(10, store, lambda store: store.set_delay(6, 7, 1))
        self.refused(10, store, lambda store: store.update({b"\6\1": FOUR}))
        store.put(b"\5\1", b"1234")

    def test_11_pair(self):
        store, _ = worked(6)
        outside = ((257, 2), (-1, 2), (2**32 + 1, 2), (1, 2**32 + 2), (1, -2**70))
        for a, b in ((0, 1), (1, 0), (33, 1), (1, 33), (5, 5)) + outside:
            with self.subTest(a=a, b=b):
                self.refused(11, store, lambda store: store.delay(a, b))
                self.refused(11, store, lambda store: store.quick_delay(a, b))
                self.refused(11, store, lambda store: store.set_delay(a, b, 1))
                self.refused(11, store, lambda store: store.set_delay(a, b, -2**31))

    def test_12_delay(self):
        store, _ = worked(6)
        for delay in (-2**31, -2**31 - 1, 2**31, 2**32 + 5, -2**70, 2**70):
            with self.subTest(delay=delay):
                self.refused(12, store, lambda store: store.set_delay(1, 2, delay))
                self.refused(12, store, lambda store: store.set_delay(30, 31, delay))
        for record in (b"", b"123", b"12345", b"\0\0\0\x80"):
            with self.subTest(record=record):
                store = worked(1)[0]
                store[KEY] = record
                for call in (lambda store: store.delay(2, 1), lambda store: store.quick_delay(2, 1)):
                    self.assertIn("channels 2 and 1", str(self.refused(12, store, call)))
                self.assertIn("channels 1 and 2", str(self.refused(12, store, lambda store: store.delays())))

    def test_13_no_bulk(self):
        self.refused(13, worked(4)[0], lambda store: store.grow())
        short = Store(X.block(), worked(4)[1] + bytes(199))
        self.refused(13, short, lambda store: store.grow())
        Store(X.block(), worked(4)[1] + bytes(200)).grow()
        most = Settings(segments=64, slots=4, chunks=1, bulk_tiers=64)
        self.refused(13, Store(most.block(), empty_image(most, bulks=15, room=1)), lambda store: store.grow())

    def test_18_walk(self):
        for changes in ({80: 3}, {80: 1}, {235: 0x84, 236: 0}, {100: 0x11}, {232: 0}):
            with self.subTest(changes):
                image = self.broken(changes, upto=3)
                for call in (
                    lambda store: store.quick_lookup(b"\3\1"), lambda store: store.quick_get(b"\3\1"),
                    lambda store: store.quick_delay(1, 3),
                ):
                    self.refused(18, Store(X.block(), bytearray(image)), call)

    def test_quick_calls_do_not_check_the_rest(self):
        store = Store(X.block(), self.broken({224: 7, 72: 9}))
        self.assertEqual(store.quick_get(KEY), FOUR)
        self.assertEqual(store.quick_delay(2, 1), -16)
        self.refused(7, store, lambda store: store[KEY])

    def test_order(self):
        full, _ = worked(6)
        self.refused(8, full, lambda store: store.put(b"", bytes(70000)))
        self.refused(9, full, lambda store: store.put(b"\6\1", bytes(29)))
        self.refused(11, full, lambda store: store.set_delay(6, 6, -2**31))
        self.refused(12, full, lambda store: store.set_delay(6, 7, -2**31))
        self.refused(7, Store(X.block(), self.broken({224: 7})), lambda store: store.put(b"", FOUR))
        self.refused(7, Store(X.block(), self.broken({224: 7})), lambda store: store.set_delay(0, 0, -2**40))
        self.refused(7, Store(X.block(), self.broken({224: 7})), lambda store: store.entry(2**80))


class ReadOnlyAndClosed(unittest.TestCase):
    def test_read_only(self):
        image = bytes(worked(3)[1])
        for given in (image, memoryview(bytearray(image)).toreadonly()):
            store = Store(X.block(), given)
            for name, call in EDITS.items():
                with self.subTest(name), self.assertRaisesRegex(TypeError, "^this store is read-only$"):
                    call(store)
            for name, call in {**READS, **QUICK}.items():
                with self.subTest(name):
                    call(store)
            self.assertEqual(bytes(store.image), image)

    def test_closed(self):
        store, image = worked(3)
        before = bytes(image)
        store.close()
        store.close()
        more = {
            "image": lambda store: store.image, "flush": lambda store: store.flush(),
            "with": lambda store: store.__enter__(),
        }
        for name, call in {**READS, **EDITS, **QUICK, **more}.items():
            with self.subTest(name), self.assertRaisesRegex(ValueError, "^the store is closed$"):
                call(store)
        self.assertEqual(image, before)
        self.assertEqual(store.block, X.block())


class Files(Folder):
    def test_every_length(self):
        content = X.block() + worked(3)[1]
        for length in (0, 1, 2, 3, 70):
            self.every_call(2, content[:length])
        for length in (71, 72, 71 + 32, 71 + 495):
            self.every_call(4, content[:length])

    def every_call(self, number, content):
        path = self.written(content)
        for writable in (False, True):
            with Store.open(path, writable) as store:
                self.assertEqual((store.block, bytes(store.image)), (content[:71], content[71:]))
                for name, call in (CHECKED if writable else READS).items():
                    with self.subTest(name, length=len(content)), self.assertRaises(Refused) as caught:
                        call(store)
                    self.assertEqual(caught.exception.number, number)
            self.assertEqual(self.content(), content)

    def test_refused_image_in_a_file(self):
        image = bytearray(worked(3)[1])
        image[224] = 7
        self.every_call(7, X.block() + image)


class Errors(unittest.TestCase):
    def test_refused(self):
        refused = Refused(8)
        self.assertIsInstance(refused, ValueError)
        self.assertEqual(f"{refused.number} {refused.number!s}", "8 8")
        self.assertEqual(str(refused), "refused 8: the key is empty or longer than 1,024 bytes")
        self.assertEqual((refused.number, refused.about), (8, None))
        again = pickle.loads(pickle.dumps(Refused(Number.DELAY, "channels 1 and 2")))
        self.assertEqual((again.number, again.about), (Number.DELAY, "channels 1 and 2"))
        with self.assertRaises(ValueError):
            Refused(14)

    def test_numbers_are_those_of_the_header(self):
        expected = "DONE ABSENT BLOCK FIELD FRAME CHAINS ENTRIES CHUNKS KEY VALUE FULL PAIR DELAY NO_BULK".split()
        self.assertEqual([number.name for number in Number], expected + ["WALK"])
        self.assertEqual([int(number) for number in Number], [*range(14), 18])
        self.assertEqual(len({number.sentence for number in Number}), 15)

    def test_types(self):
        store, image = worked(3)
        before = bytes(image)
        for wrong in (5, "ab", None, 1.5, [1, 2]):
            for call in (
                lambda: store[wrong], lambda: wrong in store, lambda: store.get(wrong), lambda: store.view(wrong),
                lambda: store.lookup(wrong), lambda: store.quick_get(wrong), lambda: store.put(wrong, FOUR),
                lambda: store.put(KEY, wrong), lambda: store.__delitem__(wrong), lambda: Store(wrong, image),
                lambda: Store(X.block(), wrong),
            ):
                with self.subTest(wrong), self.assertRaisesRegex(TypeError, "must be bytes-like, not "):
                    call()
        for wrong in ("1", 1.0, None, b"\1"):
            for call in (
                lambda: store.delay(wrong, 2), lambda: store.delay(1, wrong), lambda: store.quick_delay(1, wrong),
                lambda: store.set_delay(1, 2, wrong), lambda: store.set_delay(wrong, 2, 1), lambda: store.entry(wrong),
            ):
                with self.subTest(wrong), self.assertRaises(TypeError):
                    call()
        self.assertEqual(image, before)

    def test_entry_numbers(self):
        store, _ = worked(3)
        for n in (-1, -2**70):
            with self.assertRaises(ValueError):
                store.entry(n)
        for n in (2, 2**32, 2**64 - 1, 2**64, 2**64 + 1, 2**80):
            self.assertIsNone(store.entry(n))

    def test_absent_is_a_key_error(self):
        store, image = lent(WIDE)
        before = bytes(image)
        for call in (
            lambda: store[KEY], lambda: store.view(memoryview(KEY)), lambda: store.__delitem__(bytearray(KEY)),
            lambda: store.pop(KEY), lambda: store.popitem(),
        ):
            with self.assertRaises(KeyError):
                call()
        self.assertEqual(image, before)


if __name__ == "__main__":
    unittest.main()

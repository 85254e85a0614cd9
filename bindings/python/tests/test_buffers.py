"""Stores over buffers of all kinds, and the views that they give."""
import array
import gc
import mmap
import os
import unittest

from chronicle_map import Refused, Settings, Store, empty_image
from chronicle_map.memory import Memory
from tests.samples import FOUR, X, Folder, lent, mappings, worked

try:
    import numpy
except ImportError:
    numpy = None


class Buffers(Folder):
    def edited_in_place(self, buffer):
        """A store of X over this buffer, whose bytes the edit changes."""
        with Store(X.block(), buffer) as store:
            store[b"\1\2"] = FOUR
            self.assertEqual(store[b"\1\2"], FOUR)
            self.assertEqual(bytes(memoryview(buffer).cast("B")[232:240]), b"\2\1\2\4" + FOUR)
            self.assertTrue(store.image.readonly)

    def test_writable(self):
        image = bytes(empty_image(X, 1))
        for buffer in (
            bytearray(image), memoryview(bytearray(image)), array.array("B", image), array.array("I", image),
            memoryview(bytearray(b"ab" + image + b"c"))[2:-1], memoryview(bytearray(image)).cast("Q"),
            memoryview(bytearray(image)).cast("B", [4, 124]), mapping_of(image),
        ):
            with self.subTest(type(buffer).__name__):
                self.edited_in_place(buffer)

    def test_mapping_of_a_file(self):
        with open(self.written(bytes(empty_image(X, 1))), "r+b") as file:
            mapping = mmap.mmap(file.fileno(), 0)
        self.edited_in_place(mapping)
        mapping.close()
        self.assertEqual(self.content()[232:240], b"\2\1\2\4" + FOUR)

    @unittest.skipIf(numpy is None, "numpy is not installed")
    def test_numpy(self):
        image = bytes(empty_image(X, 1))
        for kind in ("u1", "<u4", ">u4", "<f8"):
            given = numpy.frombuffer(bytearray(image), kind)
            with Store(X.block(), given) as store:
                store[b"\1\2"] = FOUR
            self.assertEqual(given.tobytes()[232:240], b"\2\1\2\4" + FOUR)
        with self.assertRaisesRegex(TypeError, "one piece"):
            Store(X.block(), numpy.zeros((4, 4), "u1")[:, :2])
        with Store(X.block(), numpy.zeros((0, 3), "u4")) as store, self.assertRaises(Refused):
            store.counts()

    def test_read_only(self):
        image = bytes(worked(3)[1])
        for buffer in (
            image, memoryview(image), memoryview(bytearray(image)).toreadonly(), memoryview(b"ab" + image)[2:],
            mapping_of(image, mmap.ACCESS_READ), memoryview(image).cast("I"),
        ):
            with self.subTest(type(buffer).__name__), Store(X.block(), buffer) as store:
                self.assertEqual((len(store), store.delay(2, 1)), (2, -16))
                self.assertEqual(store.image, image)
                with self.assertRaisesRegex(TypeError, "^this store is read-only$"):
                    store[b"\1\2"] = FOUR
        self.assertEqual(image, worked(3)[1])

    def test_bytes_are_not_copied(self):
        image = bytes(worked(3)[1])
        for buffer in (image, memoryview(image), memoryview(image).cast("I")):
            self.assertIs(Memory(buffer).view.obj, image)
        other = bytearray(image)
        memory = Memory(other)
        other[100] ^= 255
        self.assertEqual(memory.view, other)

    def test_empty(self):
        for buffer in (b"", bytearray(), array.array("I"), memoryview(b""), memoryview(b"abc")[3:]):
            self.assertGreater(Memory(buffer).address, 0)
            for block, refusal in ((b"", 2), (X.block(), 4)):
                with self.subTest(type(buffer).__name__), Store(block, buffer) as store:
                    for call in (store.counts, store.rows, lambda: store.quick_get(b"k")):
                        with self.assertRaises(Refused) as caught:
                            call()
                        self.assertEqual(caught.exception.number, refusal)
                    self.assertEqual(bytes(store.image), b"")

    def test_not_in_one_piece(self):
        for buffer in (memoryview(bytearray(992))[::2], memoryview(bytes(992))[::-1]):
            with self.assertRaisesRegex(TypeError, "one piece"):
                Store(X.block(), buffer)

    def test_keys_of_all_kinds(self):
        store, _ = lent(Settings())
        key, record = b"abcd", b"12345678"
        for given in (bytearray(key), memoryview(key), array.array("B", key), memoryview(b"a.b.c.d")[::2]):
            store[given] = memoryview(bytearray(record))[::-1]
            self.assertEqual(store, {key: record[::-1]})
            self.assertTrue(given in store and store.get(given) == record[::-1])
            del store[given]
        named = type("Named", (bytes,), {})
        store[named(key)] = named(record)
        self.assertEqual(store, {key: record})

    def test_owner_may_change_but_not_resize(self):
        store, image = lent()
        image[224] = 1
        with self.assertRaises(Refused):
            store.counts()
        image[224] = 0
        self.assertEqual(len(store), 0)
        with self.assertRaises(BufferError):
            image.append(0)
        store.close()
        image.append(0)
        self.assertEqual(len(image), 497)
        empty = bytearray()
        with Store(X.block(), empty), self.assertRaises(BufferError):
            empty.append(0)
        empty.append(0)


def mapping_of(content, access=mmap.ACCESS_WRITE):
    """These bytes in memory of their own, mapped from no file or, to be read only, from one without a name."""
    if access == mmap.ACCESS_WRITE:
        mapping = mmap.mmap(-1, len(content))
        mapping[:] = content
        return mapping
    file = os.memfd_create("image")
    os.write(file, content)
    try:
        return mmap.mmap(file, 0, access=access)
    finally:
        os.close(file)


class Views(Folder):
    def test_a_part_of_the_image(self):
        store, image = worked(3)
        view = store.view(b"\1\2")
        self.assertEqual((bytes(view.record), view.place), (FOUR, (236, 4, 1, 1)))
        self.assertTrue(view.record.readonly)
        with self.assertRaises(TypeError):
            view.record[0] = 1
        store[b"\1\2"] = b"spot"
        self.assertEqual(view.record, b"spot")
        image[236] = 0
        self.assertEqual(view.record, b"\0pot")

    def test_empty_record(self):
        store, image = lent()
        store[b"\1\2"] = b""
        view = store.view(b"\1\2")
        self.assertEqual((bytes(view.record), view.place), (b"", (236, 0, 1, 1)))
        self.assertEqual((store[b"\1\2"], store.quick_get(b"\1\2"), store.get(b"\1\3")), (b"", b"", None))

    def test_key_and_record_in_the_image(self):
        store, _ = worked(2)
        inside = store.image
        key, record = inside[233:235], inside[236:240]
        self.assertEqual((bytes(key), bytes(record), store[key]), (b"\1\2", FOUR, FOUR))
        store[record] = record
        self.assertEqual(dict(store), {b"\1\2": FOUR, FOUR: FOUR})
        entry = bytes(inside[232:241])
        store[key] = inside[232:241]
        self.assertEqual(dict(store), {b"\1\2": entry, FOUR: FOUR})
        at = store.lookup(b"\1\2").place.offset
        store.put(inside[at - 3:at - 1], inside[at - 4:at], tight=True)
        self.assertEqual(dict(store), {b"\1\2": entry[:3] + b"\x09", FOUR: FOUR})
        at = store.lookup(FOUR).place.offset
        del store[inside[at - 5:at - 1]]
        self.assertEqual(set(store), {b"\1\2"})

    def test_buffer_closed_with_views_held(self):
        store, image = worked(3)
        view = store.view(b"\1\2").record
        store.close()
        self.assertEqual(view, FOUR)
        with self.assertRaises(BufferError):
            image.append(0)
        view.release()
        image.append(0)

    def test_file_closed_with_views_held(self):
        path = self.written(X.block() + worked(3)[1])
        for writable in (False, True):
            store = Store.open(path, writable)
            view, image = store.view(b"\1\2").record, store.image
            store.close()
            self.assertEqual(mappings(path), 1)
            self.assertEqual((view, image), (FOUR, worked(3)[1]))
            del view, image
            self.assertEqual(mappings(path), 0)

    def test_shorter_mapping_goes_with_its_last_view(self):
        with Store.create(self.path(), X) as store:
            image = store.image
            store.grow()
            store[b"\1\2"] = FOUR
            self.assertEqual(image[232:240], b"\2\1\2\4" + FOUR)
            self.assertEqual(mappings(self.path()), 2)
            del image
            self.assertEqual(mappings(self.path()), 1)
            store.grow()
            self.assertEqual(mappings(self.path()), 1)

    def test_closed_with_an_error_kept(self):
        """An error keeps what the call that raised it was about. That must not keep the memory."""
        store, image = worked(3)
        image[224] = 7
        path = self.written(X.block() + image)
        file = Store.open(path, writable=True)
        errors = []
        for call in (store.counts, store.rows, store.grow, file.counts, file.rows, file.grow):
            try:
                call()
            except Refused as refused:
                errors.append(refused)
        store.close()
        file.close()
        image.append(0)
        self.assertEqual((mappings(path), len(errors)), (0, 6))

    def test_forgotten_stores_leave_nothing(self):
        path = self.written(X.block() + worked(3)[1])
        store = Store.open(path)
        self.assertEqual(len(store), 2)
        with self.assertWarns(ResourceWarning):
            del store
            gc.collect()
        self.assertEqual(mappings(path), 0)

    def test_repr(self):
        store, _ = worked(1)
        self.assertEqual(repr(store), "<Store, 496 bytes, writable>")
        store.close()
        self.assertEqual(repr(store), "<Store, closed>")


if __name__ == "__main__":
    unittest.main()

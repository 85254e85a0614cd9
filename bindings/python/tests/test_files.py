"""Stores in files: opened, made, changed through the mapping, grown."""
import contextlib
import fcntl
import os
import random
import unittest
import warnings
from unittest import mock

from chronicle_map import Refused, Settings, Store, empty_image
from tests.samples import FOUR, WIDE, X, Folder, lines, listed, lister, mappings, worked


class Files(Folder):
    def test_changed_through_the_mapping(self):
        path = self.path()
        with Store.create(path, X, bulks=1) as store:
            store[b"\1\2"], store[b"\2\1"] = b"\x10\0\0\0", b"\xf0\xff\xff\xff"
            store.flush()
            self.assertEqual(self.content(), X.block() + worked(3)[1])
        self.assertEqual(self.content(), X.block() + worked(3)[1])
        with Store.open(path, writable=True) as store:
            del store[b"\1\2"]
        with Store.open(path) as store:
            self.assertEqual(dict(store), {b"\2\1": b"\xf0\xff\xff\xff"})
            self.assertEqual((store.settings, store.block, len(store.image)), (X, X.block(), 496))

    def test_read_back_by_the_lister(self):
        lister()
        with Store.create(self.path(), WIDE, bulks=2) as store:
            source = random.Random(7)
            for _ in range(80):
                key = bytes([source.randrange(60)])
                if key in store and source.random() < 0.4:
                    del store[key]
                else:
                    store.put(key, bytes(source.randrange(30)), tight=source.random() < 0.5)
            store.grow()
            store.set_delay(4, 3, -25)
            expected = lines(store)
        self.assertEqual(listed(self.content()), expected)
        self.assertGreater(expected.count("\n"), 20)
        content = bytearray(self.content())
        content[71 + WIDE.global_at + 25] ^= 1
        self.assertEqual(listed(content), "refused 4\n")

    def test_create(self):
        path = self.written(b"mine")
        with self.assertRaises(FileExistsError):
            Store.create(path, X)
        self.assertEqual(self.content(), b"mine")
        for settings, bulks, refusal in ((Settings(segments=3), 0, 3), (X, 1100, 4)):
            with self.assertRaises(Refused) as caught:
                Store.create(self.path("b.store"), settings, bulks)
            self.assertEqual(caught.exception.number, refusal)
        self.assertEqual(os.listdir(self.folder), ["a.store"])
        with Store.create(self.path("b.store"), WIDE, bulks=1, room=2) as store:
            self.assertEqual(store.image, empty_image(WIDE, 1, 2))

    def test_create_that_cannot_be_written(self):
        with mock.patch("builtins.open", side_effect=lambda path, mode: _Full(path, mode)):
            with self.assertRaisesRegex(OSError, "disk is full"):
                Store.create(self.path(), X)
        self.assertEqual(os.listdir(self.folder), [])

    def test_read_only_never_writes(self):
        content = X.block() + worked(3)[1]
        path = self.written(content)
        os.chmod(path, 0o444)
        before = os.stat(path).st_mtime_ns
        with Store.open(path) as store:
            self.assertTrue(store.image.readonly)
            self.assertEqual(set(access_modes(path)), {os.O_RDONLY})
            for call in (
                lambda: store.put(b"\1\2", b"new!"), lambda: store.set_delay(1, 2, 3), lambda: store.grow(),
                lambda: store.__delitem__(b"\1\2"), lambda: store.clear(), lambda: store.update({b"\1\2": b"new!"}),
            ):
                with self.assertRaises(TypeError):
                    call()
            self.assertEqual((len(store), store.delay(2, 1)), (2, -16))
            store.flush()
        self.assertEqual((self.content(), os.stat(path).st_mtime_ns), (content, before))

    def test_what_cannot_be_opened(self):
        with self.assertRaises(FileNotFoundError):
            Store.open(self.path("none"))
        with self.assertRaises(IsADirectoryError):
            Store.open(self.folder)
        with self.assertRaisesRegex(OSError, "/dev/null is not a regular file"):
            Store.open("/dev/null")

    def test_nothing_is_left_open(self):
        path = self.written(X.block() + worked(3)[1])
        before = os.listdir("/proc/self/fd")
        for writable in (False, True):
            with warnings.catch_warnings(record=True) as warned:
                warnings.simplefilter("always")
                with Store.open(path, writable) as store:
                    self.assertEqual(len(store), 2)
                del store
            self.assertEqual(warned, [])
        self.assertEqual(os.listdir("/proc/self/fd"), before)
        self.assertEqual(mappings(path), 0)


def access_modes(path):
    """How the file is open in this process, each time that it is."""
    for number in os.listdir("/proc/self/fd"):
        with contextlib.suppress(OSError):
            if os.readlink(f"/proc/self/fd/{number}") == path:
                yield fcntl.fcntl(int(number), fcntl.F_GETFL) & os.O_ACCMODE


class _Full:
    """A file on a full disk."""

    def __init__(self, path, mode):
        self.file = os.open(path, os.O_CREAT | os.O_EXCL)

    def __enter__(self):
        return self

    def write(self, content):
        raise OSError("the disk is full")

    def __exit__(self, *error):
        os.close(self.file)


class Grow(Folder):
    def test_a_file_is_made_longer(self):
        path = self.path()
        with Store.create(path, X) as store:
            for n in range(1, 3):
                store[bytes([n])] = FOUR
            views = [store.view(b"\1").record, store.image]
            for bulks in range(1, 4):
                store.grow()
                self.assertEqual(os.path.getsize(path), 71 + 296 + 200 * bulks)
                self.assertEqual((store.counts().free, len(store.image)), (bulks, 296 + 200 * bulks))
                views.append(store.image)
            store.update((bytes([n]), FOUR) for n in range(1, 13))
            self.assertEqual((len(store), store.counts()[2:]), (12, (4, 0)))
            self.assertEqual((bytes(views[0]), [len(view) for view in views[1:]]), (FOUR, [296, 496, 696, 896]))
            self.assertEqual(views[1], views[4][:296])
            expected = dict(store)
        with Store.open(path) as store:
            self.assertEqual(dict(store), expected)

    def test_room_is_used_first(self):
        with Store.create(self.path(), X, room=1) as store:
            store.grow()
            self.assertEqual(os.path.getsize(self.path()), 71 + 496)
        path = self.written(X.block() + empty_image(X) + b"trailing", "b.store")
        with Store.open(path, writable=True) as store:
            store.grow()
        self.assertEqual(os.path.getsize(path), 71 + 496)

    def test_too_many_tiers(self):
        most = Settings(segments=64, slots=4, chunks=1, bulk_tiers=64)
        with Store.create(self.path(), most, bulks=15) as store:
            store[b"k"] = b""
            before = self.content()
            self.refused(store, 13)
            self.assertEqual(self.content(), before)
            store[b"k"] = b"1"
            self.assertEqual(dict(store), {b"k": b"1"})

    def test_too_long(self):
        large = Settings(slots=4, chunks=1, bulk_size=16_000_000)
        with Store.create(self.path(), large) as store:
            store.grow()
            before = os.path.getsize(self.path())
            self.refused(store, 13)
            self.assertEqual((os.path.getsize(self.path()), store.counts().free), (before, 1))

    def test_refused_image(self):
        image = empty_image(X)
        image[224] = 1
        path = self.written(X.block() + image)
        with Store.open(path, writable=True) as store:
            self.refused(store, 7)
        self.assertEqual(self.content(), X.block() + image)

    def test_no_room_on_the_disk(self):
        def longer_and_no_more(file, start, length):
            os.ftruncate(file, start + length - 5)
            raise OSError("the disk is full")

        with Store.create(self.path(), X) as store:
            before = self.content()
            with mock.patch("os.posix_fallocate", longer_and_no_more), self.assertRaisesRegex(OSError, "disk is full"):
                store.grow()
            self.assertEqual(self.content(), before)
            store.grow()
            self.assertEqual(store.counts().free, 1)

    def refused(self, store, expected):
        with self.assertRaises(Refused) as caught:
            store.grow()
        self.assertEqual(caught.exception.number, expected)


if __name__ == "__main__":
    unittest.main()

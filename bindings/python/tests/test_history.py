"""Random histories of calls, held to a dict."""
import random
import unittest
from collections import Counter

from chronicle_map import Number, Refused, Settings
from tests.samples import LONG, WIDE, X, lent


class History:
    """Calls on a store and on a dict. Each answer of the store is held to the dict's."""

    def __init__(self, test, settings, bulks, room, keys, most_record, seed):
        self.test, self.settings = test, settings
        self.store, self.image = lent(settings, bulks, room)
        self.expected, self.seen = {}, Counter()
        self.random = random.Random(seed)
        self.keys, self.most_record = keys, most_record

    def run(self, calls):
        kinds = [self.put] * 5 + [self.remove] * 2 + [self.look_up] * 3 + [self.set_delay] + [self.too_long]
        for n in range(calls):
            self.random.choice(kinds)()
            if n % 40 == 0:
                self.compare()
        self.compare()

    def unchanged(self, refusal, call, *arguments):
        before = bytes(self.image)
        with self.test.assertRaises(Refused) as caught:
            call(*arguments)
        self.test.assertEqual(caught.exception.number, refusal)
        self.test.assertEqual(self.image, before)
        self.seen[refusal] += 1

    def stored(self, key, record, call):
        """A store, or a grow where there is no room; with no room for a bulk either, the store is full."""
        before = bytes(self.image)
        try:
            call()
        except Refused as refused:
            self.test.assertEqual(refused.number, Number.FULL)
            self.test.assertEqual(self.image, before)
            self.test.assertEqual(self.store.counts().free, 0)
            self.seen["full"] += 1
            self.grow()
        else:
            self.seen["replaced" if key in self.expected else "stored"] += 1
            self.expected[key] = record

    def grow(self):
        if self.random.random() < 0.3:
            rows = self.store.rows()
            try:
                self.store.grow()
                self.seen["grown"] += 1
            except Refused as refused:
                self.test.assertEqual(refused.number, Number.NO_BULK)
                self.seen["no bulk"] += 1
            self.test.assertEqual(self.store.rows(), rows)

    def put(self):
        key, tight = self.random.choice(self.keys), self.random.random() < 0.5
        length = self.random.choice((0, 4, 4, self.random.randrange(60)))
        record = bytes(self.random.randrange(256) for _ in range(length))
        if self.random.random() < 0.1:
            record = bytes(self.random.randrange(self.most_record))
        size = sum(len(part) + 1 + (len(part) > 127) + (len(part) > 16383) for part in (key, record))
        if -(-size // self.settings.chunk_size) > self.settings.most_chunks:
            self.unchanged(Number.VALUE, self.store.put, key, record, tight)
        elif tight or self.random.random() < 0.5:
            self.stored(key, record, lambda: self.store.put(key, record, tight))
        else:
            self.stored(key, record, lambda: self.store.__setitem__(key, record))

    def set_delay(self):
        a, b = self.random.sample(range(1, 33), 2)
        delay = self.random.choice((0, 1, 2**31 - 1, self.random.randrange(-2**31 + 1, 2**31)))
        record = (delay if a < b else -delay).to_bytes(4, "little", signed=True)
        self.stored(bytes(sorted((a, b))), record, lambda: self.store.set_delay(a, b, delay))

    def remove(self):
        key = self.random.choice(list(self.expected) if self.expected and self.random.random() < 0.8 else self.keys)
        before = bytes(self.image)
        if key in self.expected:
            del self.store[key]
            del self.expected[key]
            self.seen["removed"] += 1
        else:
            with self.test.assertRaises(KeyError):
                del self.store[key]
            self.test.assertEqual(self.image, before)
            self.seen["absent"] += 1

    def look_up(self):
        test, store, key = self.test, self.store, self.random.choice(self.keys)
        record = self.expected.get(key)
        found, place = store.lookup(key)
        test.assertEqual(store.quick_lookup(key), (found, place))
        test.assertEqual((found, key in store), (record is not None,) * 2)
        test.assertEqual((store.get(key), store.quick_get(key)), (record, record))
        test.assertEqual((store.get(key, b"?"), store.quick_get(key, b"?")), (record if found else b"?",) * 2)
        if found:
            view = store.view(key)
            test.assertEqual((view.record, view.place), (record, place))
            test.assertEqual(self.image[place.offset:place.offset + place.length], record)
        else:
            test.assertEqual(place[:2], (0, 0))
        self.seen["found" if found else "missed"] += 1

    def too_long(self):
        key = self.random.choice((b"", bytes(1025)))
        self.unchanged(Number.KEY, self.store.__delitem__, key)
        self.unchanged(Number.KEY, self.store.put, key, b"")

    def compare(self):
        """The whole store by every call that lists it."""
        test, store, expected = self.test, self.store, self.expected
        rows = store.rows()
        test.assertEqual([store.entry(n) for n in range(len(rows) + 1)], rows + [None])
        items = list(store.items())
        test.assertEqual((len(items), dict(items)), (len(expected), expected))
        test.assertEqual((list(store), list(store.values())), ([k for k, _ in items], [v for _, v in items]))
        entries = store.entries()
        test.assertEqual([(entry.row, (entry.key, entry.record)) for entry in entries], list(zip(rows, items)))
        self.compare_tiers(entries)
        test.assertEqual((len(store), store == expected, list(store.keys())), (len(expected), True, list(store)))

    def compare_tiers(self, entries):
        test, tiers, settings = self.test, self.store.tiers(), self.settings
        chained = [tier for tier in tiers if tier.segment is not None]
        free = tiers[len(chained):]
        counts = len(entries), sum(entry.row.chunks for entry in entries), len(chained), len(free)
        test.assertEqual(self.store.counts(), counts)
        test.assertEqual([entry for tier in chained for entry in tier.entries], entries)
        test.assertTrue(all((e.row.tier, e.row.segment) == (t.tier, t.segment) for t in chained for e in t.entries))
        test.assertEqual([tier[1:] for tier in free], [(None, order, ()) for order in range(len(free))])
        test.assertEqual([t.tier for t in chained if not t.order], list(range(1, settings.segments + 1)))
        order = [(tier.segment, tier.order) for tier in chained]
        test.assertEqual(order, sorted(set(order)))
        test.assertEqual(sorted(tier.tier for tier in tiers), list(range(1, len(tiers) + 1)))


def short_keys(count, lengths=(1, 2, 3)):
    source = random.Random(5)
    return [bytes(source.randrange(256) for _ in range(source.choice(lengths))) for _ in range(count)]


class Histories(unittest.TestCase):
    def history(self, calls, *arguments):
        history = History(self, *arguments)
        history.run(calls)
        for what in ("stored", "replaced", "removed", "absent", "found", "missed", Number.KEY):
            self.assertGreater(history.seen[what], 5, what)
        return history.seen

    def test_worked_store(self):
        seen = self.history(1500, X, 1, 4, short_keys(40), 80, 1)
        self.assertGreater(min(seen["full"], seen["no bulk"], seen[Number.VALUE]), 20)
        self.assertEqual(seen["grown"], 4)

    def test_wide(self):
        seen = self.history(1500, WIDE, 0, 5, short_keys(150, (1, 2, 5, 20, 40)), 100, 2)
        self.assertGreater(min(seen["full"], seen["no bulk"], seen[Number.VALUE]), 5)
        self.assertEqual(seen["grown"], 5)

    def test_long_records(self):
        keys = short_keys(60, (1, 127, 128, 200, 1024))
        seen = self.history(800, LONG, 2, 1, keys, 65536, 3)
        self.assertGreater(min(seen["full"], seen[Number.VALUE]), 5)

    def test_defaults(self):
        seen = self.history(1000, Settings(), 1, 0, short_keys(300), 600, 4)
        self.assertEqual(seen["full"], 0)

    def test_many_tiers(self):
        many = Settings(segments=2, slots=4, chunks=6, chunk_size=16, bulk_tiers=5)
        seen = self.history(1200, many, 1, 6, short_keys(90), 60, 5)
        self.assertGreater(seen["grown"], 2)


if __name__ == "__main__":
    unittest.main()

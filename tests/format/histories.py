"""Edits by the library on images that the page's tables made. After each edit the image must read by the tables too."""
import collections
import random
import unittest

import chronicle_map
from blocks import holds
from common import FORM, PAGE
from images import FILLER, empty_image, with_gaps
from page import plain
from sample import key_parts

PARTS = ("key length", "key", "record length", "record")
# What has to come up in the histories, or they say too little.
EVENTS = {"a tier joined", "a tier left its chain", "a chain of three", "a bulk more", "answered 10", "answered 13"}


class Histories(unittest.TestCase):
    def test_histories(self):
        self.met = collections.Counter()
        for seed in range(10):
            with self.subTest(seed=seed):
                self.history(random.Random(seed))
        self.assertEqual(set(self.met), EVENTS)

    def history(self, draw):
        fields = with_gaps(draw)
        self.assertTrue(holds(fields))
        bulks, room = draw.randrange(3), 2 * fields["bulkSize"] + draw.randrange(9)
        image = empty_image(fields, bulks, draw.randint(97, 120), room)
        store = chronicle_map.Store(FORM.block(fields), image)
        self.assertEqual(tuple(store.counts()), (0, 0, fields["segments"], bulks * fields["bulkTiers"]))
        kept = {}
        for _ in range(60):
            before = FORM.layout(fields, image).names
            key = self.edit(draw, store, kept)
            layout = FORM.layout(fields, image)
            self.note(before, layout.names)
            self.reads(layout, store, kept)
            self.finds(layout, store, key)

    def edit(self, draw, store, kept):
        """One call. The library may say that there is no room. Gives the key of the call."""
        key = bytes([draw.randrange(1, 25)]) * draw.randint(1, 2)
        record = bytes(draw.randrange(256) for _ in range(draw.randrange(14)))
        call = draw.choice(("store", "store", "tight store", "remove", "grow"))
        try:
            if call == "grow":
                store.grow()
            elif call == "remove":
                if kept.pop(key, None) is not None:
                    del store[key]
            else:
                store.put(key, record, tight=call == "tight store")
                kept[key] = record
        except chronicle_map.Refused as refused:
            self.met["answered %d" % refused.number] += 1
        return key

    def note(self, before, after):
        used = after["usedTiers"] - before["usedTiers"]
        self.met.update(["a tier joined"] * (used > 0) + ["a tier left its chain"] * (used < 0))
        self.met.update(["a bulk more"] * (after["bulkCount"] - before["bulkCount"]))

    def reads(self, layout, store, kept):
        """The whole image: what nobody touches, the entries, bits and counters, the chains."""
        for unread in layout.untouched():
            self.assertEqual(set(layout.image[unread.start:unread.stop]) - {FILLER}, set(), unread)
        rows = [store.entry(n) for n in range(len(kept))]
        self.assertIsNone(store.entry(len(kept)))
        self.assertEqual(dict(self.entry(layout, row) for row in rows), kept)
        orders = [(row.segment, layout.read(layout.counter(row.tier, "order")), row.slot) for row in rows]
        self.assertEqual(orders, sorted(orders))
        for tier in range(1, layout.names["tiers"] + 1):
            self.counters(layout, tier, [row for row in rows if row.tier == tier])
        self.chains(layout)

    def entry(self, layout, row):
        """Key and record of a row of the list, read by the tables; slot and chunks follow from them."""
        places = [layout.place("tier %d, chunk %d: %s" % (row.tier, row.chunk, part)) for part in PARTS]
        key, record = (bytes(layout.image[at:at + size]) for at, size in places[1::2])
        segment, lookup_key, _ = key_parts(key, layout.names)
        slot_value = formula_of("Keys, slots and the search", "slotValue")
        chunks_of_entry = formula_of("Entries", "chunksOfEntry")
        self.assertEqual(row.segment, segment)
        self.assertEqual(layout.read("tier %d, slot %d" % (row.tier, row.slot)),
                         layout.value(slot_value, lookupKey=lookup_key, firstChunk=row.chunk))
        self.assertEqual(row.chunks, layout.value(chunks_of_entry, entrySize=sum(size for _, size in places)))
        return key, record

    def counters(self, layout, tier, rows):
        marked = sorted(i for row in rows for i in range(row.chunk, row.chunk + row.chunks))
        self.assertEqual(layout.marked(tier), marked)
        chunks = layout.names["chunks"]
        at, size = layout.place("tier %d, free list" % tier)
        self.assertEqual(layout.image[at + size - 1] >> (chunks - 1) % 8 + 1, FILLER >> (chunks - 1) % 8 + 1)
        if tier not in layout.free():
            self.assertEqual(layout.read(layout.counter(tier, "entryCount")), len(rows))
            self.assertEqual(layout.read(layout.counter(tier, "lowMark")), min(set(range(chunks + 1)) - set(marked)))

    def chains(self, layout):
        chains = [self.chain(layout, segment) for segment in range(layout.names["segments"])]
        all_tiers = sum(chains, layout.free())
        self.assertEqual(sorted(all_tiers), list(range(1, layout.names["tiers"] + 1)))
        self.assertEqual(layout.names["usedTiers"], sum(len(chain) - 1 for chain in chains))
        self.met.update("a chain of three" for chain in chains if len(chain) > 2)

    def chain(self, layout, segment):
        chain, tier = [], segment + 1
        while tier:
            stands = [layout.read(layout.counter(tier, name)) for name in ("previous", "segment", "order")]
            self.assertEqual(stands, [chain[-1] if chain else 0, segment, len(chain)])
            chain.append(tier)
            tier = layout.read(layout.counter(tier, "next"))
        return chain

    def finds(self, layout, store, key):
        """A lookup answers the place where the page's search ends."""
        found, tier, slot, record = self.search(layout, key)
        at, size = layout.place(record) if found else (0, 0)
        self.assertEqual(store.lookup(key), (found, (at, size, tier, slot)))
        self.assertEqual(store.quick_lookup(key), (found, (at, size, tier, slot)))

    def search(self, layout, key):
        segment, _, _ = key_parts(key, layout.names)
        for tier in self.chain(layout, segment):
            slot, record = self.search_in(layout, key, tier)
            if record:
                break
        return bool(record), tier, slot, record

    def search_in(self, layout, key, tier):
        """The slot where the search in a tier ends, and the label of the record if it is a find."""
        _, lookup_key, slot = key_parts(key, layout.names)
        while True:
            chunk, low = divmod(layout.read("tier %d, slot %d" % (tier, slot)), 2 ** layout.names["keyBits"])
            if (chunk, low) == (0, 0):
                return slot, None
            entry = "tier %d, chunk %d: " % (tier, chunk)
            at, size = layout.place(entry + "key")
            if low == lookup_key and layout.image[at:at + size] == key:
                return slot, entry + "record"
            slot = (slot + 1) % layout.names["slots"]


def formula_of(section, name):
    return next(row["formula"] for row in PAGE.table(section, "name") if plain(row["name"]) == name)

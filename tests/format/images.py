"""Images written by the page's tables alone, with other bytes wherever the page says that nobody reads or writes."""
import random
import unittest

import chronicle_map
from blocks import fitted
from common import FIELDS, FORM, IMAGE, PAGE
from layout import STATE, Names
from page import number, some_bytes, value_of

FILLER = 0xA5


def with_gaps(draw):
    """Settings in which every area that can be there is there."""
    fields = fitted(
        globalAt=64, segments=draw.choice((1, 2, 4)), headerSize=draw.randint(33, 70), slotSize=8, slots=8,
        keyBits=draw.randint(1, 30), chunkBits=draw.randint(5, 30), lookupSize=draw.randint(65, 90),
        freeListSize=draw.randint(4, 9), innerOffset=draw.randint(1, 9), chunks=draw.randint(9, 23),
        chunkSize=draw.randint(3, 9), bulkInner=draw.randint(1, 9), bulkTiers=draw.randint(1, 3), mostChunks=8)
    fields["tierSize"] += draw.randint(1, 9)
    fields["bulkSize"] = fields["bulkInner"] + fields["bulkTiers"] * fields["tierSize"] + draw.randint(1, 9)
    return fields


def empty_image(fields, bulks, headers, room):
    """An accepted image without entries: what the page says is read, and filler elsewhere."""
    names = Names(PAGE, dict(fields, bulkCount=bulks, headersOffset=headers))
    image = bytearray([FILLER]) * (names["storeEnd"] + room)
    layout = FORM.layout(fields, image)
    first = names["segments"] + 1
    state = dict(bulkCount=bulks, firstFree=first if bulks else 0, usedTiers=0, headersOffset=headers,
                 storeSize=names["storeEnd"])
    for name in STATE:
        layout.write("global state: " + name, state[name])
    for tier in range(1, names["tiers"] + 1):
        clear(layout, tier)
        if tier < first:
            main_tier(layout, tier)
        else:
            layout.write("tier %d, counters: next" % tier, tier + 1 if tier < names["tiers"] else 0)
    return image


def clear(layout, tier):
    """No slot full, no chunk marked; the bits that belong to no chunk keep the filler."""
    at, size = layout.place("tier %d, slots" % tier)
    layout.image[at:at + size] = bytes(size)
    at, _ = layout.place("tier %d, free list" % tier)
    for i in range(layout.names["chunks"]):
        layout.image[at + i // 8] &= ~(1 << i % 8)


def main_tier(layout, tier):
    counters = dict(next=0, previous=0, lowMark=0, segment=tier - 1, order=0, entryCount=0)
    for name, value in counters.items():
        layout.write(layout.counter(tier, name), value)


class Areas(unittest.TestCase):
    def test_areas_follow_one_another(self):
        draw = random.Random(2)
        for _ in range(50):
            names = Names(PAGE, dict(with_gaps(draw), bulkCount=2, headersOffset=150, imageLength=10**6))
            names["storeSize"] = names["storeEnd"]
            self.tile(PAGE.table("The image", "area of the image"), "starts at", names, names["imageLength"])
            self.tile(PAGE.table("The image", "area of a bulk"), "starts at", names, names["bulkSize"])
            self.tile(PAGE.table("Tier", "area of a tier"), "starts at", names, names["tierSize"])

    def test_fields_follow_one_another(self):
        layout = FORM.layout(FIELDS, bytearray(IMAGE))
        for section, whole in (("Global state", layout.place("global state")[1]),
                               ("Segment header", FIELDS["headerSize"]),
                               ("Counters", layout.place("tier 1, counters")[1])):
            self.tile(PAGE.table(section, "offset"), "offset", layout.names, whole)

    def tile(self, rows, start, names, whole):
        ends = 0
        for row in rows:
            self.assertEqual(value_of(row[start], names), ends, row)
            size = value_of(row["bytes"], names)
            self.assertGreaterEqual(size, 0, row)
            ends += size
        self.assertEqual(ends, whole)


class Lengths(unittest.TestCase):
    def test_leb128(self):
        for row in PAGE.table("Entries", "length"):
            self.assertEqual(leb128(number(row["length"])), some_bytes(row["bytes"]))

    def test_bytes_of_a_length(self):
        fields = fitted(slots=4, chunks=64, chunkSize=2048, mostChunks=64)
        for row in PAGE.table("Entries", "length"):
            length, expected = number(row["length"]), some_bytes(row["bytes"])
            for key, record, part in self.entries(length):
                with self.subTest(length, part=part):
                    image = empty_image(fields, 0, 64, 0)
                    chronicle_map.Store(FORM.block(fields), image).put(key, record)
                    at, size = FORM.layout(fields, image).place("tier 1, chunk 0: " + part)
                    self.assertEqual(bytes(image[at:at + size]), expected)

    def test_ranges_and_their_bytes(self):
        limits = {row["limit"]: row["most"] for row in PAGE.table("Limits", "limit")}
        for row in PAGE.table("Entries", "part of an entry"):
            part, _, length = row["part of an entry"].partition(" ")
            if length:
                least, most = row["range"].split(" to ")
                self.assertEqual(most, limits["bytes of a " + part])
                sizes = [len(leb128(number(end))) for end in (least, most)]
                self.assertEqual(row["bytes"], "%d to %d" % tuple(sizes))

    def entries(self, length):
        yield b"k", bytes(length), "record length"
        if 1 <= length <= 1024:
            yield bytes(length), b"", "key length"


def leb128(value):
    out = bytearray()
    while value > 127:
        out.append(value % 128 + 128)
        value //= 128
    return bytes(out + bytes([value]))

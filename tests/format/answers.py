"""The numbers that calls answer: their order, and the limits."""
import unittest

import chronicle_map
from blocks import fitted
from common import ABSENT, BLOCK, CALLS, FIELDS, FORM, IMAGE, PAGE, answer
from images import empty_image, leb128
from page import number, numbers_in_order

MOST_NEGATIVE = -2**31
# What makes a number apply: a label of the image with a number that breaks it, or what the call is given.
IN_THE_IMAGE = {
    4: ("global state: storeSize", 1),
    5: ("global state: usedTiers", 9),
    6: ("tier 1, slot 0", 1),
    7: ("segment header 0: entryCount", 9),
    18: ("segment header 0: next", 1),
}
GIVEN = {
    8: {"key": b""},
    9: {"record": bytes(40)},
    11: {"pair": (5, 5)},
    12: {"delay": MOST_NEGATIVE},
}


def full_store(fields, record):
    """A store without room: in its one tier all slots but one are full, and no tier is free."""
    image = empty_image(fields, 0, 64, 0)
    for key in range(fields["slots"] - 1):
        chronicle_map.Store(FORM.block(fields), image).put(bytes([100 + key]), record)
    return image


def where_all_apply(call, numbers):
    """Block, image and what the call is given, so that all these numbers apply. 1, 10 and 13 apply anyway."""
    fields, record = FIELDS, bytes(4)
    if call == "set delay" and 9 in numbers:
        fields, record = fitted(mostChunks=4, chunks=16), b""  # in chunks of one byte a pair's entry takes 8
    image, block, given = full_store(fields, record), FORM.block(fields), ABSENT
    layout = FORM.layout(fields, image)
    for n in numbers:
        if n in IN_THE_IMAGE:
            layout.write(*IN_THE_IMAGE[n])
        given = given._replace(**GIVEN.get(n, {}))
    if 3 in numbers:
        block = FORM.block(dict(fields, headerSize=31))
    if 2 in numbers:
        block += b"\0"
    return block, image, given


class Order(unittest.TestCase):
    orders = {row["call"]: numbers_in_order(row["order"]) for row in PAGE.table("Numbers", "call")}

    def test_all_calls_are_there(self):
        self.assertEqual(set(self.orders), set(CALLS))

    def test_numbers_are_those_of_the_table(self):
        known = {number(row["number"]) for row in PAGE.table("Numbers", "number")}
        self.assertEqual(known, {int(n) for n in chronicle_map.Number})
        self.assertEqual({n for order in self.orders.values() for step in order for n in step}, known - {0})

    def test_the_first_that_applies_is_given(self):
        """All numbers from some place of the order on apply, and the first of them is answered."""
        for call, order in self.orders.items():
            steps = [step[0] if step != [1, 12] else 1 for step in order]
            if call == "quick delay":
                steps.remove(12)  # of a record that is there: tried below
            for i, first in enumerate(steps):
                with self.subTest(call, first=first):
                    block, image, given = where_all_apply(call, steps[i:])
                    before = bytes(image)
                    self.assertEqual(answer(call, block, image, given), first)
                    self.assertEqual(bytes(image), before)

    def test_the_last_alternatives(self):
        for call in ("quick lookup", "quick delay"):
            self.assertIn([18, 1], self.orders[call])
            self.assertEqual(answer(call, BLOCK, IMAGE), 1)
        for record in (b"", bytes(3), bytes(5), MOST_NEGATIVE.to_bytes(4, "little", signed=True)):
            image = bytearray(IMAGE)
            chronicle_map.Store(BLOCK, image).put(bytes(ABSENT.pair), record)
            for call in ("delay", "quick delay"):
                self.assertIn(12, self.orders[call][-1])
                self.assertEqual(answer(call, BLOCK, bytes(image)), 12)

    def test_0_where_none_applies(self):
        given = ABSENT._replace(key=b"\x01\x02", pair=(1, 2), n=0)
        for call in self.orders:
            image = bytearray(IMAGE) + bytes(FIELDS["bulkSize"])
            self.assertEqual(answer(call, BLOCK, image, given), 0, call)


class Limits(unittest.TestCase):
    limits = {row["limit"]: row for row in PAGE.table("Limits", "limit")}

    def most(self, limit, *past):
        """The most of a limit, whose last column names these numbers."""
        row = self.limits[limit]
        self.assertEqual([int(word) for word in row["past it"].split() if word.isdigit()], list(past))
        return number(row["most"])

    def test_bytes_of_an_image(self):
        most = self.most("bytes of an image", 4)
        image = IMAGE + bytes(most + 1 - len(IMAGE))
        self.assertEqual(answer("check", BLOCK, image[:most]), 0)
        self.assertEqual(answer("check", BLOCK, image), 4)

    def test_tiers(self):
        most = self.most("tiers", 4, 13)
        image = empty_image(FIELDS, most - 1, 64, FIELDS["bulkSize"])
        self.assertEqual(answer("check", BLOCK, image), 0)
        self.assertEqual(answer("grow", BLOCK, image), 13)
        self.assertEqual(answer("check", BLOCK, empty_image(FIELDS, most, 64, 0)), 4)

    def test_bytes_of_a_key(self):
        most = self.most("bytes of a key", 6, 8)
        self.entry_limit(most, 8, lambda size: {"key": bytes(size), "record": b""}, "key length")

    def test_bytes_of_a_record(self):
        most = self.most("bytes of a record", 6, 9)
        self.entry_limit(most, 9, lambda size: {"key": b"k", "record": bytes(size)}, "record length")

    def entry_limit(self, most, past, given, length):
        """An entry of the most bytes is stored, one byte more is refused, given or found in the image."""
        fields = fitted(chunks=64, chunkSize=2048, mostChunks=64)
        block, image = FORM.block(fields), empty_image(fields, 0, 64, 0)
        self.assertEqual(answer("store", block, image, ABSENT._replace(**given(most + 1))), past)
        self.assertEqual(answer("store", block, image, ABSENT._replace(**given(most))), 0)
        self.assertEqual(answer("check", block, image), 0)
        layout = FORM.layout(fields, image)
        at, size = layout.place("tier 1, chunk 0: " + length)
        image[at:at + size] = leb128(most + 1)
        self.assertEqual(answer("check", block, image), 6)

    def test_channels(self):
        most = self.most("channel", 11)
        for call in ("delay", "set delay", "quick delay"):
            for pair in ((1, most + 1), (most + 1, 1), (0, 1), (most, most)):
                self.assertEqual(answer(call, BLOCK, bytearray(IMAGE), ABSENT._replace(pair=pair)), 11, pair)
            self.assertNotEqual(answer(call, BLOCK, bytearray(IMAGE), ABSENT._replace(pair=(1, most))), 11)

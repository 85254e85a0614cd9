"""The page against the sample file: the dump, changed bytes, worked edits, delays and hashes."""
import unittest

import chronicle_map
from common import ABSENT, BLOCK, FIELDS, FORM, IMAGE, PAGE, SAMPLE, answer, left_by, started_and_left
from layout import length_at
from page import number, plain, some_bytes, span, value_of

DUMP = PAGE.table("The sample, byte by byte", "file")
LAYOUT = FORM.layout(FIELDS, bytearray(IMAGE))
KEYS = (b"\x01\x02", b"\x02\x01", ABSENT.key)


class Dump(unittest.TestCase):
    def test_covers_the_file_once(self):
        offsets = [at for row in DUMP for at in span(row["file"])]
        self.assertEqual(offsets, list(range(len(SAMPLE))))

    def test_block_and_image_make_the_file(self):
        starts = [number(row["starts at"]) for row in PAGE.table("A store file", "part")]
        self.assertEqual(starts, [0, FORM.block_size])
        self.assertEqual(PAGE.sentence(r"All (\d+) bytes of examples/pairs.store"), [len(SAMPLE)])

    def test_has_the_bytes_of_the_file(self):
        for row in DUMP:
            with self.subTest(row["file"]):
                at = span(row["file"])
                self.assertEqual(some_bytes(row["bytes"]), SAMPLE[at.start:at.stop])

    def test_places_are_those_of_the_tables(self):
        for row in DUMP:
            with self.subTest(row["what it is"]):
                at = span(row["file"])
                self.assertEqual((at.start, len(at)), place_in_file(row["what it is"]))

    def test_offsets_in_the_image(self):
        for row in DUMP:
            with self.subTest(row["file"]):
                at = span(row["file"])
                expected = [] if at.stop <= FORM.image_at else [i - FORM.image_at for i in at]
                self.assertEqual(list(span(row["image"])) if row["image"] else [], expected)

    def test_values_follow_from_the_bytes(self):
        for row in DUMP:
            with self.subTest(row["what it is"]):
                self.assertEqual(row["value"], value_by_bytes(row))


def place_in_file(label):
    """Offset and number of bytes, by the tables of the settings block or those of the image."""
    for row in FORM.head[:2]:
        if row["name"] == label:
            return number(row["offset"]), number(row["bytes"])
    for row in FORM.fields:
        if row["name"] == label:
            return number(row["offset"]), 4
    at, size = LAYOUT.place(label)
    return FORM.image_at + at, size


def value_by_bytes(row):
    """What the cell `value` has to say."""
    data, label = some_bytes(row["bytes"]), row["what it is"]
    if "chunks " in label:
        return "clear"
    if row["a changed byte"] == "unread":
        return ""
    if label.startswith("tier "):
        return tier_value(data, *label.split(", "))
    order = FORM.block_order if span(row["file"]).start < FORM.image_at else FORM.image_order
    return str(int.from_bytes(data, order))


def tier_value(data, tier, part):
    value = int.from_bytes(data, FORM.image_order)
    if part.startswith("slot"):
        chunk, lookup_key = divmod(value, 2 ** FIELDS["keyBits"])
        return "lookup key %d, chunk %d" % (lookup_key, chunk) if value else "empty"
    if part == "free list":
        return "marked: " + (", ".join(map(str, LAYOUT.marked(int(tier.split()[1])))) or "none")
    if part.endswith(" length"):
        return str(length_at(data, 0)[0])
    if part.endswith(": key"):
        return ", ".join(map(str, data))
    if part.endswith(": record"):
        return str(int.from_bytes(data, FORM.image_order, signed=True))
    return str(value)


class ChangedBytes(unittest.TestCase):
    """Each byte of the sample with each other value. This takes some seconds."""

    def test_answers_are_those_of_the_last_column(self):
        for row in DUMP:
            with self.subTest(row["file"] + " " + row["what it is"]):
                says = set(row["a changed byte"].split(", "))
                answers = [self.answers(at) for at in span(row["file"])]
                self.assertEqual(set().union(*answers), {"same"} if says == {"unread"} else says)
                if says != {"unread"} and says != {"data"}:
                    for each in answers:
                        self.assertTrue(each - {"same", "data"}, "a byte of the row can hold anything")

    def answers(self, at):
        """What all changes of one byte are answered with: numbers, same, data."""
        data, met = bytearray(SAMPLE), set()
        for value in set(range(256)) - {SAMPLE[at]}:
            data[at] = value
            met.add(self.answer(bytes(data)))
        return met

    def answer(self, data):
        try:
            return "same" if reading(data) == self.before else "data"
        except chronicle_map.Refused as refused:
            return str(int(refused.number))

    @classmethod
    def setUpClass(cls):
        cls.before = reading(SAMPLE)


def reading(data):
    """What the library reads in a store file: counts, rows, and for some keys the place and the record."""
    store = chronicle_map.Store(data[:FORM.image_at], data[FORM.image_at:])
    counts = store.counts()
    rows = [store.entry(n) for n in range(counts.entries + 1)]
    found = [store.lookup(key) for key in KEYS]
    starts = [FORM.image_at + lookup.place.offset for lookup in found]
    return counts, rows, found, [data[at:at + lookup.place.length] for at, lookup in zip(starts, found)]


class WorkedEdits(unittest.TestCase):
    changes = PAGE.table("Worked edits", "changed by")

    def test_change_these_bytes_and_no_others(self):
        for row in PAGE.table("Worked edits", "edit"):
            with self.subTest(row["edit"]):
                before, after = started_and_left(row["edit"])
                differ = {i: (before[i], after[i]) for i in range(len(before)) if before[i] != after[i]}
                self.assertEqual(differ, self.said_of(row["edit"]))
                self.assertEqual(answer("check", BLOCK, after), 0)

    def said_of(self, edit):
        said = {}
        for row in self.changes:
            if row["changed by"] == edit:
                at, before, after = span(row["image"]), some_bytes(row["before"]), some_bytes(row["after"])
                self.assertEqual((len(at), len(at)), (len(before), len(after)), row)
                self.assertFalse(said.keys() & set(at), row)
                said.update(zip(at, zip(before, after)))
        return said

    def test_places_are_those_of_the_tables(self):
        for row in self.changes:
            with self.subTest(row["changed by"] + " " + row["image"]):
                layout = FORM.layout(FIELDS, bytearray(left_by(row["changed by"])))
                at, size = layout.place(row["what it is"])
                changed = span(row["image"])
                self.assertTrue(at <= changed.start and changed.stop <= at + size, (at, size))


class Delays(unittest.TestCase):
    def test_the_sample_has_the_delays_that_the_page_says(self):
        a, b, forth, c, d, back = PAGE.sentence(
            r"In the sample the delay from (\d+) to (\d+) is (-?\d+) and from (\d+) to (\d+) it is (-?\d+)")
        store = chronicle_map.Store(BLOCK, IMAGE)
        self.assertEqual((store.delay(a, b), store.delay(c, d)), (forth, back))
        self.assertEqual((a, b), (d, c))

    def test_key_and_record(self):
        parts = {row["part"]: row["bytes"] for row in PAGE.table("Pairs of channels", "part")}
        self.assertIn("the smaller channel, then the larger", parts["key"])
        self.assertIn("little-endian", parts["record"])
        for a, b, delay in ((3, 4, 25), (4, 3, 25), (32, 1, -2**31 + 1), (1, 32, 2**31 - 1)):
            image = bytearray(IMAGE)
            chronicle_map.Store(BLOCK, image).set_delay(a, b, delay)
            stored = (delay if a < b else -delay).to_bytes(4, "little", signed=True)
            self.assertEqual(chronicle_map.Store(BLOCK, bytes(image))[bytes(sorted((a, b)))], stored)


class Hashes(unittest.TestCase):
    rows = PAGE.table("XXH64", "input")

    def test_hashes(self):
        for row in self.rows:
            with self.subTest(row["input"]):
                data = input_of(row["input"])
                self.assertEqual(len(data), number(row["bytes"]))
                self.assertEqual("%016x" % chronicle_map.xxh64(data), row["hash"])

    def test_parts_of_the_hash(self):
        heading = next(heading for heading in self.rows[0] if heading.startswith("segment, "))
        with_settings = dict(zip(("segments", "keyBits", "slots"), PAGE.sentence(
            r"start slot with (\d+) `segments`, (\d+) `keyBits`, (\d+) `slots`")))
        self.assertIn("%(segments)d `segments`, %(keyBits)d `keyBits`, %(slots)d `slots`" % with_settings, heading)
        for row in self.rows:
            if row[heading]:
                data = input_of(row["input"])
                self.assertEqual(row["lookup key in the sample"], str(key_parts(data, FIELDS)[1]))
                self.assertEqual(row[heading], ", ".join(map(str, key_parts(data, with_settings))))


def input_of(cell):
    """`01 02`, or `00 01 02 .. 3f` for all bytes between."""
    first, dots, last = cell.partition(" .. ")
    start = bytes.fromhex(first)
    return start + bytes(range(start[-1] + 1, int(last, 16) + 1)) if dots else start


def key_parts(key, fields):
    """Segment, lookup key and start slot of a key, by the page's formulas."""
    formulas = {plain(row["name"]): row["formula"] for row in PAGE.table("Keys, slots and the search", "name")}
    names = dict(fields, hash=chronicle_map.xxh64(key))
    names["hashPart"] = value_of(formulas["hashPart"], names)
    usual, if_zero = formulas["lookupKey"].split(" or, where that is 0, ")
    names["lookupKey"] = value_of(usual, names) or value_of(if_zero, names)
    return value_of(formulas["segmentOfKey"], names), names["lookupKey"], value_of(formulas["startSlot"], names)

"""The page's table of the settings block against the library: offsets, ranges and rules of the 17 fields."""
import dataclasses
import random
import re
import unittest

import chronicle_map
from common import BLOCK, FIELDS, FORM, PAGE, answer
from page import number, plain, value_of

ROWS = {plain(row["name"]): row for row in FORM.fields}
WORDS = {
    "power of two": lambda value: value > 0 and value & (value - 1) == 0,
    "multiple of 64": lambda value: value % 64 == 0,
    "4 or 8": lambda value: value in (4, 8),
}
FIELD, FRAME = 3, 4  # what the check answers without an image: the block is refused, or it is fine


def holds(fields):
    """Whether all fields keep the rules of the page."""
    return all(kept(row, fields) for row in ROWS.values())


def kept(row, fields):
    value = fields[plain(row["name"])]
    if not value_of(row["least"], fields) <= value <= value_of(row["most"], fields):
        return False
    rules = [rule for rule in row["further rule"].split("; ") if rule]
    return all(value_of(rule, fields) if "<=" in rule else WORDS[rule](value) for rule in rules)


def checked(fields):
    """What the library answers to a block with these fields and no image."""
    return answer("check", FORM.block(fields), b"")


def fitted(**wanted):
    """Each field at its least, but for the wanted ones and for what these need."""
    fields = {name: value_of(row["least"], {}) for name, row in ROWS.items() if "`" not in row["least"]}
    fields.update(wanted)

    def need(name, value):
        if name not in wanted:
            fields[name] = value

    need("chunks", max(fields["chunks"], fields["mostChunks"]))
    need("chunkBits", max(1, (fields["chunks"] - 1).bit_length()))
    need("slotSize", 4 if fields["keyBits"] + fields["chunkBits"] <= 32 else 8)
    for name, row in ROWS.items():
        if "`" in row["least"]:
            need(name, min(value_of(row["least"], fields), 2**32 - 1))
    return fields


def past(row, limit, way):
    """Numbers just past a limit: the next one, and the next one that the row's words allow."""
    words = row["further rule"]
    steps = {"power of two": limit if way > 0 else max(1, limit // 2), "multiple of 64": 64, "4 or 8": 4}
    return {limit + way, limit + way * steps.get(words, 1)}


class Head(unittest.TestCase):
    def test_parts_follow_one_another(self):
        ends = 0
        for row in FORM.head:
            self.assertEqual(number(row["offset"]), ends)
            ends += number(row["bytes"])
        self.assertEqual(ends, FORM.block_size)
        self.assertEqual(FORM.block_size, len(BLOCK))

    def test_another_length_is_2(self):
        self.assertEqual(answer("check", BLOCK, b""), FRAME)
        for length in set(range(100)) - {FORM.block_size}:
            self.assertEqual(answer("check", (BLOCK + bytes(100))[:length], b""), 2)

    def test_the_head_comes_before_the_fields(self):
        broken = FORM.block(dict(FIELDS, segments=3))
        self.assertEqual(answer("check", broken, b""), FIELD)
        for row in FORM.head[:2]:
            block = bytearray(broken)
            block[number(row["offset"])] ^= 1
            self.assertEqual(answer("check", bytes(block), b""), 2)


class Fields(unittest.TestCase):
    def test_offsets_follow_one_another(self):
        start = number(FORM.head[2]["offset"])
        self.assertEqual([number(row["offset"]) for row in FORM.fields], list(range(start, FORM.block_size, 4)))
        count, = PAGE.sentence(r"fields \| (\d+) numbers of four bytes")
        self.assertEqual([number(row["field"]) for row in FORM.fields], list(range(1, count + 1)))

    def test_names_are_those_of_the_package(self):
        of_the_package = [field.name for field in dataclasses.fields(chronicle_map.Settings)]
        self.assertEqual([re.sub("([A-Z])", r"_\1", name).lower() for name in FORM.names], of_the_package)

    def test_the_package_reads_them_alike(self):
        settings = chronicle_map.Settings.read(BLOCK)
        self.assertEqual(list(dataclasses.astuple(settings)), list(FIELDS.values()))

    def test_limits(self):
        reachable = {plain(row["name"]): row["most in an accepted block"]
                     for row in PAGE.table("The settings block", "name")}
        for name, row in ROWS.items():
            most = number(reachable.get(name, row["most"]))
            least = fitted()[name]
            for limit, way in ((least, -1), (most, 1)):
                with self.subTest(name, limit=limit):
                    self.assertEqual(checked(fitted(**{name: limit})), FRAME)
                    for value in past(row, limit, way):
                        if value >= 0:
                            self.assertEqual(checked(fitted(**{name: value})), FIELD, value)

    def test_largest_numbers(self):
        for name, row in ROWS.items():
            for value in (number(row["most"]) + 1, 2**24 + 1, 2**31, 2**32 - 1):
                self.assertEqual(checked(dict(FIELDS, **{name: value})), FIELD, (name, value))

    def test_rules_near_the_sample(self):
        """Each field of the sample moved by up to 300, alone."""
        self.compare(dict(FIELDS, **{name: value}) for name in ROWS
                     for value in range(max(0, FIELDS[name] - 300), FIELDS[name] + 300))

    def test_rules_of_any_block(self):
        """Blocks that fit, with up to two fields replaced by a number near some limit."""
        draw = random.Random(1)
        near = sorted({max(0, 2**n + by) for n in range(25) for by in (-1, 0, 1)} | {24, 40, 48, 96})
        self.compare(self.drawn(draw, near) for _ in range(6000))

    def drawn(self, draw, near):
        names = draw.sample(FORM.names, 4)
        fields = fitted(**{name: draw.choice(near) for name in names[:2]})
        for name in names[2:2 + draw.randrange(3)]:
            fields[name] = draw.choice((fields[name] - 1, fields[name] + 1, draw.choice(near))) % 2**32
        return fields

    def compare(self, blocks):
        met = {True: 0, False: 0}
        for fields in blocks:
            fits = holds(fields)
            met[fits] += 1
            self.assertEqual(checked(fields), FRAME if fits else FIELD, fields)
        self.assertGreater(min(met.values()), 300, "too few blocks of one kind were tried")

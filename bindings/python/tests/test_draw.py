"""The drawing: well-formed, complete, inside its frame, and the same as in docs.

`python3 -m chronicle_map draw examples/pairs.store > docs/pairs.svg` makes the first picture of docs; for the other see
tests/larger_store.py.
"""
import random
import re
import unittest
import xml.etree.ElementTree as ET
from collections import Counter

from chronicle_map import Counts, Entry, Row, Settings, Store, Tier
from chronicle_map.draw import svg
from chronicle_map.draw_chunks import COLOURS, SHADES, shape
from chronicle_map.draw_plan import MOST_FREE, MOST_TOOLTIPS, Plan, sheet_of
from tests.larger_store import make
from tests.samples import REPOSITORY, X, Folder, worked
from tests.test_commands import PAIRS, changed, run

DOCS = REPOSITORY / "docs"
NAME = "{http://www.w3.org/2000/svg}"


def entry(tier, slot, chunk, chunks, segment=0, key=b"\1\2"):
    return Entry(Row(segment, tier, slot, chunk, chunks, len(key), 4), key, bytes(4))


def filled(settings, sizes, tier=1, segment=0, seed=1):
    """Entries with gaps between some, up to the last chunk that takes one."""
    entries, chunk, choice = [], 0, random.Random(seed)
    while len(entries) < settings.slots - 1:
        chunks = choice.choice(sizes)
        if chunk + chunks > settings.chunks:
            break
        entries.append(entry(tier, len(entries), chunk, chunks, segment, len(entries).to_bytes(2, "big")))
        chunk += chunks + (choice.random() < 0.2)
    return tuple(entries)


def drawn(tiers, settings, title="a.store"):
    """The picture of tiers that were made by hand."""
    entries = [entry for tier in tiers for entry in tier.entries]
    free = sum(tier.segment is None for tier in tiers)
    counts = Counts(len(entries), sum(entry.row.chunks for entry in entries), len(tiers) - free, free)
    return svg(tiers, counts, settings, title)


def chains(settings, lengths, free, sizes):
    """Tiers in chains of these lengths, one for each segment, and free ones."""
    places = [(segment, order) for segment, length in enumerate(lengths) for order in range(length)]
    tiers = [Tier(t, s, order, filled(settings, sizes, t, s, t)) for t, (s, order) in enumerate(places, 1)]
    return tiers + [Tier(len(tiers) + 1 + order, None, order, ()) for order in range(free)]


def texts(picture):
    return [element.text for element in ET.fromstring(picture).iter(NAME + "text")]


def tooltips(picture):
    """What is told of the entries."""
    return [title.text for title in ET.fromstring(picture).iter(NAME + "title") if title.text.startswith("key ")]


def points(path):
    """The corners of a path of horizontal and vertical lines."""
    x = y = 0.0
    for letter, first, second in re.findall(r"([MHVhvz])(-?[\d.]*) ?(-?[\d.]*)", path):
        if letter == "M":
            x, y = float(first), float(second)
        elif letter in "Hh":
            x = float(first) + (x if letter == "h" else 0)
        elif letter in "Vv":
            y = float(first) + (y if letter == "v" else 0)
        yield x, y


def extents(element, x=0.0, y=0.0, look=None):
    """Where each shape and text of a picture reaches: left, top, right, bottom."""
    look = {**(look or {}), **element.attrib}
    move = re.fullmatch(r"translate\((\d+),([\d.]+)\)", element.get("transform", "translate(0,0)"))
    x, y = x + float(move[1]), y + float(move[2])
    if element.tag == NAME + "path":
        across, down = zip(*points(element.get("d")))
        yield x + min(across), y + min(down), x + max(across), y + max(down)
    if element.tag == NAME + "rect":
        left, top, width, height = (float(element.get(name)) for name in ("x", "y", "width", "height"))
        yield x + left, y + top, x + left + width, y + top + height
    if element.tag == NAME + "text":
        yield text_extent(element, x, y, look)
    for part in element:
        yield from extents(part, x, y, look)


def text_extent(element, x, y, look):
    """Where a text reaches, with letters as wide as digits of a wide font."""
    size = float(look["font-size"])
    width = 0.62 * size * len(element.text)
    left = x + float(element.get("x")) - width * {"start": 0, "middle": 0.5, "end": 1}[look.get("text-anchor", "start")]
    base = y + float(element.get("y"))
    return left, base - 0.8 * size, left + width, base + 0.25 * size


def luminance(colour):
    digits = colour[1:] if len(colour) == 7 else "".join(digit * 2 for digit in colour[1:])
    parts = [int(digits[i:i + 2], 16) / 255 for i in (0, 2, 4)]
    red, green, blue = (part / 12.92 if part <= 0.04045 else ((part + 0.055) / 1.055) ** 2.4 for part in parts)
    return 0.2126 * red + 0.7152 * green + 0.0722 * blue


# Stores of every kind of plan: settings, lengths of chains, free tiers, sizes of entries.
KINDS = {
    "one chunk": (Settings(segments=2, slots=4, chunks=1), [1, 2], 1, (1,)),
    "one line": (Settings(segments=4, slots=32, chunks=40), [3, 1, 4, 2], 4, (1, 1, 2, 3, 5)),
    "low lines": (Settings(segments=8, slots=64, chunks=64), [9, 1, 4, 8, 8, 8, 8, 8], 20, (1, 2, 9)),
    "lines of 32": (Settings(slots=128, chunks=100), [3], 2, (1, 2, 7)),
    "lines of 48": (Settings(slots=1024, chunks=1024), [2], 1, (1, 2, 3)),
    "lines of 64": (Settings(slots=4096, chunks=4096), [1], 0, (1, 2, 3)),
    "lines of 96": (Settings(segments=2, slots=4096, chunks=4096), [2, 2], 1, (1, 2, 64)),
    "less than a line": (Settings(segments=64, slots=128, chunks=77), [1] * 64, 40, (1, 5)),
    "narrow lines": (Settings(segments=128, slots=64, chunks=152), [1] * 128, 3, (1, 5)),
    "two panels": (Settings(segments=256, slots=8, chunks=8), [4] * 255 + [2], 2, (1, 2, 3)),
    "filled panels": (Settings(segments=256, slots=64, chunks=34), [1] * 256, 3, (1, 2, 9)),
    "strips": (Settings(segments=16, slots=512, chunks=4096), [3] * 16, 20, (5, 9, 30)),
    "strips of chunks": (Settings(segments=128, slots=512, chunks=160), [1] * 128, 0, (5, 9, 30)),
    "panels of strips": (Settings(segments=256, slots=16, chunks=4096), [4] * 256, 0, (30, 64)),
    "panels of short strips": (Settings(segments=256, slots=64, chunks=52), [1] * 256, 3, (1, 2, 9)),
}
# The panels of each, and the width, height and number of the boxes in a line.
PLANS = {
    "one chunk": (1, 76, 28, 1),
    "one line": (1, 15, 28, 40),
    "low lines": (1, 9, 16, 64),
    "lines of 32": (1, 18, 18, 32),
    "lines of 48": (1, 12, 12, 48),
    "lines of 64": (1, 9, 9, 64),
    "lines of 96": (1, 6, 6, 96),
    "less than a line": (1, 6, 6, 96),
    "narrow lines": (1, 4, 16, 152),
    "two panels": (2, 24, 10, 8),
    "filled panels": (2, 6, 10, 34),
    "strips": (1, 0, 14, 4096),
    "strips of chunks": (1, 0, 14, 160),
    "panels of strips": (2, 0, 10, 4096),
    "panels of short strips": (2, 0, 10, 52),
}


class Docs(Folder):
    def test_pairs(self):
        status, text, error = run("draw", self.written(PAIRS, "pairs.store"))
        self.assertEqual((status, error), (0, ""))
        self.assertEqual(text.encode(), (DOCS / "pairs.svg").read_bytes())

    def test_larger_store(self):
        make(self.path("larger.store"))
        before = self.content("larger.store")
        status, text, error = run("draw", self.path("larger.store"))
        self.assertEqual((status, error), (0, ""))
        self.assertEqual(text.encode(), (DOCS / "larger-store.svg").read_bytes())
        self.assertEqual(self.content("larger.store"), before)

    def test_larger_store_shows_what_it_is_for(self):
        make(self.path("larger.store"))
        with Store.open(self.path("larger.store")) as store:
            tiers, counts = store.tiers(), store.counts()
        self.assertEqual(sorted(Counter(tier.segment for tier in tiers[:counts.tiers]).values()), [2, 3, 3, 4])
        self.assertEqual(counts.free, 4)
        self.assertEqual({e.row.chunks for tier in tiers for e in tier.entries}, {1, 2, 3, 4, 5, 6})

    def test_a_damaged_store_has_no_picture(self):
        for number, content in ((2, PAIRS[:70]), (4, PAIRS[:-1]), (7, changed(PAIRS, at224=b"\7"))):
            self.assertEqual(run("draw", self.written(content)), (1, f"refused {number}\n", ""))


class Text(unittest.TestCase):
    def test_every_kind_is_complete_and_inside(self):
        for name, (settings, lengths, free, sizes) in KINDS.items():
            picture = drawn(chains(settings, lengths, free, sizes), settings)
            root = ET.fromstring(picture)
            width, height = int(root.get("width")), int(root.get("height"))
            self.assertEqual((width, root.get("viewBox")), (1000, f"0 0 {width} {height}"))
            self.assertLess(len(picture), 3_000_000, name)
            for left, top, right, bottom in extents(root):
                self.assertTrue(0 <= left <= right <= width, (name, left, right))
                self.assertTrue(0 <= top <= bottom <= height, (name, top, bottom))

    def test_plan_of_each_kind(self):
        for name, (settings, lengths, free, sizes) in KINDS.items():
            plan = sheet_of(chains(settings, lengths, free, sizes), Counts(0, 0, 0, 0), settings).plan
            self.assertEqual((plan.panels, plan.width, plan.height, plan.per_line), PLANS[name], name)

    def test_stands_alone(self):
        picture = drawn(chains(*KINDS["one line"]), KINDS["one line"][0])
        for word in ("<script", "<style", "<image", "href", "url(", "@import", "<!", "on"):
            self.assertNotRegex(picture, rf"{re.escape(word)}=" if word == "on" else re.escape(word))
        self.assertEqual(re.findall(r"https?://[^\" ]*", picture), ["http://www.w3.org/2000/svg"])

    def test_white_ground(self):
        ground = ET.fromstring(drawn([Tier(1, 0, 0, ())], X))[0]
        self.assertEqual((ground.tag, ground.get("fill")), (NAME + "rect", "#fff"))

    def test_counts(self):
        store, _ = worked(5)
        words = texts(svg(store.tiers(), store.counts(), store.settings, "x.store"))
        self.assertEqual(words[0], "x.store")
        self.assertEqual(words[1], "1 segment, 4 slots and 8 chunks of 8 bytes in each tier")
        self.assertEqual(dict(zip(words[3:14:2], words[2:14:2])), {
            "entries": "4", "marked chunks": "4", "chained tiers": "2", "free tiers": "0",
            "fill of chained tiers": "25.0 %", "fill of all tiers": "25.0 %",
        })

    def test_fill_is_rounded_down(self):
        settings = Settings(slots=4096, chunks=4096)
        fills = {0: "0.0 %", 1: "< 0.1 %", 4: "< 0.1 %", 5: "0.1 %", 4095: "99.9 %", 4096: "100.0 %"}
        for chunks, text in fills.items():
            words = texts(svg([Tier(1, 0, 0, ())], Counts(0, chunks, 1, 0), settings, ""))
            self.assertEqual(words[10:12], [text, "fill of chained tiers"])
        words = texts(svg([Tier(1, 0, 0, ())], Counts(0, 4096, 1, 3), settings, ""))
        self.assertEqual(words[10:14:2], ["100.0 %", "25.0 %"])

    def test_title(self):
        for title, shown in (
            ("a <b> & 'c' \"d\".store", "a <b> & 'c' \"d\".store"),
            ("", None),
            ("a\0b\x1fc\udcffd\ufffee\u202ef", "a\ufffdb\ufffdc\ufffdd\ufffde\ufffdf"),
            ("\u4ea4\u901a.store", "\u4ea4\u901a.store"),
            ("x" * 60 + ".store", "x" * 60 + ".store"),
            ("x" * 99 + ".store", "x" * 46 + "\u2026" + "x" * 10 + ".store"),
            ("W" * 99 + ".store", "W" * 30 + "\u2026" + "W" * 6 + ".store"),
            ("\u4ea4" * 99 + ".store", "\u4ea4" * 30 + "\u2026" + "\u4ea4" * 6 + ".store"),
        ):
            picture = drawn([Tier(1, 0, 0, ())], X, title)
            self.assertEqual(texts(picture.encode())[0], shown, title)

    def test_legend_tells_what_is_there_and_no_more(self):
        full = Tier(1, 0, 0, tuple(entry(1, slot, slot, 1) for slot in range(3)))
        wide, strips = KINDS["lines of 32"], KINDS["strips"]
        cases = {
            "free chunks of a chained tier": (drawn([full], X), drawn(chains(*strips), strips[0])),
            "free tier: of no segment": (drawn([full, Tier(2, None, 0, ())], X), drawn([full], X)),
            "bold: no room left": (drawn([full], X), drawn([Tier(1, 0, 0, full.entries[:2])], X)),
            "in an entry: its key": (drawn([full], X), drawn([Tier(1, 0, 0, ())], X)),
            "first chunk of that line": (drawn(chains(*wide), wide[0]), drawn([full], X)),
            "or at an entry to see its key": (drawn([full], X), drawn(chains(*strips), strips[0])),
            "Too large to draw each entry": (drawn(chains(*strips), strips[0]), drawn([full], X)),
            "marked chunks: none, below 25 %": (drawn(chains(*strips), strips[0]), drawn([full], X)),
        }
        for words, (there, absent) in cases.items():
            self.assertIn(words, there)
            self.assertNotIn(words, absent)


class Rows(unittest.TestCase):
    def test_numbers_of_each_tier(self):
        settings, lengths, free, sizes = KINDS["one line"]
        tiers = chains(settings, lengths, free, sizes)
        words = texts(drawn(tiers, settings))
        for tier in tiers[:-free]:
            marked = sum(e.row.chunks for e in tier.entries)
            row = [str(tier.segment), str(tier.tier), f"{tier.order + 1}/{lengths[tier.segment]}"]
            row += [f"{len(tier.entries)}/32", f"{marked}/40"]
            self.assertTrue(any(words[i:i + 5] == row for i in range(len(words))), row)
        start = words.index("Free tiers, the next to be taken first") + 1
        self.assertEqual(words[start:], [w for n in range(11, 15) for w in ("-", str(n), "free", "0/32", "0/40")])

    def test_tooltip_of_a_tier(self):
        tiers = [Tier(1, 0, 0, (entry(1, 0, 0, 2), entry(1, 1, 5, 1))), Tier(2, 0, 1, ()), Tier(3, None, 0, ())]
        titles = [title.text for title in ET.fromstring(drawn(tiers, X)).iter(NAME + "title")]
        self.assertEqual([title.split("\n") for title in titles if title.startswith("tier ")], [
            ["tier 1: 1 of 2 in the chain of segment 0", "2 of 4 slots full", "3 of 8 chunks marked",
             "longest run of free chunks: 3"],
            ["tier 2: 2 of 2 in the chain of segment 0", "0 of 4 slots full", "0 of 8 chunks marked",
             "longest run of free chunks: 8"],
            ["tier 3: 1 of 1 in the free chain", "0 of 4 slots full", "0 of 8 chunks marked",
             "longest run of free chunks: 8"],
        ])

    def test_bold_where_there_is_no_room(self):
        slots = Tier(1, 0, 0, tuple(entry(1, slot, slot, 1) for slot in range(3)))
        chunks = Tier(2, 0, 1, (entry(2, 0, 0, 4), entry(2, 1, 4, 4)))
        root = ET.fromstring(drawn([slots, chunks], X))
        bold = [text.text for text in root.iter(NAME + "text") if text.get("font-weight") == "bold"]
        self.assertEqual(bold, ["a.store", "7/8", "3/4", "8/8"])

    def test_free_tiers_beyond_the_limit(self):
        for free in (MOST_FREE, MOST_FREE + 1, MOST_FREE + 1000):
            words = texts(drawn(chains(X, [1], free, (1,)), X))
            self.assertEqual(words.count("free"), MOST_FREE)
            left = [word for word in words if word.startswith("and ")]
            expected = [f"and {free - MOST_FREE:,} more free tiers, which are not drawn"] if free > MOST_FREE else []
            self.assertEqual(left, expected)

    def test_free_tiers_are_outlined(self):
        for name in ("one line", "lines of 32", "strips"):
            settings, lengths, _, sizes = KINDS[name]
            pictures = [drawn(chains(settings, lengths, free, sizes), settings) for free in (0, 1, 3)]
            self.assertEqual([picture.count('stroke="#9aa5b1"') for picture in pictures], [0, 2, 4], name)

    def test_outline_follows_the_last_line(self):
        settings = Settings(slots=128, chunks=100)
        picture = drawn([Tier(1, 0, 0, ()), Tier(2, None, 0, ())], settings)
        self.assertIn('d="M-.5 -.5H574.5V52.5H70.5V70.5H-.5z"', picture)


class Shapes(unittest.TestCase):
    def test_tooltip_of_each_entry(self):
        settings, lengths, free, sizes = KINDS["one line"]
        tiers = chains(settings, lengths, free, sizes)
        expected = [
            f"key {key.hex()} (2 bytes)\nrecord of 4 bytes\nslot {row.slot}\n"
            + (f"chunk {row.chunk}" if row.chunks == 1 else f"chunks {row.chunk} to {row.chunk + row.chunks - 1}")
            for tier in tiers for row, key, _ in tier.entries
        ]
        self.assertEqual(tooltips(drawn(tiers, settings)), expected)

    def test_tooltip_of_a_long_key(self):
        keys = {1: "ab (1 byte)", 64: "ab" * 64 + " (64 bytes)", 1024: "ab" * 60 + "... (1,024 bytes)"}
        for length, shown in keys.items():
            tier = Tier(1, 0, 0, (entry(1, 0, 0, 1, key=b"\xab" * length),))
            self.assertEqual(tooltips(drawn([tier], X)), [f"key {shown}\nrecord of 4 bytes\nslot 0\nchunk 0"])

    def test_a_line_ends_within_an_entry(self):
        plan = Plan(1, 12, 10, 10, 4, 3, 0, 0)
        self.assertEqual(shape(plan, 0, 1), "M0 0h9v9h-9z")
        self.assertEqual(shape(plan, 1, 3), "M10 0h29v9h-29z")
        self.assertEqual(shape(plan, 3, 6), "M30 0h10v9h-10zM0 10h40v9h-40zM0 20h9v9h-9z")

    def test_shapes_cover_the_chunks_of_their_entries(self):
        """By both ways to draw entries: each on its own, and all of a colour at once."""
        settings = Settings(slots=128, chunks=100)
        tier = Tier(1, 0, 0, filled(settings, (1, 2, 7)))
        few = ET.fromstring(drawn([tier], settings))
        many = ET.fromstring(svg([tier], Counts(MOST_TOOLTIPS + 1, 0, 1, 0), settings, ""))
        expected = {c for e in tier.entries for c in range(e.row.chunk, e.row.chunk + e.row.chunks)}
        for root in (few, many):
            rows = [g for g in root if g.find(NAME + "title") is not None]
            covered = [c for path in rows[0].iter(NAME + "path") if path.get("fill") for c in self.chunks(path)]
            self.assertEqual((len(covered), set(covered)), (len(expected), expected))
        self.assertEqual(len(tooltips(ET.tostring(few))), len(tier.entries))
        self.assertEqual(tooltips(ET.tostring(many)), [])

    @staticmethod
    def chunks(path):
        """The chunks, in boxes of 18 pixels with 32 in a line, that a path covers."""
        for left, top, width in re.findall(r"M(\d+) (\d+)h(\d+)v16h-\d+z", path.get("d")):
            first = int(left) // 18 + int(top) // 18 * 32
            yield from range(first, first + -(-int(width) // 18))

    def test_neighbours_have_other_colours(self):
        for name in ("one line", "lines of 32", "lines of 48", "lines of 96", "two panels"):
            settings, lengths, _, sizes = KINDS[name]
            root = ET.fromstring(drawn(chains(settings, lengths[:1], 0, sizes), settings))
            fills = [path.get("fill") for path in root.iter(NAME + "path") if path.find(NAME + "title") is not None]
            self.assertGreater(len(fills), 3)
            breaks = len(chains(settings, lengths[:1], 0, sizes)) - 1  # a tier starts anew
            self.assertLessEqual(sum(a == b for a, b in zip(fills, fills[1:])), breaks, name)

    def test_colours_make_no_stripes(self):
        settings = Settings(slots=4096, chunks=4096)
        tier = Tier(1, 0, 0, tuple(entry(1, chunk, chunk, 1) for chunk in range(4095)))
        root = ET.fromstring(drawn([tier], settings))
        fills = [path.get("fill") for path in root.iter(NAME + "path") if path.find(NAME + "title") is not None]
        self.assertEqual(len(fills), 4095)
        self.assertTrue(all(a != b for a, b in zip(fills, fills[64:])))

    def test_keys_that_fit(self):
        keys = (b"\1\2", b"\1\2\3\4\5", b"\1\2\3\4\5\6", bytes(11), bytes(12))
        chunks = (1, 1, 1, 2, 2)
        entries = tuple(entry(1, i, sum(chunks[:i]), n, key=key) for i, (key, n) in enumerate(zip(keys, chunks)))
        words = texts(drawn([Tier(1, 0, 0, entries)], X))
        self.assertEqual([key.hex() in words for key in keys], [True, True, False, True, False])

    def test_text_on_colours_can_be_read(self):
        for fill, ink in COLOURS:
            light, dark = sorted(map(luminance, (fill, ink)), reverse=True)
            self.assertGreaterEqual((light + 0.05) / (dark + 0.05), 4.5, fill)


class Large(unittest.TestCase):
    def strips(self, tier, chunks=4096):
        """The shades of a tier among many, and their columns."""
        settings = Settings(segments=64, slots=4096, chunks=chunks)
        tiers = [tier] + [Tier(i + 1, i, 0, ()) for i in range(1, 64)]
        root = ET.fromstring(drawn(tiers, settings))
        row = next(g for g in root if g.find(NAME + "title") is not None)
        paths = [path for path in row.iter(NAME + "path") if path.get("stroke") in SHADES]
        return {SHADES.index(path.get("stroke")): re.findall(r"M(\d+) 0h(\d+)", path.get("d")) for path in paths}

    def test_shades(self):
        """A strip of 638 columns, of 6 or 7 chunks each."""
        half = [entry(1, slot, slot, 1) for slot in range(0, 2048)]
        self.assertEqual(self.strips(Tier(1, 0, 0, tuple(half))), {4: [("0", "319")]})
        columns = [range(i * 4096 // 638, (i + 1) * 4096 // 638) for i in range(638)]
        some = [entry(1, 0, c, 1) for i, column in enumerate(columns[:8]) for c in column[:i]]
        marked = [(min(i, len(column)), len(column)) for i, column in enumerate(columns[:8])]
        levels = [4 * n // size for n, size in marked]
        expected = {}
        for level in set(levels[1:]):
            first = levels.index(level, 1)
            expected[level] = [(str(first), str(levels[1:].count(level)))]
        self.assertEqual(self.strips(Tier(1, 0, 0, tuple(some))), expected)

    def test_many_entries(self):
        settings = Settings(segments=64, slots=4096, chunks=4096)
        entries = tuple(entry(1, slot, slot, 1) for slot in range(4095))
        tiers = [Tier(i + 1, i, 0, entries) for i in range(64)]
        picture = drawn(tiers, settings)
        self.assertIn("262,080", texts(picture))
        self.assertLess(len(picture), 100_000)
        self.assertLess(len(list(ET.fromstring(picture).iter())), 1500)

    def test_the_largest_store(self):
        """1,024 tiers of 4,096 chunks, as rugged as they can be: each column has another shade than the next."""
        settings = Settings(segments=256, slots=1024, chunks=4096, chunk_size=1)
        choice = random.Random(5)
        entries = tuple(entry(1, 0, chunk, choice.choice((1, 3, 6))) for chunk in range(0, 4090, 7))
        tiers = [Tier(i + 1, i // 4, i % 4, entries) for i in range(1024)]
        picture = drawn(tiers, settings)
        root = ET.fromstring(picture)
        self.assertLess(len(picture), 4_000_000)
        self.assertLess(int(root.get("height")), 8000)
        self.assertEqual(sum(title.text.startswith("tier ") for title in root.iter(NAME + "title")), 1024)

    def test_limit_of_tooltips(self):
        settings = Settings(segments=4, slots=4096, chunks=4096)
        for last, told in ((MOST_TOOLTIPS - 4095, MOST_TOOLTIPS), (MOST_TOOLTIPS - 4094, 0)):
            sizes = (4095, last)
            tiers = [Tier(i + 1, i, 0, tuple(entry(i + 1, s, s, 1, i) for s in range(n))) for i, n in enumerate(sizes)]
            picture = drawn(tiers, settings)
            self.assertEqual(len(tooltips(picture)), told)
            self.assertEqual("Too many entries to tell of each" in picture, not told)


if __name__ == "__main__":
    unittest.main()

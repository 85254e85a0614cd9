"""Where the tables of docs/FORMAT.md put things: blocks, and the places of an image by their labels.

No offset of the format stands in this file. All of them come from the page.
"""
import re

from page import number, plain, value_of

STATE = ("bulkCount", "firstFree", "usedTiers", "headersOffset", "storeSize")
UNREAD_AREAS = re.compile("gap|inner offset")


class Names(dict):
    """Numbers by name; a name that is not there is worked out by the page's formula for it."""

    def __init__(self, page, numbers):
        super().__init__(numbers)
        self.page = page

    def __missing__(self, name):
        formulas = self.page.table("The image", "name")
        row = next((row for row in formulas if plain(row["name"]) == name), None)
        if row is None:
            raise LookupError("the page has no formula for " + name)
        return value_of(row["formula"], self)


class Format:
    """What the page says of every store."""

    def __init__(self, page):
        self.page = page
        parts = {row["part"]: row for row in page.table("A store file", "part")}
        self.block_size = number(parts["settings block"]["bytes"])
        self.block_order, self.image_order = (
            parts[part]["byte order of its numbers"].split("-")[0] for part in ("settings block", "image"))
        self.image_at = number(parts["image"]["starts at"])
        self.head = page.table("The settings block", "offset")
        self.fields = page.table("The settings block", "field")
        self.names = [plain(row["name"]) for row in self.fields]

    def block(self, fields):
        """The settings block with these fields."""
        out = bytearray(self.block_size)
        for row in self.head[:2]:
            self._put(out, number(row["offset"]), number(row["bytes"]), number(row["value"]))
        for row in self.fields:
            self._put(out, number(row["offset"]), 4, fields[plain(row["name"])])
        return bytes(out)

    def _put(self, out, at, width, value):
        out[at:at + width] = value.to_bytes(width, self.block_order)

    def fields_of(self, block):
        def field(row):
            at = number(row["offset"])
            return int.from_bytes(block[at:at + 4], self.block_order)
        return {plain(row["name"]): field(row) for row in self.fields}

    def layout(self, fields, image):
        return Layout(self, fields, image)


class Layout:
    """The places of one image. A place is an offset and a number of bytes."""

    def __init__(self, form, fields, image):
        self.page, self.order, self.image = form.page, form.image_order, image
        self.names = Names(form.page, dict(fields, imageLength=len(image)))
        for name in STATE:
            self.names[name] = self.read("global state: " + name)

    # ---- reading and writing

    def read(self, label):
        at, size = self.place(label)
        return int.from_bytes(self.image[at:at + size], self.order)

    def write(self, label, value):
        at, size = self.place(label)
        self.image[at:at + size] = value.to_bytes(size, self.order)
        name = label.rpartition(": ")[2]
        if name in STATE:
            self.names[name] = value

    def counter(self, tier, name):
        """The label of a counter of a tier, by the page's column for its kind; None if it is not read."""
        segments = self.names["segments"]
        kind = "main tier" if tier <= segments else "free tier" if tier in self.free() else "extra tier, chained"
        row = next(row for row in self.page.table("Counters", "offset") if plain(row["name"]) == name)
        labels = {"here": "tier %d, counters: %s" % (tier, name),
                  "segment header": "segment header %d: %s" % (tier - 1, name),
                  "not read": None}
        return labels[row[kind]]

    def free(self):
        """The tiers of the free chain."""
        tiers, tier = [], self.names["firstFree"]
        while tier:
            tiers.append(tier)
            tier = self.read("tier %d, counters: next" % tier)
        return tiers

    def marked(self, tier):
        """The marked chunks of a tier, by the page's rule for bits."""
        at, _ = self.place("tier %d, free list" % tier)
        return [i for i in range(self.names["chunks"]) if self.image[at + i // 8] >> i % 8 & 1]

    # ---- places

    def value(self, formula, **more):
        names = Names(self.page, self.names)
        names.update(more)
        return value_of(formula, names)

    def place(self, label):
        """Where a label of the page's tables stands."""
        label = plain(label)
        if label.startswith("global state: "):
            return self._field("Global state", self.value("globalAt"), label)
        header = re.match(r"segment header (\d+): ", label)
        if header:
            return self._field("Segment header", self.value("headerAt", s=int(header[1])), label)
        tier = re.match(r"tier (\d+), ", label)
        if tier:
            return self._in_tier(int(tier[1]), label[tier.end():])
        return self._area("The image", "area of the image", label)

    def tier_at(self, tier):
        return self.value("mainTierAt" if tier <= self.names["segments"] else "extraTierAt", t=tier)

    def _in_tier(self, tier, label):
        part = re.match(r"(slot|chunk)s? (\d+)(?: to (\d+))?", label)
        if label.startswith("counters: "):
            at, _ = self._area("Tier", "area of a tier", "counters")
            return self._field("Counters", self.tier_at(tier) + at, label)
        if part is None:
            at, size = self._area("Tier", "area of a tier", label)
            return self.tier_at(tier) + at, size
        kind, first, last = part[1], int(part[2]), int(part[3] or part[2])
        at, _ = self._area("Tier", "area of a tier", kind + "s")
        size = self.names[kind + "Size"]
        start = self.tier_at(tier) + at + first * size
        if ": " in label:
            return self._entry_part(start, label.partition(": ")[2])
        return start, (last - first + 1) * size

    def _entry_part(self, at, wanted):
        """Part of the entry at an offset. The page's order of the parts decides."""
        length = 0
        for row in self.page.table("Entries", "part of an entry"):
            size = length
            if row["part of an entry"].endswith("length"):
                length, size = length_at(self.image, at)
            if row["part of an entry"] == wanted:
                return at, size
            at += size
        raise LookupError("an entry has no " + wanted)

    def _area(self, section, first, name):
        row = next(row for row in self.page.table(section, first) if row[first] == name)
        return self.value(row["starts at"]), self.value(row["bytes"])

    def _field(self, section, base, label):
        name = label.rpartition(": ")[2]
        row = next(row for row in self.page.table(section, "offset") if plain(row["name"]) == name)
        return base + number(row["offset"]), self.value(row["bytes"])

    # ---- bytes that the page says nobody touches

    def untouched(self):
        """Ranges of bytes that are never read and never written."""
        names = self.names
        labels = [row["area of the image"] for row in self.page.table("The image", "area of the image")]
        labels = [label for label in labels if UNREAD_AREAS.match(label)]
        labels += ["global state: lock"]
        for segment in range(names["segments"]):
            labels += ["segment header %d: %s" % (segment, name) for name in ("lock", "reserved")]
        for tier in range(1, names["tiers"] + 1):
            labels += self._untouched_in(tier)
        for label in labels:
            at, size = self.place(label)
            yield range(at, at + size)
        yield from self._bulk_gaps()

    def _untouched_in(self, tier):
        areas = [row["area of a tier"] for row in self.page.table("Tier", "area of a tier")]
        labels = [area for area in areas if UNREAD_AREAS.match(area)]
        counters = [plain(row["name"]) for row in self.page.table("Counters", "offset")]
        if tier <= self.names["segments"]:
            here = "tier %d, counters: " % tier
            labels += ["counters: " + name for name in counters if self.counter(tier, name) != here + name]
        else:
            labels.append("counters: reserved")
        return ["tier %d, %s" % (tier, label) for label in labels]

    def _bulk_gaps(self):
        for bulk in range(self.names["bulkCount"]):
            start = self.value("bulksAt + b * bulkSize", b=bulk)
            for row in self.page.table("The image", "area of a bulk"):
                if UNREAD_AREAS.match(row["area of a bulk"]):
                    at = start + self.value(row["starts at"])
                    yield range(at, at + self.value(row["bytes"]))


def length_at(image, at):
    """An LEB128 length, and its number of bytes."""
    value = size = 0
    while True:
        byte = image[at + size]
        value += byte % 128 << 7 * size
        size += 1
        if byte < 128:
            return value, size


def altered(image, cell, left_by):
    """The image that a cell `after W3; 96 = 07; 8 bytes more` describes. `left_by` gives what a worked edit left."""
    image = bytearray(image)
    for step in cell.split("; "):
        words = step.split()
        if words[0] == "after":
            image = bytearray(left_by(words[1]))
        elif words[0] == "cut":
            del image[number(words[2]):]
        elif words[-1] == "more":
            image += bytes(number(words[0]))
        else:
            at, _, value = step.partition(" = ")
            image[int(at)] = int(value, 16)
    return image

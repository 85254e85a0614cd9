"""What the tests share: the page, the sample, and the calls of the package by the numbers that they answer."""
import operator
from collections import namedtuple
from pathlib import Path

import chronicle_map
from layout import Format
from page import Page, some_bytes

ROOT = Path(__file__).resolve().parents[2]
PAGE = Page((ROOT / "docs" / "FORMAT.md").read_text(encoding="utf-8"))
FORM = Format(PAGE)
SAMPLE = (ROOT / "examples" / "pairs.store").read_bytes()
BLOCK, IMAGE = SAMPLE[:FORM.image_at], SAMPLE[FORM.image_at:]
FIELDS = FORM.fields_of(BLOCK)

# What a call is given beside block and image. These keys and pairs are absent from the sample.
Given = namedtuple("Given", "key record pair delay n")
ABSENT = Given(key=b"\x09\x09", record=b"1234", pair=(7, 8), delay=5, n=100)

# By the names of the page. A call that found nothing gives False, or raises KeyError.
CALLS = {
    "check": lambda store, given: store.counts(),
    "lookup": lambda store, given: store.lookup(given.key).found,
    "remove": lambda store, given: operator.delitem(store, given.key),
    "store": lambda store, given: store.put(given.key, given.record),
    "tight store": lambda store, given: store.put(given.key, given.record, tight=True),
    "grow": lambda store, given: store.grow(),
    "entry": lambda store, given: store.entry(given.n) is not None,
    "delay": lambda store, given: store.delay(*given.pair) is not None,
    "set delay": lambda store, given: store.set_delay(*given.pair, given.delay),
    "quick lookup": lambda store, given: store.quick_lookup(given.key).found,
    "quick delay": lambda store, given: store.quick_delay(*given.pair) is not None,
}


def answer(call, block, image, given=ABSENT):
    """The number that a call answers. `image` is edited by a call that edits, so it is a bytearray then."""
    try:
        found = CALLS[call](chronicle_map.Store(block, image), given)
    except chronicle_map.Refused as refused:
        return int(refused.number)
    except KeyError:
        return 1
    return 1 if found is False else 0


def left_by(edit):
    """The image that a worked edit of the page leaves."""
    return started_and_left(edit)[1]


def started_and_left(edit):
    """The image that a worked edit starts from, and the one that it leaves."""
    row = next(row for row in PAGE.table("Worked edits", "edit") if row["edit"] == edit)
    base, _, more = row["starts from"].partition(", ")
    image = bytearray(IMAGE if base == "the sample" else left_by(base))
    if more:
        count, byte = more.replace(" more", "").split(" bytes ")
        image += some_bytes("%s x %s" % (count, byte))
    start = bytes(image)
    given = ABSENT._replace(key=some_bytes(row["key"]), record=some_bytes(row["record"]))
    number = answer(row["call"], BLOCK, image, given)
    if number:
        raise AssertionError("%s is answered with %d" % (edit, number))
    return start, bytes(image)

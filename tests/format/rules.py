"""The page's rules against the library: each broken by its example, and which counters a tier's kind reads."""
import sys
import unittest

from common import BLOCK, FIELDS, FORM, IMAGE, PAGE, ROOT, answer, left_by
from layout import altered
from page import plain

RULES = PAGE.table("What makes an image accepted", "rule")
# The names that the model in tests/lister has for the rules. A main tier's previous is one of three fields of rule 5.1.
NAMES = {
    "4.1": "state", "4.2": "headers", "4.3": "tiers", "4.4": "size", "4.5": "image length",
    "5.1": "previous", "5.2": "not an extra tier", "5.3": "previous", "5.4": "tier twice", "5.5": "tier twice",
    "5.6": "tier in no chain", "5.7": "used",
    "6.1": "higher bits", "6.2": "first chunk", "6.3": "shortest form", "6.4": "key length", "6.5": "most chunks",
    "6.6": "range", "6.7": "lookup key", "6.8": "gap", "6.9": "no empty slot", "6.10": "key twice",
    "7.1": "shared chunk", "7.2": "bit of no entry", "7.3": "count", "7.4": "low", "7.5": "free tier's bit",
}


class Rules(unittest.TestCase):
    def test_broken_rules_are_answered_with_their_number(self):
        for row in RULES:
            with self.subTest(row["rule"]):
                image = altered(IMAGE, row["broken by"], left_by)
                self.assertEqual(answer("check", BLOCK, image), int(row["rule"].split(".")[0]))

    @unittest.skipIf(sys.version_info < (3, 10), "the model in tests/lister needs Python 3.10")
    def test_examples_break_their_own_rule_alone(self):
        sys.path.append(str(ROOT / "tests" / "lister"))
        import model
        settings = model.Settings(*FIELDS.values())
        for row in RULES:
            with self.subTest(row["rule"]):
                image = altered(IMAGE, row["broken by"], left_by)
                self.assertEqual(model.check_image(settings, image)[1], {NAMES[row["rule"]]})

    def test_numbers_name_all_rules(self):
        said = []
        for row in PAGE.table("Numbers", "number"):
            if row["when"].startswith("a rule "):
                ends = row["when"].split(" is broken")[0].replace("a rule ", "").split(" to ")
                stages, (first, last) = zip(*(end.split(".") for end in ends))
                self.assertEqual(set(stages), {row["number"]})
                said += ["%s.%d" % (row["number"], n) for n in range(int(first), int(last) + 1)]
        self.assertEqual(said, [row["rule"] for row in RULES])

    def test_what_a_quick_call_meets(self):
        for i, row in enumerate(PAGE.table("Numbers", "case")):
            with self.subTest(row["case"]):
                image = altered(IMAGE, row["broken by"], left_by)
                self.assertEqual("%d.%d" % (answer("quick lookup", BLOCK, image), i + 1), row["case"])


class Counters(unittest.TestCase):
    """In a tier of each kind every byte of the counters is changed: where the column says `here`, it is refused."""

    def test_main_tier(self):
        self.tier(IMAGE, 1, "main tier")

    def test_chained_tier(self):
        self.tier(left_by("W5"), 2, "extra tier, chained")

    def test_free_tier(self):
        self.tier(IMAGE, 2, "free tier")

    def tier(self, image, tier, kind):
        layout = FORM.layout(FIELDS, bytearray(image))
        for row in PAGE.table("Counters", "offset"):
            at, size = layout.place("tier %d, counters: %s" % (tier, plain(row["name"])))
            for i in range(at, at + size):
                changed = bytearray(image)
                changed[i] ^= 0x55
                with self.subTest(row["name"], byte=i):
                    self.assertEqual(answer("check", BLOCK, changed) > 0, row[kind] == "here")

"""Holds docs/FORMAT.md to examples/pairs.store and to the library.

    python3 tests/format/test_format.py

The page is read, not repeated: offsets, ranges, rules, edits and hashes come from its tables. The library is that of
the package in bindings/python (`make lib`, or CHRONICLE_MAP_LIB).
"""
import sys
import unittest
from pathlib import Path

HERE = Path(__file__).resolve().parent
sys.path[:0] = [str(HERE), str(HERE.parents[1] / "bindings" / "python")]

import answers  # noqa: E402
import blocks  # noqa: E402
import histories  # noqa: E402
import images  # noqa: E402
import rules  # noqa: E402
import sample  # noqa: E402


def load_tests(loader, tests, pattern):
    for module in (sample, rules, blocks, images, histories, answers):
        tests.addTests(loader.loadTestsFromModule(module))
    return tests


if __name__ == "__main__":
    unittest.main()

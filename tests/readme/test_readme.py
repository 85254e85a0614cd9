"""Holds README to the code: its examples print what it says, its tables name what is there, links lead somewhere."""
from __future__ import annotations

import os
import re
import shutil
import subprocess
import sys
import tempfile
import unittest
from pathlib import Path

ROOT = Path(__file__).resolve().parents[2]
README = (ROOT / "README.md").read_text(encoding="utf-8")
HEADER = (ROOT / "include/chronicle_map.h").read_text(encoding="utf-8")
ARCHIVE = Path(os.environ.get("CHRONICLE_MAP_ARCHIVE", ROOT / "target/staticlib/libchronicle_map_c.a"))
sys.path.insert(0, str(ROOT / "bindings/python"))

from chronicle_map import Number, Store  # noqa: E402


def example(language: str) -> str:
    """README's one example in a language."""
    found = re.findall(rf"^```{language}\n(.*?)^```$", README, re.MULTILINE | re.DOTALL)
    if len(found) != 1:
        raise AssertionError(f"README has {len(found)} examples in {language}")
    return str(found[0])


def section(name: str) -> str:
    return README.split(f"\n## {name}\n", 1)[1].split("\n## ", 1)[0]


def first_cells(table_head: str) -> list[str]:
    """The first cells of the rows of the table whose head begins so."""
    rows = README.split(f"\n{table_head}", 1)[1].split("\n\n", 1)[0].splitlines()[2:]
    return [row.strip("| ").split(" | ")[0] for row in rows]


class Examples(unittest.TestCase):
    def setUp(self) -> None:
        self.folder = Path(tempfile.mkdtemp())
        self.addCleanup(shutil.rmtree, self.folder)
        shutil.copy(ROOT / "examples/pairs.store", self.folder / "my.store")

    def run_in_folder(self, *command: str, sample: bytes = b"") -> str:
        env = {**os.environ, "PYTHONPATH": str(ROOT / "bindings/python")}
        done = subprocess.run(command, cwd=self.folder, env=env, input=sample, stdout=subprocess.PIPE, check=True)
        return done.stdout.decode()

    def test_python(self) -> None:
        text = example("python")
        due = re.findall(r"^ *print\(.*\) +# (.*)$", text, re.MULTILINE)
        self.assertEqual(len(due), text.count("print("))
        (self.folder / "first.py").write_text(text, encoding="utf-8")
        self.assertEqual(self.run_in_folder(sys.executable, "first.py").splitlines(), due)

    def test_c(self) -> None:
        if shutil.which("gcc") is None:
            self.skipTest("there is no gcc on this machine")
        (self.folder / "first.c").write_text(example("c"), encoding="utf-8")
        options = ["-std=c99", "-Wall", "-Wextra", "-Werror", f"-I{ROOT / 'include'}"]
        self.run_in_folder("gcc", *options, "first.c", str(ARCHIVE), "-o", "first")
        due = re.findall(r"^ *\./first < \S+ +# (.*)$", section("From C"), re.MULTILINE)
        sample = (self.folder / "my.store").read_bytes()
        self.assertEqual(self.run_in_folder("./first", sample=sample).splitlines(), due)

    def test_commands(self) -> None:
        """They run one after the other, and what the last one draws has the pair of the one before."""
        commands = re.findall(r"^    python3 (-m chronicle_map .*)$", section("From Python"), re.MULTILINE)
        self.assertEqual([command.split()[2] for command in commands], ["list", "set-delay", "draw"])
        printed = [self.run_in_folder(sys.executable, *command.split(" > ")[0].split()) for command in commands]
        self.assertEqual(printed[0].splitlines()[-1], "entries 2 chunks 2 tiers 1 free 1")
        self.assertEqual(printed[1], "")
        self.assertIn("0304", printed[2])


class Tables(unittest.TestCase):
    def test_numbers(self) -> None:
        """README's numbers are the header's, in the same order, and Python's."""
        named = [int(n) for cell in first_cells("| number | when |") for n in cell.split(", ")]
        in_header = [int(n) for n in re.findall(r"^    CHRONICLE_MAP_\w+ = (\d+)", HEADER, re.MULTILINE)]
        self.assertEqual(named, in_header)
        self.assertEqual(named, [int(number) for number in Number])

    def test_calls(self) -> None:
        """Every function of the header but the hash has its row, and every name of the Python column is there."""
        table = section("The calls").split("\n\n| number")[0]
        named = {name for cell in first_cells("| C | Python |") for name in re.findall(r"`(\w+)`", cell)}
        in_header = set(re.findall(r"^uint\d+_t chronicle_map_(\w+)\(", HEADER, re.MULTILINE))
        self.assertEqual(named, in_header - {"xxh64"})
        methods = re.findall(r"`(?:store)?\.(\w+)", table)
        self.assertGreater(len(methods), 10)
        self.assertEqual([name for name in methods if not hasattr(Store, name)], [])


class Links(unittest.TestCase):
    def test_links(self) -> None:
        """Each link of README and of the documents leads to a file of the repository."""
        lost = []
        for page in [ROOT / "README.md", ROOT / "bindings/python/README.md", *sorted((ROOT / "docs").rglob("*.md"))]:
            text = page.read_text(encoding="utf-8")
            for target in re.findall(r"\]\(([^)#:\s]+)(?:#[^)\s]*)?\)", text):
                if not (page.parent / target).exists():
                    lost.append(f"{page.relative_to(ROOT)}: {target}")
        self.assertEqual(lost, [])


if __name__ == "__main__":
    unittest.main()

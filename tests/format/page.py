"""docs/FORMAT.md taken apart: its tables by section, and what its cells say."""
import ast
import functools
import operator
import re

OPERATORS = {
    ast.Add: operator.add,
    ast.Sub: operator.sub,
    ast.Mult: operator.mul,
    ast.Div: operator.floordiv,
    ast.Mod: operator.mod,
    ast.Pow: operator.pow,
}


class Page:
    """The tables of a page. A table is a list of rows, a row a dict from the column's heading to the cell."""

    def __init__(self, text):
        self.text = text
        self.sections = {}
        title, lines, drawn = "", [], False
        for line in text.splitlines() + ["# "]:
            drawn ^= line.startswith("```")
            if drawn:
                continue
            if line.startswith("#"):
                self.sections[title] = list(_tables(lines))
                title, lines = line.lstrip("#").strip(), []
            else:
                lines.append(line)

    def table(self, section, first):
        """The table of a section by the heading of its first column."""
        return next(table for table in self.sections[section] if next(iter(table[0])) == first)

    def sentence(self, pattern):
        """The numbers that a sentence of the page has at the groups of a pattern."""
        words = " ".join(self.text.split())
        found = re.search(pattern, words)
        if not found:
            raise LookupError("the page does not say: " + pattern)
        return [number(group) for group in found.groups()]


def _tables(lines):
    rows = []
    for line in lines + [""]:
        if line.startswith("|"):
            rows.append([cell.strip() for cell in line.strip().strip("|").split("|")])
        elif rows:
            headings = rows[0]
            if any(len(row) != len(headings) for row in rows):
                raise ValueError("a row has more or fewer cells than its table: " + " | ".join(headings))
            yield [dict(zip(headings, row)) for row in rows[2:]]
            rows = []


def plain(cell):
    """A cell without the marks of code."""
    return cell.replace("`", "")


def number(cell):
    return int(cell.replace(",", ""))


def span(cell):
    """`a..b`, or one offset, as a range."""
    first, _, last = cell.partition("..")
    return range(int(first), int(last or first) + 1)


def some_bytes(cell):
    """`01 02` or `8 x 00`."""
    many, times, one = cell.partition(" x ")
    return bytes.fromhex(one) * int(many) if times else bytes.fromhex(cell)


def numbers_in_order(cell):
    """`2 to 7, 8, 18 or 1` as [[2], .. [7], [8], [18, 1]]."""
    steps = []
    for part in cell.split(", "):
        if " to " in part:
            first, last = part.split(" to ")
            steps += [[n] for n in range(int(first), int(last) + 1)]
        else:
            steps.append([int(n) for n in part.split(" or ")])
    return steps


def value_of(formula, names):
    """What a formula gives. `/` drops the remainder; `names` gives the value of each name."""
    return _value(_tree(formula), names)


@functools.lru_cache(maxsize=None)
def _tree(formula):
    return ast.parse(plain(formula).replace(",", ""), mode="eval").body


def _value(node, names):
    if isinstance(node, ast.Constant):
        return node.value
    if isinstance(node, ast.Name):
        return names[node.id]
    if isinstance(node, ast.BinOp):
        return OPERATORS[type(node.op)](_value(node.left, names), _value(node.right, names))
    if isinstance(node, ast.Compare) and isinstance(node.ops[0], ast.LtE) and len(node.ops) == 1:
        return _value(node.left, names) <= _value(node.comparators[0], names)
    raise ValueError("not a formula of the page: " + ast.dump(node))

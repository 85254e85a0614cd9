"""The words that the command line takes, and their help."""
import re
from argparse import SUPPRESS, ArgumentParser, ArgumentTypeError, RawDescriptionHelpFormatter
from typing import Any, Dict, NamedTuple, NoReturn, Tuple

from .numbers import Number
from .version import version

__all__ = ["parser"]

PROGRAM = "python3 -m chronicle_map"
ABOUT = """\
Reads and edits a Chronicle Map store in a file: a settings block of 71 bytes, then the image.
Every command but create checks the whole store before it does anything else.
Keys and records are given and printed in hexadecimal, two digits for each byte.

commands ({program} COMMAND --help tells more):
{commands}"""
ANSWERS = """\
status 0: done. A command that edits prints nothing.
status 1: the line `absent` (no such key or pair), or the line `refused N`.
status 2: wrong arguments, or a file that cannot be used; a line on standard error says why.
Where the status is 1 or 2 the file is as it was.

`refused N` says:
{numbers}

example:
  {program} list examples/pairs.store"""


def _hexadecimal(word: str) -> bytes:
    if not re.fullmatch("(?:[0-9a-fA-F]{2})*", word):
        raise ArgumentTypeError("not in hexadecimal, with two digits for each byte")
    return bytes.fromhex(word)


def _number(word: str) -> int:
    if not re.fullmatch("-?[0-9]{1,30}", word):
        raise ArgumentTypeError("not a whole number")
    return int(word)


def _count(word: str) -> int:
    if not re.fullmatch("[0-9]{1,30}", word):
        raise ArgumentTypeError("not a whole number from 0 on")
    return int(word)


Argument = Tuple[str, Dict[str, Any]]  # a name, and what else add_argument is given

BYTES: Argument = ("--bytes", {"action": "store_true", "help": "add key and record, and - for an empty record"})
KEY: Argument = ("key", {"metavar": "KEY", "type": _hexadecimal, "help": "a key, in hexadecimal"})
RECORD: Argument = ("record", {"metavar": "RECORD", "type": _hexadecimal, "help": "its record, in hexadecimal"})
TIGHT: Argument = ("--tight", {
    "action": "store_true",
    "help": "put the record in the lowest free run of chunks that takes it, even where it could stay on the spot",
})
PAIR: Tuple[Argument, ...] = tuple(
    (name, {"metavar": name.upper(), "type": _number, "help": "a channel, 1 to 32"}) for name in ("a", "b")
)
DELAY: Argument = ("microseconds", {"metavar": "MICROSECONDS", "type": _number, "help": "the delay from A to B"})

# The options of `create`, each with its rule and, in brackets, what it is where it is left out.
SIZES = {
    "global-at": "where the global state starts: a multiple of 64, at most 65,536 (0)",
    "segments": "segments: a power of two, at most 256 (1)",
    "header-size": "bytes of a segment header: 32 to 256 (64)",
    "slot-size": "bytes of a slot: 4 or 8 (4)",
    "slots": "slots of a tier: a power of two, 4 to 4,096 (1,024)",
    "key-bits": "bits of a slot for the lookup key: 1 to 56 (the bits that are left)",
    "chunk-bits": "bits of a slot for the chunk: 1 to 32 (as few as the chunks need)",
    "lookup-size": "bytes of a tier for its slots (as they need)",
    "free-list-size": "bytes of a tier for the marks of its chunks (as they need)",
    "inner-offset": "bytes between these marks and the chunks: at most 4,096 (0)",
    "chunks": "chunks of a tier: 1 to 4,096 (1,024)",
    "chunk-size": "bytes of a chunk: 1 to 4,096 (8)",
    "tier-size": "bytes of a tier (as its parts need)",
    "bulk-inner": "bytes of a bulk before its tiers: at most 65,536 (0)",
    "bulk-tiers": "tiers of a bulk: 1 to 64 (1)",
    "bulk-size": "bytes of a bulk (as its tiers need)",
    "most-chunks": "the most chunks that an entry may take: 1 to 64, no more than a tier has (the most possible)",
    "bulks": "bulks that the store has, all their tiers free (0)",
    "room": "bulks that the file has room for behind these (0)",
}
NEW: Tuple[Argument, ...] = tuple(
    ("--" + name, {"metavar": "N", "type": _count, "help": about}) for name, about in SIZES.items()
)


class Command(NamedTuple):
    """The help of a command. Its arguments come after FILE."""

    about: str  # the first sentence is also in the list of commands
    arguments: Tuple[Argument, ...]
    example: str  # what stands behind the program's name


COMMANDS = {
    "list": Command("""\
Prints a line for each live entry, and last the totals.
A line holds segment, tier, slot, first chunk, number of chunks, and the lengths of key and record in bytes.
Entries come by segment, then by the order of its tiers, then by slot.""", (BYTES,), "list pairs.store --bytes"),
    "check": Command("""\
Checks the store and prints the totals.
They are the live entries, the marked chunks, the tiers in chains and the free tiers.""", (), "check pairs.store"),
    "get": Command("Prints the record of a key.", (KEY,), "get pairs.store 0102"),
    "set": Command("""\
Stores a record under a key.
A record that is there is replaced, on the spot where it takes as many chunks as the new one.""",
                   (KEY, RECORD, TIGHT), "set pairs.store 0102 20000000"),
    "remove": Command("Removes a key with its record.", (KEY,), "remove pairs.store 0102"),
    "delay": Command("Prints the delay of two channels in that order, in microseconds.", PAIR, "delay pairs.store 2 1"),
    "set-delay": Command("""\
Sets the delay of two channels, in that order.
The other order then has the opposite delay.""", (*PAIR, DELAY), "set-delay pairs.store 4 3 -25"),
    "delays": Command("Prints a line `a b delay` for both orders of each stored pair.", (), "delays pairs.store"),
    "grow": Command("""\
Adds one bulk of free tiers.
It is for a store in which a set is refused with 10.
The file is made longer where it has no room for the bulk.""", (), "grow pairs.store"),
    "draw": Command("""\
Prints a picture of the store, in SVG.
For each tier it shows where the entries stand and which chunks are free.""", (), "draw pairs.store > pairs.svg"),
    "create": Command("""\
Makes a new file with a store without entries.
A file that is there already stays as it is, and that is an error.""", NEW,
                      "create new.store --segments 4 --slots 64 --chunks 128 --bulks 2"),
}


class Parser(ArgumentParser):
    """Tells of wrong arguments in one line."""

    def error(self, message: str) -> NoReturn:
        """Ends the program."""
        self.exit(2, f"chronicle_map: {message} (see {self.prog} --help)\n")


def _use(name: str, command: Command) -> str:
    """A command with what it must be given."""
    needed = [rest["metavar"] for argument, rest in command.arguments if not argument.startswith("-")]
    return " ".join([name, "FILE", *needed])


def _whole() -> Parser:
    """The parser without the commands. Its help has a list of them."""
    lines = (f"  {_use(name, command):34}{command.about.splitlines()[0]}" for name, command in COMMANDS.items())
    numbers = (f"  {int(number):2}  {number.sentence}" for number in Number if number > Number.ABSENT)
    whole = Parser(
        prog=PROGRAM,
        usage=f"{PROGRAM} COMMAND FILE ..",
        description=ABOUT.format(program=PROGRAM, commands="\n".join(lines)),
        epilog=ANSWERS.format(program=PROGRAM, numbers="\n".join(numbers)),
        formatter_class=RawDescriptionHelpFormatter,
        allow_abbrev=False,
    )
    whole.add_argument("--version", action="version", version=f"chronicle_map {version()}")
    return whole


def parser() -> ArgumentParser:
    """The parser. It gives `command`, `file` and the command's own arguments."""
    whole = _whole()
    commands = whole.add_subparsers(prog=PROGRAM, dest="command", metavar="COMMAND", required=True, help=SUPPRESS)
    for name, command in COMMANDS.items():
        part = commands.add_parser(
            name,
            description=command.about,
            epilog=f"example:\n  {PROGRAM} {command.example}",
            formatter_class=RawDescriptionHelpFormatter,
            allow_abbrev=False,
        )
        part.add_argument("file", metavar="FILE", help="the file of the store")
        for argument, rest in command.arguments:
            part.add_argument(argument, **rest)
    return whole

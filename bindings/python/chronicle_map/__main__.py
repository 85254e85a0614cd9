"""The command line: python3 -m chronicle_map COMMAND FILE .."""
import os
import signal
import sys
from argparse import Namespace
from typing import Optional, Sequence, Tuple

from .arguments import parser
from .commands import COMMANDS, Absent
from .numbers import Refused

__all__ = ["main"]


def main(words: Optional[Sequence[str]] = None) -> int:
    """Runs a command, by the program's own words where none are given. Answers the status to end with."""
    try:
        text, status = _answer(parser().parse_args(words))
    except BrokenPipeError as error:  # at the help
        return _unwritten(error)
    except OSError as error:
        return _failed(error.filename, error)
    except SystemExit as end:  # after help, version or wrong arguments
        text, status = "", int(end.code or 0)
    return _write(text) or status


def _answer(words: Namespace) -> Tuple[str, int]:
    """What a command prints, and its status."""
    try:
        return COMMANDS[words.command](words), 0
    except Absent:
        return "absent\n", 1
    except Refused as refused:
        return f"refused {int(refused.number)}\n", 1


def _write(text: str) -> int:
    """Writes to standard output, and answers 0, or the status where that fails."""
    if sys.stdout is None:
        return _failed(None, OSError("standard output is closed")) if text else 0
    rest = memoryview(text.encode())
    try:
        while rest:  # with PYTHONUNBUFFERED a write may take only a part
            rest = rest[sys.stdout.buffer.write(rest):]
        sys.stdout.flush()
        return 0
    except OSError as error:
        return _unwritten(error)


def _unwritten(error: OSError) -> int:
    """The status where standard output takes no more. A reader that has gone is no error to tell of."""
    # What is left to write goes nowhere, or the interpreter would try it again at its end.
    os.dup2(os.open(os.devnull, os.O_WRONLY), sys.stdout.fileno())
    return 128 + signal.SIGPIPE if isinstance(error, BrokenPipeError) else _failed("standard output", error)


def _failed(name: Optional[str], error: OSError) -> int:
    """Tells of an error in one line, with the name of the file where it is known."""
    reason = error.strerror or str(error)
    print("chronicle_map:", reason if name is None else f"{name}: {reason}", file=sys.stderr)
    return 2


if __name__ == "__main__":
    sys.exit(main())

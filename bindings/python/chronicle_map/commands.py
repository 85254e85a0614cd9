"""What the commands of the command line do. Each is given the parsed words, and gives the text that it prints."""
import os
from argparse import Namespace
from dataclasses import fields
from typing import Callable, Dict, Iterable, List, Tuple

from .draw import svg
from .settings import Settings
from .store import Store

__all__ = ["Absent", "COMMANDS"]

HEAD = "segment tier slot chunk chunks key value"


class Absent(Exception):
    """The key or the pair is not there."""


def _lines(lines: Iterable[str]) -> str:
    return "".join(line + "\n" for line in lines)


def _totals(store: Store) -> str:
    counts = store.counts()
    return f"entries {counts.entries} chunks {counts.chunks} tiers {counts.tiers} free {counts.free}"


def _list(words: Namespace) -> str:
    rows: List[Tuple[object, ...]]
    with Store.open(words.file) as store:
        if words.bytes:
            head = HEAD + " key-bytes record-bytes"
            rows = [(*entry.row, entry.key.hex(), entry.record.hex() or "-") for entry in store.entries()]
        else:
            head = HEAD
            rows = list(store.rows())
        return _lines([head, *(" ".join(map(str, row)) for row in rows), _totals(store)])


def _check(words: Namespace) -> str:
    with Store.open(words.file) as store:
        return _lines([_totals(store)])


def _get(words: Namespace) -> str:
    with Store.open(words.file) as store:
        record = store.get(words.key)
    if record is None:
        raise Absent
    return _lines([record.hex()])


def _set(words: Namespace) -> str:
    with Store.open(words.file, writable=True) as store:
        store.put(words.key, words.record, tight=words.tight)
    return ""


def _remove(words: Namespace) -> str:
    with Store.open(words.file, writable=True) as store:
        try:
            del store[words.key]
        except KeyError:
            raise Absent from None
    return ""


def _delay(words: Namespace) -> str:
    with Store.open(words.file) as store:
        delay = store.delay(words.a, words.b)
    if delay is None:
        raise Absent
    return _lines([str(delay)])


def _set_delay(words: Namespace) -> str:
    with Store.open(words.file, writable=True) as store:
        store.set_delay(words.a, words.b, words.microseconds)
    return ""


def _delays(words: Namespace) -> str:
    with Store.open(words.file) as store:
        delays = store.delays()
    return _lines(f"{a} {b} {delay}" for (a, b), delay in sorted(delays.items()))


def _grow(words: Namespace) -> str:
    with Store.open(words.file, writable=True) as store:
        store.grow()
    return ""


def _draw(words: Namespace) -> str:
    with Store.open(words.file) as store:
        return svg(store.tiers(), store.counts(), store.settings, os.path.basename(words.file))


def _create(words: Namespace) -> str:
    given = {field.name: getattr(words, field.name) for field in fields(Settings)}
    settings = Settings(**{name: value for name, value in given.items() if value is not None})
    Store.create(words.file, settings, words.bulks or 0, words.room or 0).close()
    return ""


COMMANDS: Dict[str, Callable[[Namespace], str]] = {
    "list": _list,
    "check": _check,
    "get": _get,
    "set": _set,
    "remove": _remove,
    "delay": _delay,
    "set-delay": _set_delay,
    "delays": _delays,
    "grow": _grow,
    "draw": _draw,
    "create": _create,
}

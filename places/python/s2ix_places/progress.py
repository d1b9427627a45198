"""How far a long piece of work is, told on standard error from one second on: by tqdm if it is installed, else by a line."""
from __future__ import annotations

import importlib
import sys
import time
from typing import Any, Iterator, Optional, Sequence, TypeVar

_Item = TypeVar("_Item")

# After how many seconds something is told, and how often then: on a terminal, and elsewhere, where each telling is a line of its own.
_FIRST, _OFTEN, _RARELY = 1.0, 0.2, 10.0


def told(items: Sequence[_Item], what: str, is_told: bool = True) -> Iterator[_Item]:
    """The items, one by one, while it is told how many are done."""
    tqdm = _tqdm() if is_told else None
    if tqdm is not None:
        yield from tqdm(items, desc=what, delay=_FIRST)
    elif is_told:
        yield from _by_lines(items, what)
    else:
        yield from items


def _tqdm() -> Optional[Any]:
    try:
        return importlib.import_module("tqdm").tqdm
    except ImportError:
        return None


def _by_lines(items: Sequence[_Item], what: str) -> Iterator[_Item]:
    is_terminal, next_time, has_told = sys.stderr.isatty(), time.monotonic() + _FIRST, False
    start, end = ("\r", "") if is_terminal else ("", "\n")
    for done, item in enumerate(items):
        now = time.monotonic()
        if now >= next_time:
            print(f"{start}{what}: {done} of {len(items)}", end=end, file=sys.stderr, flush=True)
            next_time, has_told = now + (_OFTEN if is_terminal else _RARELY), True
        yield item
    if has_told:
        print(f"{start}{what}: {len(items)} of {len(items)}", file=sys.stderr, flush=True)

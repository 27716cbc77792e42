"""How far a search has come, read of the store's log."""
from __future__ import annotations

from pathlib import Path
from typing import Dict, List, Optional, Tuple

__all__ = ["Place"]

_HEAD, _FRAME, _MAGIC = 32, 24, b"\x37\x7f\x06"  # of the log, and before each page in it


class Place:
    """The place to which a search has come, as the store's log shows it; the session itself tells none.

    Each pause writes the search's row anew: its number, and a place of four bytes a number, the record's first. What can't
    be read tells nothing.

    Examples
    --------
    >>> Place(Path("/nowhere")).record(1) is None
    True
    """

    def __init__(self, store: Path) -> None:
        self._path = Path(f"{store}-wal")
        self._salts = b""
        self._at = _HEAD
        self._known: Dict[int, int] = {}
        try:
            self._pass_over()
        except (OSError, ValueError):
            self._at = _HEAD

    def _pass_over(self) -> None:
        """Begin behind what stands in the log by now, which may be all that was loaded: its frames are those with its salts."""
        with open(self._path, "rb") as log:
            head = log.read(_HEAD)
            if len(head) < _HEAD or head[:3] != _MAGIC:
                return
            self._salts, long = head[16:24], _FRAME + int.from_bytes(head[8:12], "big")
            first, last = 0, (self._path.stat().st_size - _HEAD) // long
            while first < last:
                middle = (first + last) // 2
                log.seek(_HEAD + middle * long)
                if log.read(_FRAME)[8:16] == self._salts:
                    first = middle + 1
                else:
                    last = middle
            self._at = _HEAD + first * long

    def record(self, cursor: int) -> Optional[int]:
        """The record at which a search that paused goes on, if it is known."""
        try:
            self._read()
        except (OSError, ValueError, IndexError):
            return None
        return self._known.get(cursor)

    def _read(self) -> None:
        with open(self._path, "rb") as log:
            head = log.read(_HEAD)
            if len(head) < _HEAD or head[:3] != _MAGIC:
                return
            size = int.from_bytes(head[8:12], "big")
            if head[16:24] != self._salts:
                self._salts, self._at = head[16:24], _HEAD
                self._known.clear()
            while True:
                log.seek(self._at)
                frame = log.read(_FRAME)
                if len(frame) < _FRAME or frame[8:16] != self._salts:
                    return
                page = log.read(size)
                if len(page) < size:
                    return
                self._at += _FRAME + size
                if page[0] == 13:
                    self._take(page)

    def _take(self, page: bytes) -> None:
        for at in range(int.from_bytes(page[3:5], "big")):
            cell = int.from_bytes(page[8 + 2 * at : 10 + 2 * at], "big")
            _, cell = _number(page, cell)
            row, cell = _number(page, cell)
            start = cell
            length, cell = _number(page, cell)
            kinds: List[int] = []
            while cell < start + length and len(kinds) < 4:
                kind, cell = _number(page, cell)
                kinds.append(kind)
            if len(kinds) != 3 or kinds[0] or kinds[1] % 2 == 0 or kinds[1] < 13 or kinds[2] % 2 or kinds[2] < 20:
                continue
            name = start + length
            place = name + (kinds[1] - 13) // 2
            if page[name : name + 11] == b"markush.py.":
                self._known[row] = int.from_bytes(page[place : place + 4], "big")


def _number(page: bytes, at: int) -> Tuple[int, int]:
    """A number of one to nine bytes of seven bits, and the place behind it."""
    found = 0
    for _ in range(8):
        byte = page[at]
        at += 1
        found = found << 7 | byte & 127
        if byte < 128:
            return found, at
    return found << 8 | page[at], at + 1

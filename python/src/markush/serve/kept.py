"""What a bench keeps beside its store: claims with all their versions, searches with what they found, and verdicts."""
from __future__ import annotations

import contextlib
import json
import os
import sqlite3
import threading
import time
import zlib
from dataclasses import dataclass
from pathlib import Path
from typing import Any, Dict, Iterable, List, Optional, Tuple

from ..claim import Claim
from ..errors import MarkushError

__all__ = ["Kept", "Version", "VERDICTS"]

VERDICTS = ("relevant", "not", "open")
# The log is brought into the file by `_settle`; by a request not before it has 40 MB.
_LOG = "PRAGMA journal_mode = WAL; PRAGMA synchronous = NORMAL; PRAGMA wal_autocheckpoint = 10000;"
_TABLES = """
CREATE TABLE IF NOT EXISTS claims(
    name TEXT NOT NULL, number INTEGER NOT NULL, date TEXT NOT NULL, source TEXT NOT NULL, view TEXT NOT NULL, PRIMARY KEY(name, number));
CREATE TABLE IF NOT EXISTS searches(
    id INTEGER PRIMARY KEY, name TEXT NOT NULL, number INTEGER NOT NULL, date TEXT NOT NULL, held BLOB NOT NULL);
CREATE TABLE IF NOT EXISTS verdicts(sha256 TEXT PRIMARY KEY, verdict TEXT NOT NULL, note TEXT NOT NULL, date TEXT NOT NULL);
CREATE TABLE IF NOT EXISTS facts(name TEXT PRIMARY KEY, value TEXT NOT NULL);
"""


@dataclass(frozen=True)
class Version:
    """A version of a claim.

    Attributes
    ----------
    name : str
    number : int
        From 1.
    date : str
    source : str
        What was pasted: a list, or the text of a file.
    view : dict
        What `child.claim_read` made of it.

    Examples
    --------
    >>> Version("acids", 1, "", "root C", {"rgfile": "", "names": [], "title": ""}).number
    1
    """

    name: str
    number: int
    date: str
    source: str
    view: Dict[str, Any]

    @property
    def claim(self) -> Claim:
        """The claim itself."""
        names = {(label, number): name for label, number, name in self.view["names"]}
        return Claim(self.view["rgfile"], names, self.view["title"])


class Kept:
    """The file beside a store; each change is in it when a call returns, and stays there however the server ends.

    A request waits for no disk: SQLite writes to its log, `-wal`, and the log is brought into the file by who has time. Where the
    machine itself stops, the last changes may be lost.

    Parameters
    ----------
    path : path
        It is made, for its owner alone, where it isn't there.

    Raises
    ------
    MarkushError
        It is no such file, or can't be written.

    Examples
    --------
    >>> import tempfile
    >>> with tempfile.TemporaryDirectory() as folder:
    ...     kept = Kept(Path(folder) / "acids.db-bench")
    ...     kept.put_verdict("ab", "relevant", "look again")
    ...     kept.close()
    ...     Kept(Path(folder) / "acids.db-bench").verdicts()
    {'ab': ('relevant', 'look again')}
    """

    def __init__(self, path: Path) -> None:
        self.path = path
        self._lock = threading.RLock()
        try:
            os.close(os.open(path, os.O_RDWR | os.O_CREAT | os.O_CLOEXEC, 0o600))
            self._base = sqlite3.connect(path, check_same_thread=False, isolation_level=None)
            self._base.executescript(_LOG + _TABLES)
        except (OSError, sqlite3.Error) as fault:
            raise MarkushError(f"{path}: what the page keeps can't be read or written there: {fault}") from None

    def close(self) -> None:
        """Let the file go."""
        with self._lock:
            self._base.close()

    def _do(self, words: str, values: Tuple[Any, ...] = ()) -> List[Tuple[Any, ...]]:
        with self._lock:
            try:
                return self._base.execute(words, values).fetchall()
            except sqlite3.Error as fault:
                raise MarkushError(f"what the page keeps can't be read or written: {fault}") from None

    def _settle(self) -> None:
        """Bring the log into the file, while others go on; where that fails, it is for the next time."""
        try:
            with contextlib.closing(sqlite3.connect(self.path, isolation_level=None)) as other:
                other.execute("PRAGMA wal_checkpoint(PASSIVE)").fetchall()
        except sqlite3.Error:
            return

    # ---- claims

    def versions(self) -> List[Version]:
        """All versions of all claims, by name and number."""
        rows = self._do("SELECT name, number, date, source, view FROM claims ORDER BY name, number")
        return [Version(name, number, date, source, json.loads(view)) for name, number, date, source, view in rows]

    def put_version(self, name: str, source: str, view: Dict[str, Any]) -> Version:
        """Keep a claim as the next version of its name."""
        with self._lock:
            found = self._do("SELECT max(number) FROM claims WHERE name = ?", (name,))
            version = Version(name, int(found[0][0] or 0) + 1, now(), source, view)
            self._do("INSERT INTO claims VALUES(?, ?, ?, ?, ?)", (name, version.number, version.date, source, json.dumps(view)))
            return version

    def drop_claim(self, name: str) -> None:
        """Forget a claim with all its versions and searches."""
        self._do("DELETE FROM claims WHERE name = ?", (name,))
        self._do("DELETE FROM searches WHERE name = ?", (name,))

    # ---- searches

    def searches(self) -> List[Tuple[int, str, int, str, Dict[str, Any]]]:
        """All searches: number, claim, version, date, and what was found."""
        rows = self._do("SELECT id, name, number, date, held FROM searches ORDER BY id")
        return [(at, name, number, date, json.loads(zlib.decompress(held))) for at, name, number, date, held in rows]

    def put_search(self, at: int, name: str, number: int, held: Iterable[str]) -> None:
        """Keep a search as it is: pieces of JSON, each of which is made and packed while others wait, and so is short."""
        packer = zlib.compressobj(1)
        data = b"".join([*(packer.compress(piece.encode("ascii")) for piece in held), packer.flush()])
        self._do("INSERT OR REPLACE INTO searches VALUES(?, ?, ?, ?, ?)", (at, name, number, now(), data))
        self._settle()

    def drop_search(self, at: int) -> None:
        """Forget a search."""
        self._do("DELETE FROM searches WHERE id = ?", (at,))

    # ---- verdicts and facts

    def verdicts(self) -> Dict[str, Tuple[str, str]]:
        """The verdict and the note of each text, by its sha256."""
        return {sha: (verdict, note) for sha, verdict, note in self._do("SELECT sha256, verdict, note FROM verdicts")}

    def put_verdict(self, sha256: str, verdict: str, note: str) -> None:
        """Keep a verdict; one that is open and has no note is none."""
        if verdict == "open" and not note:
            self._do("DELETE FROM verdicts WHERE sha256 = ?", (sha256,))
        else:
            self._do("INSERT OR REPLACE INTO verdicts VALUES(?, ?, ?, ?)", (sha256, verdict, note, now()))

    def fact(self, name: str) -> Optional[str]:
        """A value that is kept under a name, if any."""
        found = self._do("SELECT value FROM facts WHERE name = ?", (name,))
        return str(found[0][0]) if found else None

    def put_fact(self, name: str, value: str) -> None:
        """Keep a value under a name."""
        self._do("INSERT OR REPLACE INTO facts VALUES(?, ?)", (name, value))


def now() -> str:
    """The date and the time, as `2020-01-01 12:00`."""
    return time.strftime("%Y-%m-%d %H:%M")

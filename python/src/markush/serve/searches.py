"""What a search has found so far, kept in memory for the page; the driver's thread writes, and others read."""
from __future__ import annotations

import bisect
import hashlib
import json
from pathlib import Path
from typing import Any, Callable, Dict, Iterator, List, Mapping, Optional, Sequence, Tuple

from ..answers import RawHit, read_hit_lines, read_refusal
from ..errors import MarkushError
from ..library import KeptClaim, Library, name_of
from ..page import MOST_MAPS
from ..refusals import explained
from .choices import Choices, numbers
from .kept import Version
from .places import Place
from .texts import texts_of

__all__ = ["Search", "BUDGET", "PAGES"]

BUDGET = 2_048  # turns of a command; the program takes no fewer
# Hits of a search's commands, one after the other, and from the last on the same: what is found first is shown soon.
PAGES = (24, 100, 400, 1_000)
SOME = 2_000  # records whose hits are written as JSON in one piece, since others wait for so long


class Search:
    """A search of one version of a claim.

    Records are told by their place among those that are hit. All lists grow at their ends alone; the last record may
    still get further hits while the search runs.

    Examples
    --------
    >>> Search.STATES
    ('waiting', 'running', 'stopped', 'ended', 'failed')
    """

    STATES = ("waiting", "running", "stopped", "ended", "failed")

    def __init__(self, number: int, version: Version) -> None:
        self.number, self.version = number, version
        self.claim = version.claim
        self.state, self.fault = "waiting", ""
        self.done = self.of = 0  # records
        self.revision = -1  # of the library, as the search began
        self.run = 0  # rises where it begins anew, so that a page forgets what it had
        self.wants_stop = False
        self.changes: Optional[Dict[str, List[List[Any]]]] = None
        self._is_anew = False  # the next run begins with nothing
        self._before: Optional[Dict[Tuple[int, str], str]] = None
        self._cursor: Optional[int] = None
        self._kept: Optional[KeptClaim] = None
        self._pages = 0  # commands since it was begun, or gone on with
        self._names_before: Dict[int, str] = {}
        self._passes: Optional[RawHit] = None  # hits up to this one are known
        self._clear()  # the lists

    def _clear(self) -> None:
        self.records: List[int] = []
        self.names: List[str] = []
        self.shas: List[str] = []
        # Lists are looked through by Python's collector again and again, and others wait for it, which tuples of numbers
        # and texts aren't; so a record has lists as long as it may get further hits, and tuples then.
        self.held: List[Sequence[int]] = []  # for each record its choices and in how many ways each lies, by turns
        self.maps: List[Sequence[Sequence[str]]] = []  # as they are written, of each choice some
        self._last: Optional[Tuple[List[int], List[List[str]]]] = None  # of the last record, while it has lists
        self._choices: Optional[Choices] = None
        self.count = 0

    # ---- for the page

    def told(self, revision: int) -> Dict[str, Any]:
        """What the page shows of the search in a line."""
        changes = self.changes
        return {
            "id": self.number,
            "claim": self.version.name,
            "version": self.version.number,
            "state": self.state,
            "fault": self.fault,
            "done": self.done,
            "of": self.of,
            "records": len(self.records),
            "hits": self.count,
            "run": self.run,
            "stale": self.state in ("ended", "stopped") and self.revision != revision,
            "changes": None if changes is None else {kind: len(rows) for kind, rows in changes.items()},
        }

    @property
    def choices(self) -> Choices:
        """The choices that were found."""
        found = self._choices
        if found is None:
            found = self._choices = Choices(self.claim)
        return found

    def hits_of(self, at: int) -> Iterator[Tuple[Tuple[int, ...], List[Tuple[int, ...]]]]:
        """Each choice of a record, with the maps that are kept of it."""
        for place, maps in zip(self.held[at][::2], self.maps[at]):
            yield numbers(self.choices.written[place]), [numbers(each) for each in maps]

    # ---- for the file beside the store

    def to_keep(self) -> Iterator[str]:
        """All of it as JSON, in pieces."""
        front = {
            "state": "stopped" if self.state in ("waiting", "running") else self.state,
            "fault": self.fault,
            "done": self.done,
            "of": self.of,
            "revision": self.revision,
            "count": self.count,
            "changes": self.changes,
        }
        yield json.dumps(front)[:-1]
        lists: Tuple[Tuple[str, List[Any]], ...] = (
            ("records", self.records), ("names", self.names), ("shas", self.shas), ("held", self.held), ("maps", self.maps),
            ("choices", self.choices.written),
        )
        for name, held in lists:
            yield f',"{name}":['
            for start in range(0, len(held), SOME):
                piece = json.dumps(held[start : start + SOME], separators=(",", ":"))[1:-1]
                yield f",{piece}" if start else piece
            yield "]"
        yield "}"

    @classmethod
    def of_kept(cls, number: int, version: Version, held: Dict[str, Any]) -> "Search":
        """A search that was kept."""
        found = cls(number, version)
        for name in ("state", "fault", "done", "of", "revision", "records", "names", "shas", "held", "maps", "count", "changes"):
            setattr(found, name, held[name])
        for choice in held["choices"]:
            found.choices.place(choice)
        found.held = [tuple(each) for each in found.held]
        found.maps = [tuple(map(tuple, each)) for each in found.maps]
        return found

    def _last_hit(self) -> Optional[RawHit]:
        """The last hit whose map is kept, if any; what is listed up to it is known."""
        if not self.records:
            return None
        return max(RawHit(self.records[-1], choice, maps[-1]) for choice, maps in self.hits_of(len(self.records) - 1))

    # ---- the search itself, in the driver's thread

    def begin_anew(self) -> None:
        """Have the next run begin with nothing, and compare with what there is now; a request doesn't wait for that."""
        self._is_anew = True

    def _begin(self) -> None:
        self._is_anew = False
        if self._before is None:
            self._before = {
                (record, self.choices.written[place]): sha
                for record, sha, held in zip(self.records, self.shas, self.held)
                for place in held[::2]
            }
            self._names_before = dict(zip(self.records, self.names))
        self._drop()
        # who reads the lists looks first and last at the run, so it rises before they go
        self.run += 1
        self._clear()
        self.done, self.changes = 0, None

    def steps(
        self, library: Library, revision: Callable[[], int], kept: Callable[["Search"], None], words: Callable[[Exception], str] = str
    ) -> Iterator[None]:
        """Search on, a command a step, until there is no more or a stop is wanted; `words` says what a fault is."""
        self.state, self.fault = "running", ""
        if self._is_anew and not self.wants_stop:
            self._begin()
        if self._cursor is None and (not self.records or self.revision == -1):
            self.revision = revision()
        within = False
        place = Place(Path(library._session.store)) if library._session.store is not None else None
        self._pages = 0
        try:
            self.of = len(library)
            while not self.wants_stop:
                within = True
                is_end = self._page(library)
                within = False
                if is_end:
                    self.state, self.done = "ended", self.of
                    self._drop()
                    self._compare()
                    break
                known = place.record(self._cursor) if place is not None and self._cursor is not None else None
                record = known if known is not None else self.records[-1] if self.records else 0
                self.done = max(self.done, bisect.bisect_left(library._numbers, record))
                yield
            else:
                self.state = "stopped"
        except MarkushError as fault:
            # the page that was cut off may be kept as gone over, so what goes on begins anew and passes what is known
            self.state, self.fault = "failed", words(fault)
            self._drop()
        except GeneratorExit:
            self.state = "stopped"
            self._drop()
            raise
        except BaseException:
            self.state, self.fault = "failed", "something went wrong in the server; its terminal says what"
            self._drop()
            raise
        finally:
            if within:
                self._drop()
            self._seal()
            kept(self)

    def _page(self, library: Library) -> bool:
        """One command, and whether it was the last."""
        session = library._session
        if self._kept is None or self._kept.name is None:
            self._kept, self._cursor = KeptClaim(library._dropped), None
            library._keep(self.claim, self._kept)
        if self._cursor is None:
            self._passes = self._last_hit()
        command = f"search {self._kept.name}" if self._cursor is None else f"resume {self._cursor}"
        command += f" {PAGES[min(self._pages, len(PAGES) - 1)]} {BUDGET}"
        self._pages += 1
        with session.lock:
            library._settle()
            frame = session.ask(command)
        if frame.how != "done":
            refusal = read_refusal(frame.data)
            if refusal.code in (8, 9) and self._cursor is not None:
                self._drop()
                return False
            raise explained(refusal, command)
        page = read_hit_lines(frame.data)
        fresh = page.hits if self._passes is None else self._unknown(page.hits)
        texts = texts_of(library, sorted({int(record) for record, _, _ in fresh}))
        for record, choice, map in fresh:
            self._take(int(record), choice, map, texts)
        self._cursor = page.cursor
        return page.ended == "end"

    def _unknown(self, hits: Sequence[Tuple[str, str, str]]) -> Sequence[Tuple[str, str, str]]:
        """The hits behind those that were found before the search was begun again."""
        for at, (record, choice, map) in enumerate(hits):
            if self._passes is None or RawHit(int(record), numbers(choice), numbers(map)) > self._passes:
                self._passes = None
                return hits[at:]
        return ()

    def _take(self, record: int, choice: str, map: str, texts: Mapping[int, bytes]) -> None:
        is_other = not self.records or self.records[-1] != record
        if is_other:
            text = texts.get(record)
            if text is None:
                return
            self._seal()
            self.names.append(name_of(text))
            self.shas.append(hashlib.sha256(text).hexdigest())
            self.held.append(())
            self.maps.append(())
        place = self.choices.place(choice)
        held, maps = self._unsealed()
        if held and held[-2] == place:
            held[-1] += 1
            if len(maps[-1]) < MOST_MAPS:
                maps[-1].append(map)
        else:
            maps.append([map])
            held += [place, 1]
        if is_other:
            # others count by this list, so it grows last
            self.records.append(record)
        self.count += 1

    def _unsealed(self) -> Tuple[List[int], List[List[str]]]:
        """What is held of the last record, as lists."""
        if self._last is None:
            self._last = list(self.held[-1]), [list(each) for each in self.maps[-1]]
            self.held[-1], self.maps[-1] = self._last
        return self._last

    def _seal(self) -> None:
        """Have no lists for the last record any more."""
        if self._last is not None:
            self.held[-1], self.maps[-1] = tuple(self._last[0]), tuple(tuple(each) for each in self._last[1])
            self._last = None

    def _drop(self) -> None:
        if self._kept is not None:
            self._kept.drop()
        self._kept, self._cursor = None, None

    def _compare(self) -> None:
        """What the hits are otherwise than at the end before this one."""
        if self._before is None:
            return
        now = {
            (record, self.choices.written[place]): (sha, name)
            for record, sha, name, held in zip(self.records, self.shas, self.names, self.held)
            for place in held[::2]
        }
        new, changed, lost = {}, {}, {}
        for (record, choice), (sha, name) in now.items():
            before = self._before.get((record, choice))
            if before is None:
                new[record] = name
            elif before != sha:
                changed[record] = name
        for record, choice in self._before:
            if (record, choice) not in now:
                lost[record] = self._names_before.get(record, "")
        self.changes = {
            "new": [list(row) for row in new.items()],
            "lost": [list(row) for row in lost.items()],
            "changed": [list(row) for row in changed.items()],
        }
        self._before = None

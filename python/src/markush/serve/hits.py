"""Searches as the page asks about them, and the hits, cards and data of what they have found."""
from __future__ import annotations

import hashlib
import json
import threading
import time
from typing import Any, Callable, Dict, Iterator, List, Mapping, Optional, Sequence

from ..answers import decode
from ..errors import MarkushError
from ..records import items_of
from .asked import many, read_json, text, whole
from .desk import Desk
from .exports import export
from .kept import VERDICTS
from .searches import Search
from .server import Raw
from .tickets import Tell

__all__ = ["Hits"]

MOST_HITS = 2_000  # records of an answer
MOST_CARDS = 100
MOST_NOTE = 10_000  # letters
SOON = 0.03  # seconds of a processor
LOOKED_AT = 50  # records whose data items are named


class Hits:
    """What the page asks about searches and hits.

    Examples
    --------
    >>> import tempfile
    >>> from pathlib import Path
    >>> with tempfile.TemporaryDirectory() as folder:
    ...     desk = Desk(None, Path(folder))
    ...     print(len(Hits(desk).routes))
    ...     desk.tickets.close()
    13
    """

    def __init__(self, desk: Desk) -> None:
        self._desk = desk
        self.verdict_changes = 0
        self._judging = threading.Lock()

    @property
    def routes(self) -> Mapping[str, Callable[[bytes, str], Any]]:
        """What may be asked for."""
        return {
            "search": self.search, "search/stop": self.stop, "search/on": self.go_on, "search/again": self.again, "search/drop": self.drop,
            "search/changes": self.changes, "hits": self.hits, "cards": self.cards, "items": self.items, "values": self.values,
            "verdict": self.verdict, "verdicts": self.verdicts, "export": self.export,
        }

    # ---- searches

    def search(self, body: bytes, words: str) -> Dict[str, Any]:
        """Search for a version of a claim; the search that there is goes on being it."""
        asked, desk = read_json(body), self._desk
        desk.keeper()
        with desk.lock:
            version = desk.version(text(asked, "name"), whole(asked, "version"))
            for found in desk.searches.values():
                if found.version is version:
                    if found.state in ("stopped", "failed"):
                        self._run(found)
                    return {"id": found.number}
            number = max(desk.searches, default=0) + 1
            search = desk.searches[number] = Search(number, version)
            self._run(search)
        return {"id": number}

    def _run(self, search: Search) -> None:
        search.state = "waiting"
        search.wants_stop = False
        self._desk.driver.task(f"the search of '{search.version.name}'", self._steps(search))

    def _steps(self, search: Search) -> Iterator[None]:
        desk = self._desk
        yield from search.steps(desk.library(), lambda: desk.revision, self._keep, desk.driver.words)

    def _keep(self, search: Search) -> None:
        desk = self._desk
        if desk.kept is not None and desk.searches.get(search.number) is search:
            desk.kept.put_search(search.number, search.version.name, search.version.number, search.to_keep())

    def _asked(self, asked: Dict[str, Any]) -> Search:
        """The search that is meant."""
        with self._desk.lock:
            search = self._desk.searches.get(whole(asked, "id"))
        if search is None:
            raise MarkushError("the search isn't there any more")
        return search

    def stop(self, body: bytes, words: str) -> Dict[str, Any]:
        """Stop behind the command that runs."""
        self._asked(read_json(body)).wants_stop = True
        return {}

    def go_on(self, body: bytes, words: str) -> Dict[str, Any]:
        """Go on from where it was stopped."""
        search = self._asked(read_json(body))
        with self._desk.lock:
            if search.state in ("stopped", "failed"):
                self._run(search)
        return {}

    def again(self, body: bytes, words: str) -> Dict[str, Any]:
        """Search anew, and say what is new, lost and changed."""
        search = self._asked(read_json(body))
        with self._desk.lock:
            if search.state in ("stopped", "failed", "ended"):
                search.begin_anew()
                self._run(search)
        return {}

    def drop(self, body: bytes, words: str) -> Dict[str, Any]:
        """Forget a search."""
        search, desk = self._asked(read_json(body)), self._desk
        with desk.lock:
            search.wants_stop = True
            desk.searches.pop(search.number, None)
            desk.keeper().drop_search(search.number)
        return {}

    def changes(self, body: bytes, words: str) -> Dict[str, Any]:
        """What is new, lost and changed, by record and name."""
        return {"changes": self._asked(read_json(body)).changes}

    # ---- hits

    def hits(self, body: bytes, words: str) -> Raw:
        """The records that are hit from a place on, and the choices from another one on; both are ready to be sent, or nearly."""
        asked = read_json(body)
        search = self._asked(asked)
        run, start, known = search.run, max(0, whole(asked, "from")), max(0, whole(asked, "choices"))
        records, names, shas, all_held, all_choices = search.records, search.names, search.shas, search.held, search.choices
        end = min(len(records), start + MOST_HITS) if search.run == run else start
        choices = all_choices.told(known, MOST_HITS)
        # a record is told once all its choices are
        far = known + len(choices)
        held = []
        for at in range(start, end):
            of_record = list(all_held[at])
            if max(of_record[::2]) >= far:
                end = at
                break
            held.append(of_record)
        if search.run != run:
            end, held, choices = start, [], []
        found = {
            "run": run,
            "from": start,
            "count": len(records),
            "records": records[start:end],
            "names": names[start:end],
            "shas": [sha[:16] for sha in shas[start:end]],
            "hits": held,
            "facets": all_choices.facets.found if start == 0 else None,
            "isMore": search.run == run and end < len(records),
            "verdicts": self._verdicts_on(shas[start:end], start),
        }
        front = json.dumps(found, separators=(",", ":"))[:-1]
        return Raw(f'{front},"choices":[{",".join(choices)}]}}'.encode("ascii"), "application/json")

    def cards(self, body: bytes, words: str) -> Dict[str, Any]:
        """Pictures, maps and the choices' graphs of some records that are hit; null where one isn't there yet."""
        asked = read_json(body)
        search = self._asked(asked)
        run, cards, end = search.run, [], time.thread_time() + SOON
        try:
            places = [at for at in many(asked, "places") if isinstance(at, int) and 0 <= at < len(search.records)][:MOST_CARDS]
            for at in places:
                cards.append(self._card(search, at, end) if time.thread_time() < end else None)
        except IndexError:  # the hits go where the search begins anew
            if search.run == run:
                raise
        return {"run": run, "cards": cards} if search.run == run else {"run": search.run, "cards": []}

    def _card(self, search: Search, at: int, end: float) -> Any:
        number, sha, desk, graphs = search.records[at], search.shas[at], self._desk, []
        for place in search.held[at][::2]:
            graphs.append(search.choices.graph(place))
            if time.thread_time() > end:
                return None  # those that were made are there when it is asked for again
        hit = {"h": [maps for _, maps in search.hits_of(at)][: len(graphs)], "g": graphs}
        raw = desk.text_soon(number)
        if raw is None:
            library = desk.driver.library
            return None if library is not None and library._holds(number) else {"gone": True, **hit}
        if hashlib.sha256(raw).hexdigest() != sha:
            return {"gone": True, **hit}
        picture = desk.picture_soon(raw, sha)
        if picture is None:
            return None
        return {"m": picture, "d": items_of(decode(raw).split("\n")), **hit}

    def items(self, body: bytes, words: str) -> Dict[str, Any]:
        """The names of the data items of the first records that are hit."""
        search = self._asked(read_json(body))
        found: Dict[str, None] = {}
        for number in search.records[:LOOKED_AT]:
            raw = self._desk.text_soon(number)
            if raw is not None:
                found.update(dict.fromkeys(items_of(decode(raw).split("\n"))))
        return {"items": list(found)}

    def values(self, body: bytes, words: str) -> Dict[str, Any]:
        """A data item of all records that are hit."""
        asked = read_json(body)
        search, item = self._asked(asked), text(asked, "item")
        run, numbers = search.run, list(search.records)

        def deed(_: Tell) -> Dict[str, Any]:
            held = {record.number: record.data.get(item, "") for record in self._desk.records(numbers)}
            return {"run": run, "values": [held.get(number, "") for number in numbers]}

        return self._desk.tickets.later(deed)

    # ---- verdicts

    def verdict(self, body: bytes, words: str) -> Dict[str, Any]:
        """Keep what is thought of a record that is hit, by its text."""
        asked, desk = read_json(body), self._desk
        kept, search, at = desk.keeper(), self._asked(asked), whole(asked, "place")
        verdict, note = text(asked, "verdict"), text(asked, "note")[:MOST_NOTE]
        shas = search.shas
        if verdict not in VERDICTS or not 0 <= at < len(shas):
            raise MarkushError("a verdict is relevant, not or open, of a record that is hit")
        sha = shas[at]
        if sha[:16] != text(asked, "sha"):
            raise MarkushError("the hits are others by now; look at the card again")
        # the file has the last of two that come at once, as the memory has; others don't wait for the file
        with self._judging:
            kept.put_verdict(sha, verdict, note)
            with desk.lock:
                if verdict == "open" and not note:
                    desk.verdicts.pop(sha, None)
                else:
                    desk.verdicts[sha] = (verdict, note)
                self.verdict_changes += 1
        return {}

    def verdicts(self, body: bytes, words: str) -> Dict[str, Any]:
        """All verdicts on what a search has found."""
        return {"verdicts": self._verdicts_on(list(self._asked(read_json(body)).shas), 0)}

    def _verdicts_on(self, shas: Sequence[str], start: int) -> List[List[Any]]:
        """The verdicts on some records, of which the first has this place; another request may take one out meanwhile."""
        return [[at, *found] for at, found in enumerate(map(self._desk.verdicts.get, shas), start) if found is not None]

    # ---- files to hand on

    def export(self, body: bytes, words: str) -> Dict[str, Any]:
        """Hits as a table, an SDfile, a page, or JSON for `report`; all of them, or those of some places."""
        asked, desk = read_json(body), self._desk
        desk.library()
        search, kind = self._asked(asked), text(asked, "kind")
        count, places = len(search.records), asked.get("places")
        if places is None:
            chosen = list(range(count))
        else:
            chosen = sorted({at for at in many(asked, "places") if isinstance(at, int) and 0 <= at < count})
        run = search.run

        def deed(tell: Tell) -> Raw:
            found: Optional[Raw] = None
            try:
                found = export(kind, search, chosen, desk, tell)
            except IndexError:
                if search.run == run:
                    raise
            if found is None or search.run != run:
                raise MarkushError("the search was begun anew meanwhile; write its hits once it's done")
            return found

        return desk.tickets.later(deed)

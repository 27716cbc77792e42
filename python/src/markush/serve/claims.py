"""Claims: read and drawn as they are written, kept by name, each version of them."""
from __future__ import annotations

import re
import threading
from typing import Any, Callable, Dict, List, Mapping

from ..claim import Claim
from ..errors import MarkushError, Refused
from ..library import KeptClaim, Library
from ..reasons import why_not
from .asked import claim_text, read_json, text, whole
from .desk import Desk
from .tickets import Tell

__all__ = ["Claims"]

MOST_REASONS = 100
MOST_VIEWS = 8  # claims that were read last
_NAME = re.compile(r"[^\x00-\x1f\x7f]{1,100}")


class Claims:
    """What the page asks about claims.

    Examples
    --------
    >>> import tempfile
    >>> from pathlib import Path
    >>> with tempfile.TemporaryDirectory() as folder:
    ...     desk = Desk(None, Path(folder))
    ...     print(sorted(Claims(desk).routes))
    ...     desk.tickets.close()
    ['claim', 'claim/forget', 'claim/keep', 'claim/read', 'compare']
    """

    def __init__(self, desk: Desk) -> None:
        self._desk = desk
        self._lock = threading.Lock()
        self._views: Dict[str, Dict[str, Any]] = {}  # of the claims that were read last, by their text

    @property
    def routes(self) -> Mapping[str, Callable[[bytes, str], Any]]:
        """What may be asked for."""
        return {
            "claim/read": self.read, "claim/keep": self.keep, "claim/forget": self.forget, "claim": self.version, "compare": self.compare,
        }

    def told(self) -> List[Dict[str, Any]]:
        """All claims with their versions, in short. The caller has the desk's lock."""
        return [
            {
                "name": name,
                "versions": [{"number": it.number, "date": it.date, "title": it.view["title"], "codes": it.view["codes"]} for it in versions],
            }
            for name, versions in sorted(self._desk.versions.items())
        ]

    def read(self, body: bytes, words: str) -> Dict[str, Any]:
        """A text read as a claim, and drawn; nothing is kept."""
        source = claim_text(read_json(body))
        return self._desk.tickets.later(lambda _: self._view(source))

    def _view(self, source: str) -> Dict[str, Any]:
        """A text read as a claim; what is kept was mostly read just before."""
        found = self._views.get(source)
        if found is None:
            found = self._desk.quick.ask("claim", text=source)
            # the program says whether it is a claim, in a process of its own, so that it waits for no search
            with Library(program=self._desk.program) as library:
                _judged(library, _claim_of(found))
            with self._lock:
                if len(self._views) >= MOST_VIEWS:
                    self._views.clear()
                self._views[source] = found
        return found

    def keep(self, body: bytes, words: str) -> Dict[str, Any]:
        """Keep a text as a claim's next version, where it is another one than the last."""
        asked, desk = read_json(body), self._desk
        source, name, kept = claim_text(asked), text(asked, "name").strip(), desk.keeper()
        if not _NAME.fullmatch(name):
            raise Refused("a claim is kept under a name of 1 to 100 letters; give it one")

        def deed(_: Tell) -> Dict[str, Any]:
            view = self._view(source)
            with desk.lock:
                versions = desk.versions.setdefault(name, [])
                if not versions or versions[-1].source != source:
                    versions.append(kept.put_version(name, source, view))
                return {"name": name, "version": versions[-1].number}

        return desk.tickets.later(deed)

    def forget(self, body: bytes, words: str) -> Dict[str, Any]:
        """Forget a claim with its versions and searches."""
        name, desk = text(read_json(body), "name"), self._desk
        kept = desk.keeper()
        with desk.lock:
            desk.versions.pop(name, None)
            for number in [number for number, search in desk.searches.items() if search.version.name == name]:
                desk.searches.pop(number).wants_stop = True
            kept.drop_claim(name)
        return {}

    def version(self, body: bytes, words: str) -> Dict[str, Any]:
        """A version of a claim: what was pasted, and its drawing."""
        asked = read_json(body)
        with self._desk.lock:
            version = self._desk.version(text(asked, "name"), whole(asked, "version"))
        return {"source": version.source, "view": version.view, "number": version.number, "date": version.date}

    def compare(self, body: bytes, words: str) -> Dict[str, Any]:
        """Two versions of a claim: which records one hits and the other doesn't, and by which demand."""
        asked, desk = read_json(body), self._desk
        name = text(asked, "name")
        with desk.lock:
            versions = [desk.version(name, whole(asked, word)) for word in ("before", "after")]
            searches = []
            for version in versions:
                found = [search for search in desk.searches.values() if search.version is version]
                if not found or found[0].state != "ended":
                    raise MarkushError(f"version {version.number} isn't searched to its end yet; search it first")
                if found[0].revision != desk.revision:
                    raise MarkushError(f"compounds changed since version {version.number} was searched; search it again first")
                searches.append(found[0])
        held = [dict(zip(search.records, search.names)) for search in searches]

        def deed(tell: Tell) -> Dict[str, Any]:
            found: Dict[str, Any] = {"both": len(held[0].keys() & held[1].keys())}
            for kind, has, hasnt in (("lost", 0, 1), ("gained", 1, 0)):
                numbers = sorted(held[has].keys() - held[hasnt].keys())
                rows: List[List[Any]] = []
                for at, number in enumerate(numbers):
                    why = ""
                    if at < MOST_REASONS:
                        tell(f"{kind}: {at + 1:,} of {len(numbers):,} asked")
                        try:
                            why = str(why_not(versions[hasnt].claim, desk.record(number), timeout=10.0, program=desk.program))
                        except KeyError:
                            why = "the record isn't held any more"
                    rows.append([number, held[has][number], why])
                found[kind] = rows
            return found

        return desk.tickets.later(deed)


def _claim_of(view: Dict[str, Any]) -> Claim:
    names = {(label, number): called for label, number, called in view["names"]}
    return Claim(view["rgfile"], names, view["title"])


def _judged(library: Library, claim: Claim) -> None:
    """Have the program say whether a claim is one."""
    kept = KeptClaim(library._dropped)
    library._keep(claim, kept)
    kept.drop()

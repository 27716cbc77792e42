"""Why a record isn't a hit, and which of the kept claims cover one SMILES."""
from __future__ import annotations

from typing import Any, Callable, Dict, List, Mapping

from ..errors import Refused
from ..library import Library, Record
from ..reasons import why_not
from .asked import read_json, text, whole
from .desk import Desk
from .kept import Version
from .tickets import Tell

__all__ = ["Questions"]

SECONDS = 60.0  # for the answer to one question
MOST_SMILES = 10_000  # letters
TOLD_EVERY = 1_000  # records


class Questions:
    """What the page asks about one compound and a claim.

    Examples
    --------
    >>> import tempfile
    >>> from pathlib import Path
    >>> with tempfile.TemporaryDirectory() as folder:
    ...     desk = Desk(None, Path(folder))
    ...     print(sorted(Questions(desk).routes))
    ...     desk.tickets.close()
    ['covers', 'why']
    """

    def __init__(self, desk: Desk) -> None:
        self._desk = desk

    @property
    def routes(self) -> Mapping[str, Callable[[bytes, str], Any]]:
        """What may be asked for."""
        return {"why": self.why, "covers": self.covers}

    def why(self, body: bytes, words: str) -> Dict[str, Any]:
        """Why a record isn't a hit: of which claim, and the record by number, name or the value of a data item."""
        asked, desk = read_json(body), self._desk
        wanted, library = text(asked, "record").strip(), desk.library()
        with desk.lock:
            version = desk.version(text(asked, "name"), whole(asked, "version"))

        def deed(tell: Tell) -> Dict[str, Any]:
            record = desk.record(self._found(library, wanted, tell))
            reason = why_not(version.claim, record, timeout=SECONDS, program=desk.program)
            return {
                "number": record.number,
                "name": record.name,
                "data": record.data,
                "kind": reason.kind,
                "words": reason.words,
                "label": reason.label,
                "atom": reason.atom,
                "places": list(reason.places),
                "picture": desk.picture(record.raw),
                "root": version.view["tables"][0],
            }

        return desk.tickets.later(deed)

    def _found(self, library: Library, wanted: str, tell: Tell) -> int:
        """The number of the record that is meant."""
        if not wanted:
            raise Refused("say which record: its number, its name, or the value of one of its data items")
        if wanted.isascii() and wanted.isdigit() and len(wanted) < 12 and library._holds(int(wanted)):
            return int(wanted)
        sought, by_value = wanted.encode("utf-8"), 0
        for at, record in enumerate(self._desk.records(list(library._numbers))):
            if at % TOLD_EVERY == 0:
                tell(f"{at:,} records looked at")
            if record.name.casefold() == wanted.casefold():
                return record.number
            if not by_value and sought in record.raw and wanted in record.data.values():
                by_value = record.number
        if by_value:
            return by_value
        raise Refused(f"no record has the number, the name or a data item '{wanted[:200]}'")

    def covers(self, body: bytes, words: str) -> Dict[str, Any]:
        """Which of the kept claims cover one SMILES, and by which choice; else why not."""
        smiles, desk = text(read_json(body), "smiles").strip(), self._desk
        if not smiles or "\n" in smiles or len(smiles) > MOST_SMILES:
            raise Refused("paste one SMILES, in one line")
        with desk.lock:
            versions = [held[-1] for _, held in sorted(desk.versions.items())]

        def deed(tell: Tell) -> Dict[str, Any]:
            drawn = desk.quick.ask("smiles", lines=[smiles])
            if drawn["refused"] or not drawn["records"]:
                raise Refused(drawn["refused"][0][2] if drawn["refused"] else "there is no SMILES in it")
            record = Record(1, drawn["records"][0][1].encode("utf-8").split(b"$$$$")[0])
            rows: List[Dict[str, Any]] = []
            with Library(program=desk.program) as library:
                library._loaded(library._written([record.raw]), None)
                for version in versions:
                    tell(f"{version.name} is asked")
                    rows.append(self._covered(library, version, record))
            return {"rows": rows, "picture": desk.picture(record.raw)}

        return desk.tickets.later(deed)

    def _covered(self, library: Library, version: Version, record: Record) -> Dict[str, Any]:
        """Whether a claim covers the one record of a library."""
        row: Dict[str, Any] = {"name": version.name, "version": version.number, "hit": False, "words": "", "map": []}
        with library.search(version.claim, per="record") as hits:
            hit = next(hits, None)
        if hit is not None:
            row.update(hit=True, words=hit.words, map=list(hit.map))
        else:
            row["words"] = str(why_not(version.claim, record, timeout=SECONDS, program=self._desk.program))
        return row

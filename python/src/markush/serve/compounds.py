"""Compounds: files taken in, added, updated or replaced; records found, looked at and taken out."""
from __future__ import annotations

import hashlib
import io
import os
import re
import traceback
from collections import deque
from dataclasses import dataclass, field
from itertools import islice
from typing import Any, Callable, Deque, Dict, Iterator, List, Mapping, Optional, Sequence

from ..answers import decode
from ..errors import MarkushError, Refused
from ..library import Library, _by_key, held_text
from ..records import GZIP, SMILES_ENDINGS, XZ, RecordText, read_records
from ..tools.account import Named
from .asked import many, read_json, text, unquoted, whole
from .desk import Desk
from .texts import texts_of
from .tickets import Tell
from .unpacking import unpacked

__all__ = ["Compounds", "Job"]

CHUNK = 1_000  # records of a load
LINES = 500  # of SMILES that are drawn at once
AT_ONCE = 100  # records that are read, replaced or taken out between other deeds
SHOWN = 50  # records of a list
MOST_RECORDS, MOST_LINES = 100_000, 200_000  # of a file
MOST_REFUSED = 1_000
MOST_NAME = 200  # letters of a file's name


@dataclass
class Job:
    """Compounds that are taken in.

    Examples
    --------
    >>> Job(1, "a.sdf", "add").told()["state"]
    'reading'
    """

    number: int
    file: str
    how: str
    state: str = "reading"
    done: int = 0
    of: int = 0
    kept: int = 0
    replaced: int = 0
    same: int = 0
    missing: int = 0
    refused: List[str] = field(default_factory=list)
    more_refused: int = 0
    fault: str = ""
    source: Optional[Named] = None  # the file of the machine that was named at the start

    def told(self) -> Dict[str, Any]:
        """What the page shows of it."""
        return {
            "id": self.number, "file": self.file, "how": self.how, "state": self.state, "done": self.done, "of": self.of,
            "kept": self.kept, "replaced": self.replaced, "same": self.same, "missing": self.missing,
            "refused": len(self.refused) + self.more_refused, "fault": self.fault,
        }

    def refuse(self, words: str) -> None:
        """Note that a record was left out."""
        if len(self.refused) < MOST_REFUSED:
            self.refused.append(words)
        else:
            self.more_refused += 1


class Compounds:
    """What the page asks about compounds.

    Examples
    --------
    >>> import tempfile
    >>> from pathlib import Path
    >>> with tempfile.TemporaryDirectory() as folder:
    ...     desk = Desk(None, Path(folder))
    ...     print(sorted(Compounds(desk).routes))
    ...     desk.tickets.close()
    ['compound', 'compounds', 'load', 'loads', 'remove']
    """

    def __init__(self, desk: Desk) -> None:
        self._desk = desk
        self._jobs: List[Job] = []
        self._waiting: Deque[Iterator[None]] = deque()
        self._is_loading = False

    @property
    def routes(self) -> Mapping[str, Callable[[bytes, str], Any]]:
        """What may be asked for."""
        return {"load": self.load, "loads": self.refused, "compounds": self.listed, "compound": self.look, "remove": self.remove}

    def told(self) -> List[Dict[str, Any]]:
        """What was taken in last."""
        return [job.told() for job in self._jobs[-20:]]

    # ---- records taken in

    def load(self, body: bytes, words: str) -> Dict[str, Any]:
        """Take compounds in: add all, update by a data item, or replace one record."""
        asked = read_json(unquoted(words))
        how, key = str(asked.get("how", "add")), str(asked.get("key", "")).strip()
        if how not in ("add", "update", "replace"):
            raise MarkushError("compounds are added, updated or replaced")
        if how == "update" and not key:
            raise Refused("say by which data item the records are the same, as ID")
        number = whole(asked, "number") if how == "replace" else 0
        name = " ".join(str(asked.get("name", "")).split())[:MOST_NAME] or "what was pasted"
        return self._begun(Job(0, name, how), body, key, asked.get("missing") == "remove", number)

    def load_file(self, path: str, body: bytes) -> None:
        """Take in a file of the machine that was named at the start."""
        source = Named(path, hashlib.sha256(body).hexdigest())
        self._begun(Job(0, os.path.basename(path), "add", source=source), body)

    def _begun(self, job: Job, body: bytes, key: str = "", is_removing: bool = False, number: int = 0) -> Dict[str, Any]:
        library = self._desk.library()
        with self._desk.lock:
            job.number = len(self._jobs) + 1
            self._jobs.append(job)

        def deed() -> None:
            try:
                pieces = self._pieces(job, body)
                job.of = len(pieces)
                if job.how == "add":
                    steps = self._adding(job, library, pieces)
                elif job.how == "update":
                    steps = self._updating(job, library, pieces, key, is_removing)
                else:
                    steps = self._replacing(job, library, pieces, number)
                job.state = "waiting"
                self._put(self._told_steps(job, steps))
            except MarkushError as fault:
                job.state, job.fault = "failed", str(fault)
            except Exception:
                traceback.print_exc()
                job.state, job.fault = "failed", "something went wrong in the server; its terminal says what"

        self._desk.tickets.in_turn(deed)
        return {"id": job.number}

    def _put(self, steps: Iterator[None]) -> None:
        """Have files loaded one after the other, so that the records of one stand together."""
        with self._desk.lock:
            self._waiting.append(steps)
            if self._is_loading:
                return
            self._is_loading = True
        self._desk.driver.task("compounds are loaded", self._in_turn())

    def _in_turn(self) -> Iterator[None]:
        while True:
            with self._desk.lock:
                if not self._waiting:
                    self._is_loading = False
                    return
                steps = self._waiting.popleft()
            yield from steps

    def _told_steps(self, job: Job, steps: Iterator[None]) -> Iterator[None]:
        job.state = "loading"
        try:
            yield from steps
            job.state, job.done = "done", job.of
        except (MarkushError, KeyError) as fault:
            job.state, job.fault = "failed", self._desk.driver.words(fault)
        except Exception:
            traceback.print_exc()
            job.state, job.fault = "failed", "something went wrong in the server; its terminal says what"
        except BaseException:
            job.state, job.fault = "failed", "it was cut off"
            raise
        finally:
            if job.kept or job.replaced or job.missing:
                # what the library holds is a file of the machine, where it holds nothing else
                is_all = job.state == "done" and job.kept == job.of == len(self._desk.library()._numbers)
                self._desk.changed(job.source if is_all else None)

    def _pieces(self, job: Job, body: bytes) -> List[RecordText]:
        """The records of what was sent, unpacked, and drawn where they are SMILES."""
        data = unpacked(body)
        if data.startswith((GZIP, XZ)):
            raise Refused("the file is packed twice; unpack it once")
        bare = job.file[:-3] if job.file.endswith((".gz", ".xz")) else job.file
        if bare.lower().endswith((*SMILES_ENDINGS, ".ism", ".can")) or not re.search(rb"V[23]000|M  END", data):
            return self._of_smiles(job, decode(data))
        pieces = list(islice(read_records(io.BytesIO(data)), MOST_RECORDS + 1))
        if len(pieces) > MOST_RECORDS:
            raise Refused(f"{job.file} has more than {MOST_RECORDS:,} records, which is what a library holds")
        return pieces

    def _of_smiles(self, job: Job, written: str) -> List[RecordText]:
        if written.count("\n") > MOST_LINES:
            raise Refused(f"{job.file} has more than {MOST_LINES:,} lines, and a library holds 100,000 records")
        lines = written.split("\n")
        pieces: List[RecordText] = []
        for start in range(0, len(lines), LINES):
            job.done, job.of = start, len(lines)
            found = self._desk.bulk.ask("smiles", lines=lines[start : start + LINES])
            for line, name, why in found["refused"]:
                job.refuse(f"line {start + line}{' ' + name if name else ''}: {why}")
            for line, record in found["records"]:
                pieces.append(RecordText(len(pieces) + 1, record.encode("utf-8"), start + line))
        job.done = 0
        return pieces

    def _adding(self, job: Job, library: Library, pieces: Sequence[RecordText]) -> Iterator[None]:
        for start in range(0, len(pieces), CHUNK):
            self._add(job, library, pieces[start : start + CHUNK])
            job.done = min(len(pieces), start + CHUNK)
            yield

    def _add(self, job: Job, library: Library, pieces: Sequence[RecordText]) -> None:
        """Load some records, without those that are refused."""
        good = [piece for piece in pieces if piece.fault is None]
        for piece in pieces:
            if piece.fault is not None:
                job.refuse(f"record {piece.number}: {piece.fault}")
        if not good:
            return
        path = library._written([piece.raw for piece in good])
        try:
            job.kept += library._loaded(path, None).count
        except Refused as fault:
            if fault.code == 5:
                raise Refused("the library is full: it holds 100,000 records and 134,217,728 bytes at most") from None
            sound, refused = library._sieved(good, None)
            for each in refused:
                job.refuse(str(each))
            if sound:
                again = library._written([piece.raw for piece in sound])
                try:
                    job.kept += library._loaded(again, None).count
                finally:
                    again.unlink()
        finally:
            path.unlink()

    def _updating(self, job: Job, library: Library, pieces: Sequence[RecordText], key: str, is_removing: bool) -> Iterator[None]:
        before: Dict[int, bytes] = {}
        numbers = library.numbers
        for start in range(0, len(numbers), AT_ONCE):
            before.update(texts_of(library, numbers[start : start + AT_ONCE]))
            yield
        given = _by_key([(piece.number, held_text(piece)) for piece in pieces], key, job.file)
        held = _by_key(before.items(), key, "the library")
        texts = {piece.number: piece for piece in pieces}
        fresh = [texts[number] for value, number in given.items() if value not in held]
        other = {
            held[value]: texts[number]
            for value, number in given.items()
            if value in held and held_text(texts[number]) != before[held[value]]
        }
        job.same = len(given) - len(fresh) - len(other)
        for at, (number, piece) in enumerate(sorted(other.items()), 1):
            self._replace(job, library, number, piece)
            job.done = job.same + at
            yield
        for start in range(0, len(fresh), CHUNK):
            self._add(job, library, fresh[start : start + CHUNK])
            yield
        lost = sorted(number for value, number in held.items() if value not in given)
        job.missing = len(lost) if is_removing else 0
        for start in range(0, job.missing, AT_ONCE):
            library.remove(lost[start : start + AT_ONCE])
            yield

    def _replacing(self, job: Job, library: Library, pieces: Sequence[RecordText], number: int) -> Iterator[None]:
        if len(pieces) != 1:
            raise Refused(f"a record is replaced by one other, and {job.file} has {len(pieces):,}")
        self._replace(job, library, number, pieces[0])
        yield

    def _replace(self, job: Job, library: Library, number: int, piece: RecordText) -> None:
        path = library._written([piece.raw])
        try:
            library._replaced(number, path, None)
            job.replaced += 1
        except Refused as fault:
            job.refuse(str(fault))
        finally:
            path.unlink()

    def refused(self, body: bytes, words: str) -> Dict[str, Any]:
        """What was refused when some compounds were taken in."""
        number = whole(read_json(body), "id")
        with self._desk.lock:
            for job in self._jobs:
                if job.number == number:
                    return {**job.told(), "words": list(job.refused)}
        raise MarkushError("that isn't known any more")

    # ---- records that are held

    def remove(self, body: bytes, words: str) -> Dict[str, Any]:
        """Take records out."""
        numbers = sorted({number for number in many(read_json(body), "numbers") if isinstance(number, int)})
        self._desk.library()

        def deed(_: Tell) -> Dict[str, Any]:
            try:
                for start in range(0, len(numbers), AT_ONCE):
                    some = numbers[start : start + AT_ONCE]
                    self._desk.driver.do("records are taken out", lambda library: library.remove(some)).result()
            finally:
                self._desk.changed()
            return {"removed": len(numbers)}

        return self._desk.tickets.later(deed)

    def listed(self, body: bytes, words: str) -> Dict[str, Any]:
        """Some records from a place on, or of those whose name or number holds a text."""
        asked, library = read_json(body), self._desk.library()
        start, sought = max(0, whole(asked, "from")), text(asked, "text").strip().casefold()

        def deed(_: Tell) -> Dict[str, Any]:
            numbers = list(library._numbers)
            if sought:
                found = self._desk.records(numbers)
                numbers = [record.number for record in found if sought == str(record.number) or sought in record.name.casefold()]
            rows = [[record.number, record.name, record.data] for record in self._desk.records(numbers[start : start + SHOWN])]
            return {"rows": rows, "of": len(numbers), "from": start}

        return self._desk.tickets.later(deed)

    def look(self, body: bytes, words: str) -> Dict[str, Any]:
        """One record, drawn, with its data and its text."""
        number, desk = whole(read_json(body), "number"), self._desk
        desk.library()

        def deed(_: Tell) -> Dict[str, Any]:
            record = desk.record(number)
            return {
                "number": number, "name": record.name, "data": record.data, "text": record.text, "picture": desk.picture(record.raw),
            }

        return desk.tickets.later(deed)

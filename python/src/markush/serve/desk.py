"""What all parts of the bench share: the library, what is kept beside it, texts and pictures of records, and tickets."""
from __future__ import annotations

import hashlib
import threading
from pathlib import Path
from typing import Any, Dict, Iterator, List, Optional, Sequence, Tuple

from ..answers import decode
from ..drawing import record_picture
from ..errors import MarkushError
from ..library import Library, Record
from ..tools.account import Named
from .drawer import Drawer
from .driver import Driver
from .kept import Kept, Version
from .searches import Search
from .texts import texts_of
from .tickets import Tickets

__all__ = ["Desk"]

READ_AT_ONCE = 100  # records, where many are read
MOST_PICTURES = 5_000


class Desk:
    """The library, and all that is in memory beside it.

    Parameters
    ----------
    store : path or None
        None for a library that goes with the server; `folder` is then where what is kept stands for so long.
    folder : path
        A private folder.
    program : path or None
        The session program; else it is looked for.

    Examples
    --------
    >>> import tempfile
    >>> with tempfile.TemporaryDirectory() as folder:
    ...     desk = Desk(None, Path(folder))
    ...     desk.start()
    ...     print(desk.driver.opened.wait(60), desk.driver.library is not None)
    ...     desk.close()
    True True
    """

    def __init__(self, store: Optional[Path], folder: Path, program: Optional[Path] = None) -> None:
        self.store, self.folder, self.program = store, folder, program
        self.driver = Driver(store, program)
        self.quick, self.bulk = Drawer(), Drawer(seconds=120)
        self.tickets = Tickets()
        self.lock = threading.RLock()
        self.kept: Optional[Kept] = None
        self.versions: Dict[str, List[Version]] = {}
        self.searches: Dict[int, Search] = {}
        self.verdicts: Dict[str, Tuple[str, str]] = {}
        self.revision = 0
        self.read: Optional[int] = None  # records whose texts are in memory, while all are read
        self.is_ready = False
        self.source: Optional[Named] = None  # the file of the machine whose records these are, all of them and no others
        self._pictures: Dict[str, Dict[str, Any]] = {}
        self._layouts: Dict[str, bool] = {}

    def start(self) -> None:
        """Open the library and what is kept beside it."""
        self.driver.start()
        self.driver.at_last(self._opening())

    def close(self) -> None:
        """Keep what has to be kept, and let all go."""
        with self.lock:
            for search in self.searches.values():
                search.wants_stop = True
        self.driver.close()
        self.tickets.drop()
        self.quick.close()
        self.bulk.close()
        if self.kept is not None:
            self.kept.close()

    # ---- the beginning, in the driver's thread

    def _opening(self) -> Iterator[None]:
        library = self.driver.library
        assert library is not None
        try:
            kept = Kept(Path(f"{self.store}-bench") if self.store is not None else self.folder / "bench")
            with self.lock:
                for version in kept.versions():
                    self.versions.setdefault(version.name, []).append(version)
                self.verdicts = kept.verdicts()
                self.revision = int(kept.fact("revision") or 0)
                for number, name, version_number, _, held in kept.searches():
                    found = self.version(name, version_number)
                    self.searches[number] = Search.of_kept(number, found, held)
                self.kept = kept
        except (MarkushError, KeyError, ValueError) as fault:
            self.driver.fault = str(fault)
            return
        self.is_ready = True
        yield
        yield from self._reading()

    def _reading(self) -> Iterator[None]:
        """Have the texts of all records in memory, when there is nothing else to do, and see whether they are what they were."""
        library, kept = self.library(), self.keeper()
        digest, begun, numbers = hashlib.sha256(), self.revision, library.numbers
        try:
            for start in range(0, len(numbers), READ_AT_ONCE):
                if begun != self.revision:
                    return
                some = numbers[start : start + READ_AT_ONCE]
                texts = texts_of(library, some)
                for number in some:
                    if number in texts:
                        digest.update(b"%d " % number + hashlib.sha256(texts[number]).digest())
                self.read = start + len(some)
                yield
            # another program may have changed the store since the server was there
            known = kept.fact("digest")
            kept.put_fact("digest", digest.hexdigest())
            if known and known != digest.hexdigest():
                with self.lock:
                    self.revision += 1
                    kept.put_fact("revision", str(self.revision))
        finally:
            self.read = None

    # ---- what the parts take

    def keeper(self) -> Kept:
        """The file beside the store.

        Raises
        ------
        MarkushError
            It isn't open yet.
        """
        if self.kept is None or not self.is_ready:
            raise MarkushError(self.driver.fault or "the library isn't open yet; wait a moment")
        return self.kept

    def library(self) -> Library:
        """The library, which the driver's thread alone asks. What it holds in memory may be looked at by others."""
        self.keeper()
        library = self.driver.library
        assert library is not None
        return library

    def changed(self, source: Optional[Named] = None) -> None:
        """Note that the library's records are others by now: those of a file that was named at the start, or nobody's."""
        with self.lock:
            self.revision += 1
            self.source = source
            if self.kept is not None:
                self.kept.put_fact("revision", str(self.revision))
                self.kept.put_fact("digest", "")
        self.driver.at_last(self._reading())

    def version(self, name: str, number: int) -> Version:
        """A version of a claim.

        Raises
        ------
        MarkushError
            There is none.
        """
        for version in self.versions.get(name, []):
            if version.number == number:
                return version
        raise MarkushError(f"there is no version {number} of the claim '{name}'")

    # ---- texts and pictures of records

    def text_soon(self, number: int) -> Optional[bytes]:
        """The text of a record where it is in memory; else it is fetched, and is there a moment later."""
        library = self.library()
        text = library._texts.get(number)
        if text is None and library._holds(number):
            self.driver.do("a record is read", lambda library: library._text(number) if library._holds(number) else None)
        return text

    def record(self, number: int) -> Record:
        """A record, waited for; not for the thread of a request. A KeyError where there is none."""
        text = self.library()._texts.get(number)
        if text is None:
            text = self.driver.do("a record is read", lambda library: library._text(number)).result()
        return Record(number, text)

    def records(self, numbers: Sequence[int]) -> Iterator[Record]:
        """The records that are held of these numbers, waited for; not for the thread of a request."""
        held = self.library()._texts
        for start in range(0, len(numbers), READ_AT_ONCE):
            some = numbers[start : start + READ_AT_ONCE]
            texts = {number: held[number] for number in some if number in held}
            if len(texts) < len(some):
                texts = self.driver.do("records are read", lambda library: texts_of(library, some)).result()
            for number in some:
                if number in texts:
                    yield Record(number, texts[number])

    def picture(self, text: bytes) -> Optional[Dict[str, Any]]:
        """The picture of a record, waited for; not for the thread of a request. None where it can't be drawn."""
        try:
            picture = record_picture(decode(text))
            if picture.lies_apart or not self.quick.has_rdkit:
                return picture.compact()
            found: Dict[str, Any] = self.quick.ask("picture", text=decode(text))["picture"]
            return found
        except (ValueError, MarkushError):
            return None

    def picture_soon(self, text: bytes, sha: str) -> Optional[Dict[str, Any]]:
        """The picture of a record; where RDKit has to lay it out, None until it has."""
        known = self._pictures.get(sha)
        if known is not None:
            return known
        try:
            picture = record_picture(decode(text))
        except ValueError:
            return {"s": "", "b": []}
        if picture.lies_apart or not self.quick.has_rdkit:
            return picture.compact()
        with self.lock:
            if sha in self._layouts:
                return None
            self._layouts[sha] = True

        def lay_out() -> None:
            try:
                found = self.quick.ask("picture", text=decode(text))["picture"]
            except MarkushError:
                found = picture.compact()
            with self.lock:
                if len(self._pictures) > MOST_PICTURES:
                    self._pictures.clear()
                self._pictures[sha] = found
                self._layouts.pop(sha, None)

        self.tickets.submit(lay_out)
        return None

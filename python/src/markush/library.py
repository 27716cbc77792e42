"""A library: records of compounds in a store, kept and searched by one process of the session program."""
from __future__ import annotations

import bisect
import hashlib
import operator
import os
import re
import secrets
import shutil
import sqlite3
import stat
import time
from collections import deque
from contextlib import contextmanager
from dataclasses import dataclass, field
from pathlib import Path
from typing import (
    TYPE_CHECKING,
    Any,
    BinaryIO,
    Callable,
    Deque,
    Dict,
    Iterable,
    Iterator,
    List,
    Optional,
    Sequence,
    Tuple,
    Union,
    cast,
)

from .answers import decode, read_listing, read_loaded, read_refusal, read_shown, read_word
from .claim import Claim, keep_query
from .errors import MarkushError, Refused
from .molecules import is_mol, rdkit, to_inchikeys, to_mol, write_mols
from .records import GZIP, SMILES_ENDINGS, XZ, RecordText, items_of, read_records
from .refusals import explained, record_fault
from .session import Session

if TYPE_CHECKING:
    from .hits import Hits, SavedSearch

__all__ = ["Library", "Record", "Loaded", "Updated"]

_CHUNK, _CHUNK_BYTES = 200, 4_000_000
_SIEVE_BYTES = 50_000_000
_OURS = re.compile(r"markush\.py\.[0-9a-f]{8}\.\d+")

PathOrMols = Union[str, "os.PathLike[str]", Sequence[Any]]


@dataclass(frozen=True)
class Record:
    """A record that is held: its number, and its text as it was when it was asked for.

    Attributes
    ----------
    number : int
        Its number in the library, from 1.
    raw : bytes
        Its text, without the separator, each line with its LF.

    Examples
    --------
    >>> with Library() as lib:
    ...     loaded = lib.load(EXAMPLES / "phenoxy_acids" / "compounds.sdf")
    ...     print(lib[3].name, lib[3].data)
    2,4-D {'formula': 'C8H6Cl2O3'}
    """

    number: int
    raw: bytes = field(repr=False)

    @property
    def text(self) -> str:
        """The record's text, as UTF-8 or else as Latin-1."""
        return decode(self.raw)

    @property
    def name(self) -> str:
        """The record's first line, without outer blanks."""
        return name_of(self.raw)

    @property
    def data(self) -> Dict[str, str]:
        """The record's data items, by name; a value of several lines has LF between them."""
        return items_of(decode(self.raw).split("\n"))

    @property
    def sha256(self) -> str:
        """The digest of the text, in hexadecimal digits."""
        return hashlib.sha256(self.raw).hexdigest()

    @property
    def mol(self) -> Any:
        """The record as a molecule of RDKit; hydrogens that are drawn are kept."""
        return to_mol(self.raw, f"record {self.number} '{self.name}'")


@dataclass(frozen=True)
class Loaded:
    """What `load` kept: how many records, the number of the first, and what it left out.

    Attributes
    ----------
    count : int
        How many records were kept.
    first : int or None
        The number of the first, or None where none was.
    refused : tuple of Refused
        With `bad="skip"`, a refusal for each record that was left out.

    Examples
    --------
    >>> Loaded(2, 1).numbers
    range(1, 3)
    """

    count: int
    first: Optional[int]
    refused: Tuple[Refused, ...] = ()

    @property
    def numbers(self) -> range:
        """The numbers of the records that were kept."""
        return range(0) if self.first is None else range(self.first, self.first + self.count)


@dataclass(frozen=True)
class Updated:
    """What `update` did, as numbers of records of the library.

    Attributes
    ----------
    added, replaced, same, missing : tuple of int
        The records that were added, replaced, left as they were, and those that the file doesn't have.
    refused : tuple of Refused
        A refusal for each record of the file that was left out.

    Examples
    --------
    >>> Updated((4,), (), (1, 2), (3,), ()).added
    (4,)
    """

    added: Tuple[int, ...]
    replaced: Tuple[int, ...]
    same: Tuple[int, ...]
    missing: Tuple[int, ...]
    refused: Tuple[Refused, ...]


class KeptClaim:
    """The claim that a search keeps, and the place to which it has come. What is left of it is dropped with the search."""

    def __init__(self, dropped: Deque[str]) -> None:
        self.dropped = dropped
        self.name: Optional[str] = None
        self.cursor: Optional[int] = None

    def drop(self) -> None:
        """Have the claim forgotten before the library's next command. It may come from the collector, so it asks nothing."""
        if self.name is not None:
            # twice is no harm, and never is
            self.dropped.append(self.name)
        self.name = self.cursor = None


def name_of(text: bytes) -> str:
    """The first line of a record, without outer blanks."""
    return decode(text.split(b"\n", 1)[0]).strip()


def held_text(record: RecordText) -> bytes:
    """A record of a file as a library holds its text: without separator and CR, each line with its LF."""
    lines = record.raw.split(b"\n")
    if lines[-1] == b"":
        lines.pop()
    return b"".join(line.rstrip(b"\r") + b"\n" for line in lines[: len(record.lines)])


def _unpack(source: Union[Path, BinaryIO], path: Path, name: str, refused: Optional[List[Refused]]) -> None:
    """Write what is packed in a file, what comes by a pipe, or the records of a list of SMILES."""
    with open(path, "xb") as out:
        for record in read_records(source):
            if record.fault is None:
                out.write(closed(record.raw))
                continue
            fault = Refused(f"{name}: {record.fault}; line {record.line}", file=name, line=record.line, record=record.number)
            if refused is None:
                raise fault
            refused.append(fault)


def _number(given: Any) -> int:
    """The number of a record as an int, also where it comes from a column of a DataFrame."""
    try:
        return operator.index(given)
    except TypeError:
        raise TypeError(f"a record is named by its number, and not by {given!r}") from None


def _mols(given: Any) -> List[Any]:
    """One molecule, or several, as a list."""
    if is_mol(given):
        return [given]
    try:
        return list(given)
    except TypeError:
        raise TypeError(f"a file's path, or molecules of RDKit, are wanted, and not a {type(given).__name__}") from None


def shown(path: Union[str, bytes, "os.PathLike[str]"]) -> str:
    """A path as a message names it."""
    return os.fsencode(path).decode("utf-8", "replace")


class Library:
    """Records of compounds, claims and searches in a store, over one process of the session program.

    Parameters
    ----------
    path : path or None
        The store's file, which is made where it isn't there; None for a store that goes when the library is closed.
    program : path or None
        The session program; else it is looked for.
    clock : callable
        Gives the time in seconds, for timeouts; `time.monotonic` but for tests.

    Raises
    ------
    StoreBusy
        Another run has the store.
    StoreBad
        The file is no store, can't be opened or made, or has a bad row.
    OutOfMemory
        Memory ran out in the program.
    ProgramEnded
        The program ended by itself; what was answered is kept.
    MarkushError
        There is no program; or it was closed, or is used in a forked child.

    Examples
    --------
    >>> with Library() as lib:
    ...     print(lib.load(EXAMPLES / "phenoxy_acids" / "compounds.sdf").count)
    ...     for hit in lib.search(Claim.read(EXAMPLES / "phenoxy_acids" / "claim.rgf"), limit=2):
    ...         print(hit.record, hit.name, hit.choice)
    33
    1 phenoxyacetic acid (3, 3, 3)
    2 4-chlorophenoxyacetic acid (3, 3, 1)
    """

    def __init__(
        self,
        path: Union[str, "os.PathLike[str]", None] = None,
        *,
        program: Union[str, "os.PathLike[str]", None] = None,
        clock: Callable[[], float] = time.monotonic,
    ) -> None:
        self.path = None if path is None else Path(os.path.abspath(os.fspath(path)))
        self._program = program
        self._clock = clock
        self._session = Session(self.path, program=program, clock=clock)
        if self.path is None:
            self._session.store = self._session.folder / "store.db"
        self._prefix = f"markush.py.{secrets.token_hex(4)}"
        self._queries = 0
        self._mine: Dict[str, None] = {}  # names of claims that this library keeps for its searches
        self._dropped: Deque[str] = deque()  # those to be forgotten before the next command
        self._texts: Dict[int, bytes] = {}
        self._keys: Dict[int, str] = {}
        self._numbers: List[int] = []
        self._generation = 0
        try:
            self._session.open()
            self._refresh()
            self._forget_leftovers()
        except BaseException:
            self._session.close()
            raise

    # ---- life

    def __enter__(self) -> "Library":
        return self

    def __exit__(self, *_: object) -> None:
        self.close()

    def __repr__(self) -> str:
        return f"<Library {self.path or 'that goes when it is closed'}>"

    def close(self) -> None:
        """Let the store go; one without a path goes with it. A second call does nothing."""
        if self._session.closed:
            return
        if self.path is not None and self._session.process_id is not None:
            try:
                with self._session.lock:
                    self._dropped.extend(self._mine)
                    self._settle()
            except MarkushError:
                pass  # what is left is forgotten when the store is opened again
        self._session.close()

    # ---- commands

    def _ask(self, command: str, deadline: Optional[float] = None) -> bytes:
        """The answer to a command that wasn't refused."""
        with self._session.lock:
            self._settle()
            frame = self._session.ask(command, deadline)
        if frame.how != "done":
            raise explained(read_refusal(frame.data), command)
        return frame.data

    def _settle(self) -> None:
        """Forget the claims of searches that are over. The caller has the lock."""
        while self._dropped:
            name = self._dropped[0]
            self._session.ask(f"forget {name}")
            self._mine.pop(name, None)
            self._dropped.popleft()

    def _refresh(self) -> None:
        """See that what is remembered is of the store as it was opened last. The caller may have the lock."""
        with self._session.lock:
            self._session.open()
            if self._generation != self._session.generation:
                listing = read_listing(self._session.ask("list").data)
                self._texts.clear()
                self._keys.clear()
                self._numbers = list(listing.records)
                self._generation = self._session.generation

    def _forget_leftovers(self) -> None:
        """Forget the claims that a library before this one kept for searches, and that nobody ended."""
        kept = {saved.query for saved in self._saved_files()}
        for name in self.queries():
            if _OURS.fullmatch(name) and name not in kept:
                self._session.ask(f"forget {name}")

    def queries(self) -> Tuple[str, ...]:
        """The names of the claims that the store keeps, those of running searches among them.

        Examples
        --------
        >>> with Library() as lib:
        ...     lib.queries()
        ()
        """
        with self._session.lock:
            self._settle()
            return read_listing(self._session.ask("list").data).queries

    def cursors(self) -> Tuple[Tuple[int, str], ...]:
        """The numbers of the saved places that the store keeps, each with the name of its claim; 1,000 is the most.

        Examples
        --------
        >>> with Library() as lib:
        ...     lib.cursors()
        ()
        """
        with self._session.lock:
            self._settle()
            return read_listing(self._session.ask("list").data).cursors

    def _keep(self, claim: Claim, kept: "KeptClaim") -> str:
        """Keep a claim under a name of its own, which is to be dropped from now on whatever happens."""
        with self._session.lock:
            self._settle()
            self._queries += 1
            name = f"{self._prefix}.{self._queries}"
            self._mine[name] = None
            kept.name = name
            try:
                keep_query(self._session, name, claim)
            except BaseException:
                kept.drop()
                raise
            return name

    # ---- records in

    def load(self, file: PathOrMols, bad: str = "refuse") -> Loaded:
        """Keep the records of an SDfile under the next numbers, all or none.

        Parameters
        ----------
        file : path, RDKit molecule or sequence of them
            An SDfile or a list of SMILES (`.smi`, `.smiles`), also packed as `.gz` or `.xz`, or molecules with their properties.
        bad : {"refuse", "skip"}
            Whether one bad record refuses the file, or is left out and named in the answer.

        Raises
        ------
        Refused
            Nothing is kept; the message names the record, the line and the atom.
        OSError
            The file can't be read.
        TypeError
            It is neither, or the list has something else than molecules.
        MarkushError
            SMILES or molecules, and there is no RDKit.

        Examples
        --------
        >>> with Library() as lib:
        ...     loaded = lib.load(EXAMPLES / "vendor" / "vendor.sdf", bad="skip")
        ...     print(loaded.count, [fault.record for fault in loaded.refused])
        5 [4, 6, 7, 8]
        """
        if bad not in ("refuse", "skip"):
            raise ValueError(f"bad is 'refuse' or 'skip', and not {bad!r}")
        refused: List[Refused] = []
        with self._taken(file, refused if bad == "skip" else None) as (path, name):
            if bad == "skip":
                good, more = self._sieved(list(read_records(path)), name)
                refused += more
                path = self._written([record.raw for record in good])
            kept = self._loaded(path, name)
        return Loaded(kept.count, kept.first, tuple(refused))

    def _loaded(self, path: Path, name: Optional[str]) -> Loaded:
        command = f"load {path.name}"
        with self._session.lock:
            self._refresh()
            self._settle()
            frame = self._session.ask(command)
            if frame.how != "done":
                raise explained(read_refusal(frame.data), command, file=name, records=read_records(path))
            kept = read_loaded(frame.data)
            if kept.first is not None:
                self._numbers += range(kept.first, kept.first + kept.count)
            return Loaded(kept.count, kept.first)

    @contextmanager
    def _taken(
        self, file: PathOrMols, refused: Optional[List[Refused]] = None
    ) -> Iterator[Tuple[Path, Optional[str]]]:
        """A file or molecules as a file of the private folder, and how messages name it."""
        path = self._session.new_path(".sdf")
        try:
            if isinstance(file, (str, bytes, os.PathLike)):
                source, name = Path(os.path.abspath(os.fsdecode(file))), shown(os.fspath(file))
                with open(source, "rb") as raw:
                    is_file = stat.S_ISREG(os.fstat(raw.fileno()).st_mode)
                    if is_file and not raw.peek(6).startswith((GZIP, XZ)) and not name.endswith(SMILES_ENDINGS):
                        path.symlink_to(source)
                    else:
                        _unpack(source if is_file else raw, path, name, refused)
            else:
                mols = _mols(file)
                name = None
                if refused is not None:
                    for number, mol in enumerate(mols, 1):
                        if mol is None:
                            refused.append(Refused(f"molecule {number} of the list is None: RDKit couldn't read it", record=number))
                    mols = [mol for mol in mols if mol is not None]
                for number, mol in enumerate(mols, 1):
                    if mol is not None and not is_mol(mol):
                        raise TypeError(f"item {number} of the list is a {type(mol).__name__}, and no molecule of RDKit")
                rdkit("a list of molecules")
                with open(path, "xb") as out:
                    out.writelines(write_mols(mols))
            yield path, name
        finally:
            path.unlink(missing_ok=True)

    def _written(self, pieces: Sequence[bytes]) -> Path:
        path = self._session.new_path(".sdf")
        with open(path, "xb") as out:
            out.writelines(closed(piece) for piece in pieces)
        return path

    def _sieved(self, pieces: Sequence[RecordText], name: Optional[str]) -> Tuple[List[RecordText], List[Refused]]:
        """The pieces that load, and a refusal for each that doesn't, as another session says."""
        with Session(program=self._program) as session:
            return sieved(session, pieces, name)

    def replace(self, number: int, file: PathOrMols) -> None:
        """Put the one record of a file, or one molecule, in the place of a record.

        Parameters
        ----------
        number : int
            The record's number.
        file : path or RDKit molecule
            What `load` takes, of one record.

        Raises
        ------
        KeyError
            No record has the number.
        Refused
            The file has not just one record, or that is bad; nothing is changed.

        Examples
        --------
        >>> with Library() as lib:
        ...     loaded = lib.load(EXAMPLES / "phenoxy_acids" / "compounds.sdf")
        ...     lib.replace(2, [lib[1].mol])
        ...     print(lib[2].name)
        phenoxyacetic acid
        """
        number = _number(number)
        with self._taken(file) as (path, name):
            self._replaced(number, path, name)

    def _replaced(self, number: int, path: Path, name: Optional[str]) -> None:
        command = f"replace {number} {path.name}"
        with self._session.lock:
            self._refresh()
            self._must_hold(number)
            self._settle()
            self._texts.pop(number, None)
            self._keys.pop(number, None)
            frame = self._session.ask(command)
            if frame.how != "done":
                raise explained(read_refusal(frame.data), command, file=name, records=read_records(path))
            read_word("replaced", frame.data)

    def remove(self, numbers: Union[int, Iterable[int]]) -> None:
        """Drop a record, or several.

        Parameters
        ----------
        numbers : int, range or iterable of int
            The numbers of records, in any order.

        Raises
        ------
        KeyError
            No record has one of the numbers; none is dropped then.

        Examples
        --------
        >>> with Library() as lib:
        ...     loaded = lib.load(EXAMPLES / "phenoxy_acids" / "compounds.sdf")
        ...     lib.remove(range(2, 34))
        ...     print(len(lib), 2 in lib)
        1 False
        """
        is_one = hasattr(numbers, "__index__")
        wanted = [_number(numbers)] if is_one else sorted({_number(each) for each in cast(Iterable[int], numbers)})
        with self._session.lock:
            self._refresh()
            for number in wanted:
                self._must_hold(number)
            for number in wanted:
                self._texts.pop(number, None)
                self._keys.pop(number, None)
                read_word("removed", self._ask(f"remove {number}"))
                at = bisect.bisect_left(self._numbers, number)
                if at < len(self._numbers) and self._numbers[at] == number:
                    del self._numbers[at]

    def update(self, file: PathOrMols, key: Optional[str] = "ID", missing: str = "keep") -> Updated:
        """Bring the library up to a file, by a data item that tells records apart, or by their names.

        Records of the file with a new key are added, those with another text are replaced, bad ones are left out and
        named. What was cut off is done again by the same call, and ends the same.

        Parameters
        ----------
        file : path or sequence of RDKit molecules
            What `load` takes.
        key : str or None
            The name of the data item; None for the records' names.
        missing : {"keep", "remove"}
            What becomes of records that the file doesn't have.

        Raises
        ------
        Refused
            A record has no such item or name, or two have the same, in the file or in the library; nothing is changed.

        Examples
        --------
        >>> with Library() as lib:
        ...     file = EXAMPLES / "phenoxy_acids" / "compounds.sdf"
        ...     first = lib.update(file, key="formula")
        Traceback (most recent call last):
        markush.errors.Refused: ...compounds.sdf: two records have the formula 'C8H6Cl2O3': record 3 '2,4-D' and record 6 ...
        """
        if missing not in ("keep", "remove"):
            raise ValueError(f"missing is 'keep' or 'remove', and not {missing!r}")
        with self._taken(file) as (path, name):
            pieces = list(read_records(path))
        with self._session.lock:
            self._refresh()
            given = _by_key([(piece.number, held_text(piece)) for piece in pieces], key, name or "the list")
            held = _by_key([(number, self._text(number)) for number in self._numbers], key, f"{self.path or 'the library'}")
            texts = {piece.number: piece for piece in pieces}
            fresh = [texts[number] for value, number in given.items() if value not in held]
            other = {
                held[value]: texts[number]
                for value, number in given.items()
                if value in held and held_text(texts[number]) != self._text(held[value])
            }
            bad = {fault.record: fault for fault in self._sieved([*fresh, *other.values()], name)[1]}
            replaced = sorted(number for number, piece in other.items() if piece.number not in bad)
            for number in replaced:
                one = self._written([other[number].raw])
                self._replaced(number, one, name)
                one.unlink()
            added = self._loaded(self._written([piece.raw for piece in fresh if piece.number not in bad]), name).numbers
            lost = sorted(number for value, number in held.items() if value not in given)
            if missing == "remove":
                self.remove(lost)
            same = sorted(number for value, number in held.items() if value in given and number not in other)
            faults = tuple(fault for _, fault in sorted(bad.items(), key=lambda item: item[0] or 0))
            return Updated(tuple(added), tuple(replaced), tuple(same), tuple(lost), faults)

    # ---- records out

    def __len__(self) -> int:
        self._refresh()
        return len(self._numbers)

    def __contains__(self, number: object) -> bool:
        self._refresh()
        return isinstance(number, int) and self._holds(number)

    def __getitem__(self, number: int) -> Record:
        number = _number(number)
        self._refresh()
        self._must_hold(number)
        return Record(number, self._text(number))

    def __iter__(self) -> Iterator[Record]:
        """The records by rising number, as they are when each is come to; what is loaded meanwhile comes too."""
        at = 0
        while True:
            with self._session.lock:
                self._refresh()
                place = bisect.bisect_right(self._numbers, at)
                if place == len(self._numbers):
                    return
                at = self._numbers[place]
                record = Record(at, self._text(at))
            yield record

    @property
    def numbers(self) -> Tuple[int, ...]:
        """The numbers of the records that are held, rising."""
        self._refresh()
        return tuple(self._numbers)

    def _holds(self, number: int) -> bool:
        at = bisect.bisect_left(self._numbers, number)
        return at < len(self._numbers) and self._numbers[at] == number

    def _must_hold(self, number: int) -> None:
        if not self._holds(number):
            raise KeyError(f"no record has the number {number}")

    def _text(self, number: int) -> bytes:
        """The text of a record that is held; a KeyError where it isn't any more."""
        with self._session.lock:
            self._refresh()
            known = self._texts.get(number)
            if known is None:
                frame = self._session.ask(f"show {number}")
                if frame.how != "done":
                    raise KeyError(f"no record has the number {number}")
                known = self._texts[number] = read_shown(frame.data).text
            return known

    def find(self, name: Optional[str] = None, inchikey: Optional[str] = None, **items: str) -> List[Record]:
        """The records with a name, an InChIKey (by RDKit or Open Babel) and data items, all of those that are given.

        Parameters
        ----------
        name : str or None
            The whole first line, without outer blanks.
        inchikey : str or None
            The 27 letters of an InChIKey, or its first 14 alone.
        **items : str
            Values of data items, by their names.

        Raises
        ------
        MarkushError
            An InChIKey is asked for, and there is neither an RDKit that makes it nor Open Babel.

        Examples
        --------
        >>> with Library() as lib:
        ...     loaded = lib.load(EXAMPLES / "phenoxy_acids" / "compounds.sdf")
        ...     print(lib.find(name="MCPA")[0].number, len(lib.find(formula="C9H9ClO3")))
        4 1
        """
        found = []
        for record in self:
            if name is not None and record.name != name:
                continue
            data = record.data if items else {}
            if any(data.get(item) != value for item, value in items.items()):
                continue
            if inchikey is not None and not self._inchikey(record).startswith(inchikey):
                continue
            found.append(record)
        return found

    def _inchikey(self, record: Record) -> str:
        """A record's InChIKey; those of all others that aren't known yet are made with it, in one go."""
        if record.number not in self._keys:
            missing = [other for other in self if other.number not in self._keys]
            keys = to_inchikeys([other.raw for other in missing])
            self._keys.update({other.number: key for other, key in zip(missing, keys)})
        return self._keys[record.number]

    def duplicates(self, by: str = "text") -> List[Tuple[int, ...]]:
        """The numbers of records that are told apart by nothing, a tuple for each lot of two or more.

        Parameters
        ----------
        by : str
            `"text"`, `"inchikey"` (by RDKit or Open Babel), or the name of a data item; records without it are left out.

        Raises
        ------
        MarkushError
            InChIKeys are asked for, and there is neither an RDKit that makes them nor Open Babel.

        Examples
        --------
        >>> with Library() as lib:
        ...     for _ in range(2):
        ...         loaded = lib.load(EXAMPLES / "phenoxy_acids" / "compounds.sdf")
        ...     print(lib.duplicates()[0])
        (1, 34)
        """
        lots: Dict[str, List[int]] = {}
        for record in self:
            if by == "text":
                value: Optional[str] = record.sha256
            elif by == "inchikey":
                value = self._inchikey(record) or None
            else:
                value = record.data.get(by)
            if value is not None:
                lots.setdefault(value, []).append(record.number)
        return [tuple(numbers) for numbers in lots.values() if len(numbers) > 1]

    def snapshot(self, path: Union[str, "os.PathLike[str]"]) -> None:
        """Write the store as it is to a file that stands alone, and that another library may open.

        Parameters
        ----------
        path : path
            The file, which isn't there yet.

        Raises
        ------
        FileExistsError
            It is there.
        StoreBad
            It can't be written.

        Examples
        --------
        >>> import tempfile
        >>> with tempfile.TemporaryDirectory() as folder, Library() as lib:
        ...     loaded = lib.load(EXAMPLES / "phenoxy_acids" / "compounds.sdf")
        ...     lib.snapshot(folder + "/copy.db")
        ...     with Library(folder + "/copy.db") as copy:
        ...         print(len(copy))
        33
        """
        from .errors import StoreBad

        target = Path(os.path.abspath(os.fspath(path)))
        if target.exists():
            raise FileExistsError(f"{shown(target)} is there already; take another name")
        store = self._session.store
        assert store is not None
        with self._session.lock:
            self._settle()
            self._session.let_go()
            made = self._session.new_path(".db")
            try:
                source = sqlite3.connect(store)
                try:
                    source.execute("VACUUM INTO ?", (str(made),))
                finally:
                    source.close()
                with open(made, "rb") as data, open(target, "xb") as out:
                    shutil.copyfileobj(data, out, 1 << 20)
                    out.flush()
                    os.fsync(out.fileno())
            except sqlite3.Error as fault:
                raise StoreBad(f"{shown(target)}: the snapshot couldn't be written: {fault}") from None
            finally:
                made.unlink(missing_ok=True)
            self._session.open()
            # nobody else had it in between, or what is remembered isn't true any more
            self._refresh()

    # ---- searches

    def search(
        self,
        claim: Claim,
        per: str = "choice",
        limit: Optional[int] = None,
        timeout: Optional[float] = None,
        *,
        progress: bool = False,
    ) -> "Hits":
        """The hits of a claim in the records that are held, as an iterator.

        Parameters
        ----------
        claim : Claim
            What is searched for.
        per : {"choice", "record", "map"}
            One hit a record and choice, one a record, or one for each way in which the claim lies.
        limit : int or None
            How many are given at most, counted as `per` says.
        timeout : float or None
            How many seconds are waited for hits in all; then `SearchTimeout` comes, whose `hits` go on.
        progress : bool
            Whether a bar shows how far it is, by tqdm.

        Raises
        ------
        ValueError
            `per` or `limit` is none of these.
        Refused
            The program refuses the claim; from the iterator.
        SearchTimeout
            The seconds are over; from the iterator.

        Examples
        --------
        >>> claim = Claim.read(EXAMPLES / "phenoxy_acids" / "claim.rgf")
        >>> with Library() as lib:
        ...     loaded = lib.load(EXAMPLES / "phenoxy_acids" / "compounds.sdf")
        ...     print([hit.record for hit in lib.search(claim, per="record")])
        [1, 2, 3, 4, 5, 6, 7, 8]
        """
        from .hits import Hits

        return Hits(self, claim, per=per, limit=limit, timeout=timeout, progress=progress)

    def saved(self, name: str) -> "SavedSearch":
        """A search that was saved by `Hits.save`.

        Parameters
        ----------
        name : str
            What it is called.

        Raises
        ------
        KeyError
            None has the name.

        Examples
        --------
        >>> claim = Claim.read(EXAMPLES / "phenoxy_acids" / "claim.rgf")
        >>> with Library() as lib:
        ...     loaded = lib.load(EXAMPLES / "phenoxy_acids" / "compounds.sdf")
        ...     hits = lib.search(claim)
        ...     found = list(hits)
        ...     hits.save("acids")
        ...     lib.remove(1)
        ...     print([lost.record for lost in lib.saved("acids").again().lost])
        [1]
        """
        for saved in self._saved_files():
            if saved.name == name:
                return saved
        raise KeyError(f"no saved search has the name {name!r}")

    def saved_searches(self) -> Tuple[str, ...]:
        """The names of the searches that were saved, in the order of their letters.

        Examples
        --------
        >>> with Library() as lib:
        ...     lib.saved_searches()
        ()
        """
        return tuple(sorted(saved.name for saved in self._saved_files()))

    def _searches_folder(self) -> Path:
        store = self._session.store
        assert store is not None
        return Path(f"{os.fspath(store)}-searches")

    def _saved_files(self) -> "List[SavedSearch]":
        from .hits import SavedSearch

        folder = self._searches_folder()
        names = sorted(folder.glob("*.json")) if folder.is_dir() else []
        return [SavedSearch(self, path) for path in names]

    def table(self, claim: Claim, timeout: Optional[float] = None) -> Any:
        """The R-group table of a claim over the records that are held, as a DataFrame of pandas.

        Parameters
        ----------
        claim : Claim
            Whose sites are the columns.
        timeout : float or None
            In seconds; a `SearchTimeout` without hits comes where the table isn't made by then.

        Returns
        -------
        DataFrame
            A row for each record with a hit: `record`, `name`, its data items, and a column for each site of the root
            with the member's name or SMILES, or None where the site isn't filled.

        Raises
        ------
        Refused
            The program refuses the claim.
        SearchTimeout
            The seconds are over.
        MarkushError
            There is no pandas.

        Examples
        --------
        >>> claim = Claim.read(EXAMPLES / "phenoxy_acids" / "claim.rgf")
        >>> with Library() as lib:
        ...     loaded = lib.load(EXAMPLES / "phenoxy_acids" / "compounds.sdf")
        ...     print(list(lib.table(claim).columns))
        ['record', 'name', 'formula', 'R1@12', 'R1@13', 'R2']
        """
        from .frames import table_frame

        return table_frame(self, claim, timeout)

    def why_not(self, claim: Claim, record: int, timeout: float = 2.0) -> Any:
        """Which single demand of a claim keeps a record from being a hit (`markush.reasons`).

        Parameters
        ----------
        claim : Claim
            The claim that the record doesn't fall under, or may not.
        record : int
            The number of a record that is held.
        timeout : float
            In seconds, for all of it.

        Raises
        ------
        KeyError
            No record has the number.

        Examples
        --------
        >>> claim = Claim.read(EXAMPLES / "phenoxy_acids" / "claim.rgf")
        >>> with Library() as lib:
        ...     loaded = lib.load(EXAMPLES / "phenoxy_acids" / "compounds.sdf")
        ...     print(lib.why_not(claim, 1, timeout=60))
        it is a hit
        """
        from .reasons import why_not

        return why_not(claim, self[record], timeout=timeout, program=self._program, clock=self._clock)


def _by_key(texts: Iterable[Tuple[int, bytes]], key: Optional[str], where: str) -> Dict[str, int]:
    """The numbers of records by a data item, or by their names, which each has to have, and no two the same."""
    found: Dict[str, int] = {}
    names: Dict[int, str] = {}
    for number, text in texts:
        names[number] = name_of(text)
        value = names[number] if key is None else items_of(decode(text).split("\n")).get(key)
        if value is None or not value.strip():
            said = "has no name" if key is None else f"'{names[number]}' has no data item {key}"
            raise Refused(f"{where}: record {number} {said}", record=number, name=names[number])
        value = value.strip()
        if value in found:
            raise Refused(
                f"{where}: two records have the {key or 'name'} {value!r}: record {found[value]} '{names[found[value]]}' and record "
                f"{number} '{names[number]}'; keep one of them",
                record=number,
                name=names[number],
            )
        found[value] = number
    return found


def sieved(
    session: Session, pieces: Sequence[RecordText], name: Optional[str]
) -> Tuple[List[RecordText], List[Refused]]:
    """The records that a session loads, and a refusal for each that it doesn't, in their order.

    The session is one over a library in memory, which holds the good ones behind it, in their order; it is emptied where
    they have more than 50,000,000 bytes.
    """
    good: List[RecordText] = []
    refused: List[Refused] = []
    filled = 0
    for chunk in _chunks(pieces):
        todo = [chunk]
        while todo:
            part = todo.pop()
            path = session.new_path(".sdf")
            data = b"".join(closed(piece.raw) for piece in part)
            path.write_bytes(data)
            try:
                filled += len(data)
                if filled > _SIEVE_BYTES:
                    session.let_go()
                    filled = len(data)
                command = f"load {path.name}"
                frame = session.ask(command)
            finally:
                path.unlink()
            if frame.how == "done":
                good += part
                continue
            refusal = read_refusal(frame.data)
            if len(part) == 1:
                fault = record_fault(refusal, part[0], name)
                fault.command = command
                refused.append(fault)
                continue
            at = _place_of_bad(refusal.record, refusal.line, part)
            todo += [some for some in (part[at + 1 :], part[at : at + 1], part[:at]) if some]
    return good, refused


def closed(data: bytes) -> bytes:
    """A piece with its separator, also where the last of a file lacks it."""
    last = data.rstrip(b"\r\n").rpartition(b"\n")[2]
    if last.startswith(b"$$$$"):
        return data if data.endswith(b"\n") else data + b"\n"
    return data + (b"" if data.endswith(b"\n") else b"\n") + b"$$$$\n"


def _chunks(pieces: Sequence[RecordText]) -> Iterator[List[RecordText]]:
    chunk: List[RecordText] = []
    size = 0
    for piece in pieces:
        if chunk and (len(chunk) == _CHUNK or size + len(piece.raw) > _CHUNK_BYTES):
            yield chunk
            chunk, size = [], 0
        chunk.append(piece)
        size += len(piece.raw)
    if chunk:
        yield chunk


def _place_of_bad(record: Optional[int], line: Optional[int], pieces: Sequence[RecordText]) -> int:
    """The place of the piece that a refusal is about."""
    if record is not None:
        return min(record, len(pieces)) - 1
    if line is None:
        return len(pieces) // 2
    ends = 0
    for place, piece in enumerate(pieces):
        ends += closed(piece.raw).count(b"\n")
        if ends >= line:
            return place
    return len(pieces) - 1

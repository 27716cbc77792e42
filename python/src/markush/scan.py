"""Files of any size, searched block by block without a store."""
from __future__ import annotations

import concurrent.futures
import os
import uuid
from array import array
from collections import deque
from dataclasses import dataclass
from itertools import accumulate
from typing import Any, BinaryIO, Deque, Generator, Iterable, Iterator, List, Optional, Sequence, Set, Tuple, Union, cast

from .answers import RawHit, read_page, read_refusal
from .claim import Claim, keep_query
from .errors import MarkushError, Refused
from .hits import Hit
from .library import held_text, shown, sieved
from .records import RecordText, read_records
from .refusals import explained
from .session import Session

__all__ = ["scan", "Scan", "Found", "search_block"]

_RECORDS, _BYTES = 2_000, 8_000_000
_PAGE = 10_000

Source = Union[str, "os.PathLike[str]", BinaryIO]


@dataclass(frozen=True)
class Found:
    """What a block has: its hits, each with the place of its record in the block, from 0, and a refusal for each bad record.

    Examples
    --------
    >>> Found((), ()).hits
    ()
    """

    hits: Tuple[Tuple[int, Tuple[int, ...], Tuple[int, ...]], ...]
    refused: Tuple[Refused, ...]


class Records(Sequence[RecordText]):
    """The records of a block. They are pickled as one piece of bytes, so that a block goes to another process at little cost.

    Parameters
    ----------
    records : iterable of RecordText
        Records that are none (`fault`) aren't among them.

    Examples
    --------
    >>> import pickle
    >>> records = Records(read_records(EXAMPLES / "phenoxy_acids" / "compounds.sdf"))
    >>> len(records), pickle.loads(pickle.dumps(records))[2] == records[2]
    (33, True)
    """

    def __init__(self, records: Iterable[RecordText]) -> None:
        self._held = tuple(records)

    def __len__(self) -> int:
        return len(self._held)

    def __getitem__(self, at: Any) -> Any:
        return self._held[at]

    def __reduce__(self) -> Tuple[Any, ...]:
        held = self._held
        numbers = array("Q", (each for record in held for each in (record.number, len(record.raw), record.line)))
        return _records, (b"".join(record.raw for record in held), numbers.tobytes())

    def __dask_tokenize__(self) -> str:
        # a block is looked at once, so its name needn't tell what is in it
        return uuid.uuid4().hex


def _records(raw: bytes, packed: bytes) -> Records:
    numbers = array("Q", packed)
    ends = list(accumulate(numbers[1::3], initial=0))
    places = zip(numbers[::3], ends, ends[1:], numbers[2::3])
    return Records(RecordText(number, raw[start:end], line) for number, start, end, line in places)


def search_block(
    records: Sequence[RecordText],
    claim: Claim,
    name: Optional[str],
    per: str,
    program: Optional[str],
    live: "Optional[Set[Session]]" = None,
) -> Found:
    """Search the records of a block in a session of their own. It is what `scan` submits, and can be pickled.

    Parameters
    ----------
    records : sequence of RecordText
    claim : Claim
    name : str or None
        The name of their file, for messages.
    per : {"choice", "record", "map"}
    program : str or None
        The session program.
    live : set of Session or None
        Where the session stands while it lives, for who ends it from another thread.

    Examples
    --------
    >>> records = list(read_records(EXAMPLES / "phenoxy_acids" / "compounds.sdf"))
    >>> found = search_block(records, Claim.read(EXAMPLES / "phenoxy_acids" / "claim.rgf"), None, "record", None)
    >>> [place for place, choice, atoms in found.hits]
    [0, 1, 2, 3, 4, 5, 6, 7]
    """
    with Session(program=program) as session:
        if live is not None:
            live.add(session)
        try:
            places = {record.number: place for place, record in enumerate(records)}
            good, refused = sieved(session, records, name)
            hits: List[Tuple[int, Tuple[int, ...], Tuple[int, ...]]] = []
            last: object = None
            for raw in _hits(session, claim) if good else ():
                mark = {"record": raw.record, "choice": (raw.record, raw.choice), "map": raw}[per]
                if mark != last:
                    hits.append((places[good[raw.record - 1].number], raw.choice, raw.map))
                last = mark
            return Found(tuple(hits), tuple(refused))
        finally:
            if live is not None:
                live.discard(session)


def _hits(session: Session, claim: Claim) -> Iterator[RawHit]:
    """All hits of a claim in a session; a page that fills is gone on with."""
    keep_query(session, "claim", claim)
    command = f"search claim {_PAGE}"
    while True:
        frame = session.ask(command)
        if frame.how != "done":
            raise explained(read_refusal(frame.data), command)
        page = read_page(frame.data)
        yield from page.hits
        if page.cursor is None:
            return
        command = f"resume {page.cursor} {_PAGE}"


@dataclass(frozen=True)
class _Block:
    base: int  # how many records the files before its own have
    name: Optional[str]
    records: Records
    count: int  # with those that aren't records
    future: "concurrent.futures.Future[Found]"


class Scan(Iterator[Hit]):
    """The hits of a claim in files, in the order of the files; made by `scan`, and closed by `with`.

    Attributes
    ----------
    records : int
        How many records were gone through so far, refused ones among them.
    hits : int
        How many hits were given so far.
    refused : list of Refused
        A refusal for each record that was passed over so far.

    Examples
    --------
    >>> claim = Claim.read(EXAMPLES / "phenoxy_acids" / "claim.rgf")
    >>> with scan(EXAMPLES / "phenoxy_acids" / "compounds.sdf", claim) as hits:
    ...     first = next(hits)
    ...     print(first.record, first.name)
    1 phenoxyacetic acid
    """

    def __init__(
        self,
        files: Sequence[Source],
        claim: Claim,
        executor: Any,
        window: Optional[int],
        bad: str,
        per: str,
        program: Optional[str],
        progress: bool,
    ) -> None:
        self.claim = claim
        self.records = 0
        self.hits = 0
        self.refused: List[Refused] = []
        self._bad, self._per, self._program = bad, per, program
        self._files = list(files)
        self._live: Set[Session] = set()
        self._own = concurrent.futures.ThreadPoolExecutor(os.cpu_count()) if executor is None else None
        self._executor = self._own if executor is None else executor
        workers = getattr(self._executor, "_max_workers", None) or os.cpu_count() or 1
        self._window = 2 * workers if window is None else window
        self._under_way: Deque[_Block] = deque()
        self._ready: Deque[Hit] = deque()
        self._source = self._blocks()
        self._read = 0
        self._submitted = 0
        self._closed = False
        self._unread: Optional[Exception] = None  # why the files can't be read on
        self._is_cut = False  # an interrupt came while they were read
        self._bar = _bar(self._files) if progress else None

    def __iter__(self) -> "Scan":
        return self

    def __enter__(self) -> "Scan":
        return self

    def __exit__(self, *_: object) -> None:
        self.close()

    @property
    def bytes_read(self) -> int:
        """How many bytes of the files were read, packed ones as they are packed."""
        return self._read

    def close(self) -> None:
        """End the scan: blocks that wait are dropped, those under way are ended."""
        if self._closed:
            return
        self._closed = True
        self._source.close()
        for block in self._under_way:
            block.future.cancel()
        self._under_way.clear()
        self._ready.clear()
        for session in list(self._live):
            session.end(for_good=True)
        if self._own is not None:
            self._own.shutdown(wait=True)
        if self._bar is not None:
            self._bar.close()

    def __next__(self) -> Hit:
        while not self._ready:
            if self._is_cut:
                raise MarkushError("this scan was interrupted while it read its files, so it can't go on; begin another one")
            if self._closed:
                raise StopIteration
            self._submit()
            if not self._under_way:
                self.close()
                if self._unread is not None:
                    raise self._unread
                raise StopIteration
            self._take(self._under_way[0])
        self.hits += 1
        return self._ready.popleft()

    def _submit(self) -> None:
        """Have as many blocks under way as the window takes. Why a file can't be read on is told behind the hits before it."""
        while len(self._under_way) < self._window and self._unread is None:
            try:
                block = next(self._source, None)
            except Exception as fault:
                self._unread = fault
                return
            except BaseException:
                self._is_cut = True
                self.close()
                raise
            if block is None:
                return
            self._under_way.append(block)

    def _take(self, block: _Block) -> None:
        """Wait for the first block under way."""
        try:
            found = block.future.result()
        except Exception as fault:
            self.close()
            if isinstance(fault, MarkushError):
                raise
            where = f"{block.name}: " if block.name else ""
            numbers = f"{block.records[0].number} to {block.records[-1].number}"
            raise MarkushError(f"{where}the block of the records {numbers} failed: {fault or type(fault).__name__}") from fault
        self._under_way.popleft()
        if found.refused and self._bad == "refuse":
            self.close()
            raise found.refused[0]
        self.records += block.count
        self.refused += found.refused
        for place, choice, atoms in found.hits:
            record = block.records[place]
            self._ready.append(Hit(block.base + record.number, choice, atoms, self.claim, held_text(record)))
        if self._bar is not None:
            self._bar.update(self._read - self._bar.n)

    def _blocks(self) -> Generator[_Block, None, None]:
        """The blocks of all files, each submitted as it is come to."""
        base = 0  # how many records the files before have
        for source in self._files:
            name = getattr(source, "name", None) if hasattr(source, "read") else shown(source)
            file = source if hasattr(source, "read") else open(source, "rb", buffering=0)
            before, number = self._read, 0
            held: List[RecordText] = []
            size = 0
            for record in read_records(file):
                number = record.number
                if record.fault is not None:
                    self._pass_over(record, name)
                held.append(record)
                size += len(record.raw)
                if len(held) == _RECORDS or size >= _BYTES:
                    self._read = before + _place(file)
                    yield self._block(base, name, held)
                    held, size = [], 0
            if held:
                yield self._block(base, name, held)
            if not hasattr(source, "read"):
                self._read = before + os.path.getsize(source)
            base += number

    def _pass_over(self, record: RecordText, name: Optional[str]) -> None:
        where = f"{name}: " if name else ""
        fault = Refused(f"{where}{record.fault}; line {record.line}", file=name, line=record.line, record=record.number)
        if self._bad == "refuse":
            raise fault
        self.refused.append(fault)

    def _block(self, base: int, name: Optional[str], records: Sequence[RecordText]) -> _Block:
        whole = Records(record for record in records if record.fault is None)
        words: List[Any] = [whole, self.claim, name, self._per, self._program]
        if self._own is not None:
            words.append(self._live)
        try:
            future = self._executor.submit(search_block, *words)
        except Exception as fault:  # as of a pool one of whose workers was killed: the block's own, so that order holds
            future = concurrent.futures.Future()
            future.set_exception(fault)
        return _Block(base, name, whole, len(records), future)


def _place(file: Any) -> int:
    """How many bytes of a file were read; 0 of a stream that doesn't say."""
    try:
        return int(file.tell())
    except OSError:
        return 0


def _bar(files: Sequence[Source]) -> Any:
    try:
        from tqdm import tqdm
    except ImportError:
        raise MarkushError("a progress bar takes tqdm: install python3-tqdm, or leave `progress` out") from None
    sizes = [os.path.getsize(file) for file in files if not hasattr(file, "read")]
    return tqdm(total=sum(sizes), unit="B", unit_scale=True)


def scan(
    files: Union[Source, Iterable[Source]],
    claim: Claim,
    executor: Any = None,
    window: Optional[int] = None,
    bad: str = "skip",
    *,
    per: str = "choice",
    program: Union[str, "os.PathLike[str]", None] = None,
    progress: bool = False,
) -> Scan:
    """Search files of any size for a claim, block by block, with no store; the hits come in the order of the files.

    Parameters
    ----------
    files : path, stream or iterable of them
        SDfiles, packed as `.gz` or `.xz` or not. Records count over all of them, from 1.
    claim : Claim
        What is searched for.
    executor : Executor or None
        What has `submit`, as those of `concurrent.futures` and dask's `Client.get_executor()`; else a pool of threads of this
        scan's own, one a processor.
    window : int or None
        How many blocks are under way at most; twice the executor's workers, or twice this machine's processors where an
        executor doesn't say how many it has, as dask's.
    bad : {"skip", "refuse"}
        Whether bad records are passed over, and named in `refused`, or the first ends the scan.
    per : {"choice", "record", "map"}
        As for `Library.search`.
    program : path or None
        The session program; else it is looked for.
    progress : bool
        Whether a bar shows the bytes that were read, by tqdm.

    Raises
    ------
    Refused
        The claim is refused, or, with `bad="refuse"`, a record.
    OSError
        A file can't be read, which is told behind the hits before it.
    MarkushError
        A block failed; the message says which. The scan is over then.

    Examples
    --------
    >>> claim = Claim.read(EXAMPLES / "phenoxy_acids" / "claim.rgf")
    >>> with scan(EXAMPLES / "vendor" / "vendor.sdf", claim) as hits:
    ...     found = [hit.name for hit in hits]
    ...     print(hits.records, hits.hits, [fault.record for fault in hits.refused])
    9 ... [4, 6, 7, 8]
    """
    if bad not in ("skip", "refuse"):
        raise ValueError(f"bad is 'skip' or 'refuse', and not {bad!r}")
    if per not in ("choice", "record", "map"):
        raise ValueError(f"per is 'choice', 'record' or 'map', and not {per!r}")
    if executor is not None and not hasattr(executor, "submit"):
        raise TypeError(f"an executor has submit, as those of concurrent.futures, and a {type(executor).__name__} hasn't")
    if window is not None and window < 1:
        raise ValueError(f"window is 1 or more, and not {window}")
    if isinstance(files, (str, os.PathLike)) or hasattr(files, "read"):
        sources = [cast(Source, files)]
    else:
        sources = list(files)
    path = None if program is None else os.fspath(program)
    with Session(program=program) as session:
        keep_query(session, "claim", claim)  # so that a claim that is refused is so before anything is read
    return Scan(sources, claim, executor, window, bad, per, path, progress)

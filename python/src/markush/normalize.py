"""Records drawn as claims draw them: Kekulé forms, charged nitro groups, no dative bonds, and where asked no salts, ions or odd tautomers.

RDKit works in a process of its own, with limits of processor time and of memory for each record. Nothing is changed without being listed,
and what RDKit can't read is handed on as it is, and named.
"""
from __future__ import annotations

import json
import re
import signal
import subprocess
import sys
from collections.abc import Iterable, Iterator, Sequence
from dataclasses import dataclass
from pathlib import Path
from typing import IO

from .errors import MarkushError, Refused
from .molecules import rdkit
from .records import PathLike, RecordText, create, read_records

__all__ = ["Normalized", "Summary", "normalize", "normalize_file"]

TAUTOMERS = (None, "canonical", "all")
END = re.compile(rb"^M  END[^\n]*(?:\n|\Z)", re.M)


@dataclass(frozen=True)
class Normalized:
    """One record as it is handed on.

    `parent` is the number of the record that it comes from, from 1, and `raw` its bytes with the separator. `changes` says in words what
    was changed, nothing where the bytes are those of the file; `fault` says why RDKit couldn't read it, None where it could. Of several
    forms of one record the first bears the changes.
    """

    parent: int
    name: str
    raw: bytes
    changes: tuple[str, ...] = ()
    fault: str | None = None


@dataclass(frozen=True)
class Summary:
    """How many records were read and written, how many were changed, and which couldn't be read, with why."""

    read: int
    written: int
    changed: int
    unread: tuple[tuple[int, str, str], ...]


def normalize(
    records: Iterable[RecordText], *, largest: bool = False, neutral: bool = False, tautomer: str | None = None, seconds: float = 20,
    megabytes: int = 4096, command: Sequence[str] | None = None,
) -> Iterator[Normalized]:
    """Records as claims draw them, in order.

    Parameters
    ----------
    records : as `read_records` gives them.
    largest : whether of a salt its largest part alone is kept.
    neutral : whether acids that are drawn as anions get their hydrogen.
    tautomer : `canonical` for one form of each compound, `all` for a record for each form, with its parent's number as the data item PARENT.
    seconds : the processor time that RDKit has for a record.
    megabytes : the memory that RDKit's process has; 0 for no limit.
    command : what is run in the place of RDKit's process, which answers as that does.

    Raises
    ------
    Refused : `tautomer` is another word.
    MarkushError : there is no RDKit, or its process doesn't start.
    """
    if tautomer not in TAUTOMERS:
        raise Refused(f"the tautomers are canonical or all, and not {tautomer!r}")
    rules: dict[str, object] = {"largest": largest, "neutral": neutral, "tautomer": tautomer}
    worker = _Worker(command, seconds, megabytes)
    try:
        for record in records:
            yield from _normalized(record, rules, worker, tautomer == "all")
    finally:
        worker.close()


def _normalized(record: RecordText, rules: dict[str, object], worker: _Worker, is_all: bool) -> Iterator[Normalized]:
    if record.fault is not None:
        yield Normalized(record.number, record.name, record.raw, (), record.fault)
        return
    found = END.search(record.raw)
    if found is None:
        yield Normalized(record.number, record.name, record.raw, (), "the record has no `M  END`")
        return
    block = "".join(line + "\n" for line in _lines(record.raw[: found.end()]))
    answer = worker.ask({"block": block, "rules": rules})
    fault = answer.get("fault")
    blocks, changes = answer.get("blocks"), answer.get("changes")
    if isinstance(fault, str) or not isinstance(blocks, list) or not isinstance(changes, list):
        yield Normalized(record.number, record.name, record.raw, (), fault if isinstance(fault, str) else "RDKit's process gave no answer")
        return
    behind = record.raw[found.end() :]
    told = tuple(map(str, changes))
    if not blocks:
        yield Normalized(record.number, record.name, _with_parent(record.raw[: found.end()], behind, record.number if is_all else 0))
    for at, made in enumerate(blocks):
        front = _with_header(record.raw, str(made))
        yield Normalized(record.number, record.name, _with_parent(front, behind, record.number if is_all else 0), told if at == 0 else ())


def _with_header(raw: bytes, made: str) -> bytes:
    """A molfile with the three lines before the table as a record has them, and the record's ends of lines."""
    header = raw.split(b"\n", 3)[:3]
    end = b"\r\n" if header[0].endswith(b"\r") else b"\n"
    return b"\n".join(header) + b"\n" + made.split("\n", 3)[3].encode().replace(b"\n", end)


def _lines(raw: bytes) -> list[str]:
    try:
        text = raw.decode("utf-8")
    except UnicodeDecodeError:
        text = raw.decode("latin-1")
    return [line.rstrip("\r") for line in text.split("\n")][:-1] if text.endswith("\n") else [line.rstrip("\r") for line in text.split("\n")]


def _with_parent(front: bytes, behind: bytes, parent: int) -> bytes:
    """A record of a molfile and the data lines behind it, with the parent's number as a further item where there is one."""
    item = f"> <PARENT>\n{parent}\n\n".encode() if parent else b""
    if not front.endswith(b"\n"):
        front += b"\n"
    return front + item + (behind if behind.strip() else b"$$$$\n")


class _Worker:
    """RDKit's process, started when it is first asked, and again where it ended."""

    def __init__(self, command: Sequence[str] | None, seconds: float, megabytes: int) -> None:
        if command is None:
            rdkit("normalize")
            command = [sys.executable, str(Path(__file__).with_name("normalizing.py")), str(seconds), str(megabytes)]
        self.command, self.seconds, self.megabytes = list(command), seconds, megabytes
        self.process: subprocess.Popen[str] | None = None

    def ask(self, question: dict[str, object]) -> dict[str, object]:
        """The answer, or a fault where the process ended over this record."""
        if self.process is None:
            self.process = subprocess.Popen(self.command, stdin=subprocess.PIPE, stdout=subprocess.PIPE, text=True, encoding="utf-8")
        stdin, stdout = _pipes(self.process)
        try:
            stdin.write(json.dumps(question) + "\n")
            stdin.flush()
        except BrokenPipeError:
            pass  # the process has ended; what it wrote before that is read all the same
        line = stdout.readline()
        if line.endswith("\n"):
            try:
                answer = json.loads(line)
            except ValueError:
                answer = None
            if isinstance(answer, dict):
                return answer
            self.close()
            raise MarkushError(f"the process {' '.join(self.command)} wrote {line[:80]!r}, which is no answer")
        status = self.close()
        if status == -signal.SIGPROF:
            return {"fault": f"RDKit took more than {self.seconds:g} seconds"}
        if status == 2:
            raise MarkushError(f"the process {' '.join(self.command)} doesn't start; its words stand on standard error")
        return {"fault": f"RDKit's process ended with the status {status}, perhaps for want of its {self.megabytes} megabytes"}

    def close(self) -> int:
        """Ends the process, and gives its status."""
        if self.process is None:
            return 0
        process, self.process = self.process, None
        stdin, stdout = _pipes(process)
        try:
            stdin.close()
        except BrokenPipeError:
            pass
        stdout.close()
        return process.wait()


def _pipes(process: subprocess.Popen[str]) -> tuple[IO[str], IO[str]]:
    assert process.stdin is not None and process.stdout is not None
    return process.stdin, process.stdout


def normalize_file(
    path: PathLike, out: PathLike, *, largest: bool = False, neutral: bool = False, tautomer: str | None = None, seconds: float = 20,
    megabytes: int = 4096,
) -> tuple[Summary, list[Normalized]]:
    """`normalize` of a file into another one, which is packed where its name ends with `.gz` or `.xz`.

    Gives a summary, and the records that were changed or couldn't be read.

    Raises
    ------
    Refused, MarkushError : as `normalize`.
    OSError : a file can't be read or written.
    """
    told: list[Normalized] = []
    parents: set[int] = set()
    written = 0
    with create(out) as file:
        for made in normalize(
            read_records(path), largest=largest, neutral=neutral, tautomer=tautomer, seconds=seconds, megabytes=megabytes
        ):
            file.write(made.raw)
            written += 1
            parents.add(made.parent)
            if made.changes or made.fault:
                told.append(made)
    unread = tuple((it.parent, it.name, it.fault) for it in told if it.fault)
    return Summary(len(parents), written, sum(bool(it.changes) for it in told), unread), told

"""What goes wrong, as a family of errors. Each message says what is wrong, where, and how to mend it.

`MarkushError` is above all of them. Each can be pickled, and so comes back whole from another process.
A record that isn't held is a `KeyError`, as in a dict, and no error of this family.
"""
from __future__ import annotations

from typing import Any, Optional, Tuple

__all__ = [
    "MarkushError",
    "Refused",
    "StoreBusy",
    "StoreBad",
    "OutOfMemory",
    "ProgramEnded",
    "SearchTimeout",
    "StoreReopened",
]


class MarkushError(Exception):
    """Whatever goes wrong in this package.

    Examples
    --------
    >>> issubclass(Refused, MarkushError) and issubclass(StoreBusy, MarkushError)
    True
    """


class Refused(MarkushError, ValueError):
    """The program, or the package before it, refused a file, a claim or a command; nothing was changed.

    Parameters
    ----------
    message : str
        What is wrong, where, and how to mend it.
    code : int
        The number behind `refused` in the program's answer, 1 to 11; 0 where the package itself refused.
    answer : str
        The program's answer as it stands, or nothing.
    command : str
        The command that was refused.
    file : str or None
        The file's name, as the caller gave it.
    line, record, atom : int or None
        Where in the file: its line, its record and the atom of that record, each counted from 1.
    name : str
        The name of the record, its first line.
    why : str
        Of a record that is refused what is wrong with it, without the place; else the message.

    Examples
    --------
    >>> fault = Refused("record 3 isn't read", code=2, record=3)
    >>> fault.code, fault.record, fault.line, isinstance(fault, ValueError)
    (2, 3, None, True)
    """

    def __init__(
        self,
        message: str,
        *,
        code: int = 0,
        answer: str = "",
        command: str = "",
        file: Optional[str] = None,
        line: Optional[int] = None,
        record: Optional[int] = None,
        atom: Optional[int] = None,
        name: str = "",
        why: str = "",
    ) -> None:
        super().__init__(message)
        self.message = message
        self.why = why or message
        self.code = code
        self.answer = answer
        self.command = command
        self.file = file
        self.line = line
        self.record = record
        self.atom = atom
        self.name = name

    def __reduce__(self) -> Tuple[Any, ...]:
        return _refused, (self.message, {name: value for name, value in vars(self).items() if name != "message"})


def _refused(message: str, fields: Any) -> Refused:
    return Refused(message, **fields)


class StoreBusy(MarkushError):
    """Another run has the store; a store has one run at a time.

    Examples
    --------
    >>> str(StoreBusy("x.db: another run has this store; close it first"))
    'x.db: another run has this store; close it first'
    """


class StoreBad(MarkushError):
    """The store can't be opened, read or written, or holds a row that no run would write.

    Parameters
    ----------
    message : str
        What is wrong with the file, and how to mend it.
    kind : str or None
        Of a bad row: `record`, `query` or `cursor`.
    number : int or None
        Of a bad row: its number.

    Examples
    --------
    >>> StoreBad("x.db: record 7 is bad", kind="record", number=7).number
    7
    """

    def __init__(self, message: str, *, kind: Optional[str] = None, number: Optional[int] = None) -> None:
        super().__init__(message)
        self.kind = kind
        self.number = number

    def __reduce__(self) -> Tuple[Any, ...]:
        return _store_bad, (str(self), self.kind, self.number)


def _store_bad(message: str, kind: Optional[str], number: Optional[int]) -> StoreBad:
    return StoreBad(message, kind=kind, number=number)


class OutOfMemory(MarkushError):
    """Memory ran out in the program; what the command would have changed isn't changed.

    Examples
    --------
    >>> isinstance(OutOfMemory("memory ran out"), MarkushError)
    True
    """


class ProgramEnded(MarkushError):
    """The program ended where it should have gone on.

    Parameters
    ----------
    message : str
        At which command it ended, and what it left on standard error.
    status : int
        Its exit status; below zero the number of the signal that ended it, as `subprocess` counts.

    Examples
    --------
    >>> ProgramEnded("the program ended with the status 4", 4).status
    4
    """

    def __init__(self, message: str, status: int) -> None:
        super().__init__(message)
        self.status = status

    def __reduce__(self) -> Tuple[Any, ...]:
        return ProgramEnded, (str(self), self.status)


class SearchTimeout(MarkushError, TimeoutError):
    """A search had no more hit to give within its seconds; nothing is lost.

    Parameters
    ----------
    message : str
        How many seconds there were.
    hits : Hits or None
        The search itself, which goes on where it stopped when it is iterated again. It belongs to its process: an
        error that was pickled and read again has None.

    Examples
    --------
    >>> SearchTimeout("no hit within 2 s", None).hits is None
    True
    """

    def __init__(self, message: str, hits: Any = None) -> None:
        super().__init__(message)
        self.hits = hits

    def __reduce__(self) -> Tuple[Any, ...]:
        return SearchTimeout, (str(self), None)


class StoreReopened(UserWarning):
    """A warning: a command was cut off, so the program was ended, and the store is opened again.

    Examples
    --------
    >>> issubclass(StoreReopened, Warning)
    True
    """

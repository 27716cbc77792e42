"""A session over the program of the command line: the frames of `markush-session`, by one run of `markush` for each line.

It serves where the session program isn't built. Each command opens the store anew, so that a command costs what opening
the store costs; else nothing differs that the package sees. What a command does, and whether it is kept, is the program's
alone. It is run as a program: `python3 scripted.py PROGRAM [--store FILE]`.

Between two commands the store is free for other runs of `markush`. A second session over one store is kept out by a lock
beside the system's temporary files, which goes with the session.
"""
from __future__ import annotations

import contextlib
import fcntl
import hashlib
import os
import stat
import subprocess
import sys
import tempfile
from typing import BinaryIO, Dict, List, Optional, Tuple

__all__ = ["main"]

_LINE = 65536  # bytes of a line at most
_HOW: Dict[int, str] = {0: "done", 1: "refused", 3: "unread"}
_TOO_LONG = b"refused 1 command\n"


class _Ends(Exception):
    """The session ends with this status, after these bytes."""

    def __init__(self, status: int, said: bytes = b"") -> None:
        super().__init__(status)
        self.status = status
        self.said = said


def _run(program: str, store: str, line: bytes) -> Tuple[int, bytes]:
    ran = subprocess.run([program, "--store", store], input=line, stdout=subprocess.PIPE, check=False)
    return ran.returncode, ran.stdout


def _lock(store: str) -> Optional[Tuple[int, str]]:
    """A lock on the store's name, and the file of it; None where another session has it."""
    folder = os.path.join(tempfile.gettempdir(), f"markush-{os.getuid()}")
    path = os.path.join(folder, hashlib.sha256(os.fsencode(os.path.realpath(store))).hexdigest())
    while True:
        try:
            os.mkdir(folder, 0o700)
        except FileExistsError:
            pass
        try:
            about = os.lstat(folder)
            if about.st_uid != os.getuid() or not stat.S_ISDIR(about.st_mode):
                raise _Ends(5)
            lock = os.open(path, os.O_RDWR | os.O_CREAT | os.O_CLOEXEC | os.O_NOFOLLOW, 0o600)
        except FileNotFoundError:
            continue  # a session that ended took the folder away in between
        try:
            fcntl.flock(lock, fcntl.LOCK_EX | fcntl.LOCK_NB)
            if os.path.samestat(os.fstat(lock), os.stat(path)):
                return lock, path
        except FileNotFoundError:
            pass  # the one that had it took the file away
        except OSError:
            os.close(lock)
            return None
        os.close(lock)


def _unlock(lock: int, path: str) -> None:
    """Let the lock go, and leave neither its file nor an empty folder."""
    with contextlib.suppress(OSError):
        os.unlink(path)
    os.close(lock)
    with contextlib.suppress(OSError):
        os.rmdir(os.path.dirname(path))


def _ready(program: str, store: str) -> bytes:
    """The first line, by what `list` says."""
    status, said = _run(program, store, b"list\n")
    if status:
        raise _Ends(status, said if status == 7 else b"")
    counts = {words[0]: words[1:] for words in (line.split() for line in said.splitlines()) if words}
    told = [b"ready"]
    for kind in (b"records", b"queries", b"cursors", b"next"):
        told += [kind, *counts[kind]]
    return b" ".join(told) + b"\n"


def _answer(program: str, store: str, line: bytes) -> bytes:
    """The frame of a line that asks for something."""
    if len(line.rstrip(b"\n")) > _LINE:
        return _frame("refused", _TOO_LONG)
    status, said = _run(program, store, line if line.endswith(b"\n") else line + b"\n")
    if status not in _HOW:
        # behind any other the command may be done, and no frame can say so
        raise _Ends(status if status > 0 else 128 - status)
    return _frame(_HOW[status], b"" if _HOW[status] == "unread" else said)


def _frame(how: str, said: bytes) -> bytes:
    return b"answer %d %s\n" % (len(said), how.encode()) + said


def _next_line(source: BinaryIO) -> bytes:
    """The next line, of a longer one so much as shows that it is too long; empty at the end of the input."""
    line = source.readline(_LINE + 2)
    more = line
    while more and not more.endswith(b"\n"):
        more = source.readline(_LINE + 2)
        if len(line) <= _LINE + 1:
            line += more[: _LINE + 2 - len(line)]
    return line


def _hold(program: str, store: str, source: BinaryIO, sink: BinaryIO) -> None:
    def put(piece: bytes) -> None:
        try:
            sink.write(piece)
            sink.flush()
        except OSError:
            raise _Ends(4) from None

    put(_ready(program, store))
    while True:
        line = _next_line(source)
        if not line:
            return
        if line.split():
            put(_answer(program, store, line))


def main(words: List[str]) -> int:
    """Hold a session, and give its status.

    Parameters
    ----------
    words : list of str
        The path of `markush`, and `--store FILE` where the session is over a store.

    Examples
    --------
    >>> main(["markush", "list"])
    words not understood
    2
    """
    program, rest = words[0], words[1:]
    if rest and (len(rest) != 2 or rest[0] != "--store"):
        sys.stdout.write("words not understood\n")
        return 2
    try:
        if rest:
            held = _lock(rest[1])
            if held is None:
                return 5
            try:
                _hold(program, rest[1], sys.stdin.buffer, sys.stdout.buffer)
            finally:
                _unlock(*held)
        else:
            with tempfile.TemporaryDirectory(prefix="held-", dir=".") as folder:
                _hold(program, os.path.join(folder, "store"), sys.stdin.buffer, sys.stdout.buffer)
    except _Ends as ends:
        if ends.said:
            sys.stdout.buffer.write(ends.said)
            sys.stdout.buffer.flush()
        return ends.status
    return 0


if __name__ == "__main__":
    sys.exit(main(sys.argv[1:]))

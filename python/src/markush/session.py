"""One process of the session program, and the frames that it answers by. Nothing else in the package knows the pipe.

The process runs in a session of its own, so that an interrupt at the terminal or of a notebook isn't its end. It works
in a private folder of mode 0700 and is given the names that this module makes there, and no others; its standard error
goes to a file in it. A command is one line, and its answer one frame. Where an interrupt or the end of the time cuts a
frame off, the process is ended at once, and the next command opens the store again, and says so by a `StoreReopened`.
"""
from __future__ import annotations

import errno
import fcntl
import hashlib
import os
import select
import shutil
import signal
import subprocess
import tempfile
import threading
import time
import warnings
import weakref
from dataclasses import dataclass
from pathlib import Path
from typing import Callable, List, Optional, Sequence, Union

from .answers import BadAnswer, BadRow, Head, Ready, read_first, read_head
from .errors import MarkushError, OutOfMemory, ProgramEnded, StoreBad, StoreBusy, StoreReopened
from .programs import session_command

__all__ = ["Session", "Frame", "CutOff"]

_LONGEST_HEAD = 200
_MOST_WRITTEN = 4_000  # bytes of commands that are written at once
_STEP = 0.25  # seconds between two looks at the clock while a frame is waited for


@dataclass(frozen=True)
class Frame:
    """How a command went, `done` or `refused`, and the bytes of its answer.

    Examples
    --------
    >>> Frame("refused", b"refused 1 command\\n").how
    'refused'
    """

    how: str
    data: bytes


class CutOff(MarkushError):
    """The time was over before the frame was whole; the process was ended.

    Attributes
    ----------
    began : bool
        Whether a part of the frame had come, so that what the command changes is surely kept.

    Examples
    --------
    >>> CutOff("over", True).began
    True
    """

    def __init__(self, message: str, began: bool) -> None:
        super().__init__(message)
        self.began = began


class _Held:
    """What is ended with a session: the process and the private folder. It knows in which process it was made."""

    def __init__(self) -> None:
        self.owner = os.getpid()
        self.folder = Path(tempfile.mkdtemp(prefix="markush-"))
        self.process: Optional["subprocess.Popen[bytes]"] = None

    def end(self) -> None:
        """End the process at once, with all that it started. What it had written stays to be read."""
        process = self.process
        if process is None or os.getpid() != self.owner:
            return
        if process.poll() is None:
            try:
                os.killpg(process.pid, signal.SIGKILL)
            except (ProcessLookupError, PermissionError):
                process.kill()
            process.wait()

    def close_pipes(self) -> None:
        process = self.process
        if process is not None:
            for pipe in (process.stdin, process.stdout):
                if pipe is not None:
                    try:
                        pipe.close()
                    except OSError:
                        continue

    def finish(self) -> None:
        """The end of all: the process goes, and the folder."""
        if os.getpid() != self.owner:
            return
        self.end()
        self.close_pipes()
        self.process = None
        shutil.rmtree(self.folder, ignore_errors=True)


_ALL_HELD: "weakref.WeakSet[_Held]" = weakref.WeakSet()


def _after_fork_in_child() -> None:
    # a child that held the pipe open would keep the program from seeing the end of its input
    for held in list(_ALL_HELD):
        held.close_pipes()


os.register_at_fork(after_in_child=_after_fork_in_child)


class Session:
    """A process of the session program over a store, or over an empty library that goes with it.

    Parameters
    ----------
    store : path or None
        The store's file; None for a library in the program's memory, which a cut frame ends for good.
    program : path or None
        The session program; else it is looked for (`markush.programs`).
    clock : callable
        Gives the time in seconds; `time.monotonic` but for tests.

    Raises
    ------
    StoreBusy, StoreBad, OutOfMemory, ProgramEnded
        When the store is opened, which the first command does.

    Examples
    --------
    >>> with Session() as session:
    ...     session.ask("list").data.splitlines()[0]
    b'records 0'
    """

    def __init__(
        self,
        store: Union[str, "os.PathLike[str]", None] = None,
        *,
        program: Union[str, "os.PathLike[str]", None] = None,
        clock: Callable[[], float] = time.monotonic,
    ) -> None:
        self._command = session_command(program)
        self._program = self._command[-1]
        self._clock = clock
        self.store = None if store is None else Path(os.path.abspath(os.fspath(store)))
        self._held = _Held()
        _ALL_HELD.add(self._held)
        self._finalize = weakref.finalize(self, _Held.finish, self._held)
        self.lock = threading.RLock()
        self._within = False  # a command was written whose frame isn't read
        self._is_over = False  # the time was over within the frame, and the process was ended for it
        self._got = bytearray()
        self._closed = False
        self._ended_by = ""  # why the process isn't there any more
        self._names = 0
        self._had_wal = False  # whether the store had its second file before the program was started
        self.generation = 0  # how often the store was opened
        self.ready = Ready(0, 0, 0, 1, 1)

    # ---- life

    def __enter__(self) -> "Session":
        return self

    def __exit__(self, *_: object) -> None:
        self.close()

    @property
    def closed(self) -> bool:
        """Whether the session was closed by its user."""
        return self._closed

    @property
    def process_id(self) -> Optional[int]:
        """The number of the process, or None where none runs."""
        process = self._held.process
        return None if process is None or process.poll() is not None else process.pid

    @property
    def folder(self) -> Path:
        """The private folder, of mode 0700."""
        return self._held.folder

    def close(self) -> None:
        """End the process, by the end of its input where it isn't within a command, and remove the private folder."""
        self._check_process()
        with self.lock:
            self._closed = True
            self._let_go()
            self._finalize()

    def end(self, for_good: bool = False) -> None:
        """End the process at once, from any thread; a command that waits for its frame raises `ProgramEnded`.

        Parameters
        ----------
        for_good : bool
            Whether a further command raises too; else it opens the store again.
        """
        self._check_process()
        self._closed = self._closed or for_good
        self._held.end()

    def let_go(self, reason: str = "") -> None:
        """End the process between two commands, so that the store is free; the next command opens it again.

        Parameters
        ----------
        reason : str
            What the `StoreReopened` says then; none comes where this is empty.
        """
        self._check_process()
        with self.lock:
            self._let_go()
            self._ended_by = reason

    def _let_go(self) -> None:
        process = self._held.process
        if process is None:
            return
        if not self._within and process.stdin is not None:
            try:
                process.stdin.close()
                process.wait(timeout=30)
            except (OSError, subprocess.TimeoutExpired):
                pass
        self._drop()

    def _drop(self) -> None:
        self._held.end()
        self._held.close_pipes()
        self._held.process = None
        self._within = False
        self._got.clear()

    def _check_process(self) -> None:
        if os.getpid() != self._held.owner:
            raise MarkushError(
                f"this was opened in the process {self._held.owner}, and a forked child can't use it: open another one in "
                f"the child, or start workers by 'spawn'"
            )

    def new_path(self, ending: str) -> Path:
        """A path in the private folder that no file has yet, with a name that is a word to the program."""
        self._check_process()
        with self.lock:
            if self._closed:
                raise MarkushError("this was closed; open it anew")
            self._names += 1
            return self.folder / f"{self._names}{ending}"

    # ---- opening

    def open(self) -> Ready:
        """Open the store, if no process runs, and say what it holds."""
        self._check_process()
        with self.lock:
            self._open_if_needed()
            return self.ready

    def _open_if_needed(self) -> None:
        if self._closed:
            raise MarkushError("this was closed; open it anew")
        if self._within:
            self._drop()
            self._ended_by = self._ended_by or "a command was interrupted"
        if self._held.process is not None:
            if self._held.process.poll() is None:
                return
            status = self._held.process.returncode
            self._drop()
            self._ended_by = self._ended_by or f"the program had ended with the status {status}"
        reason = self._ended_by
        self._start()
        self.generation += 1
        self._ended_by = ""
        if reason:
            name = "its library in memory is empty again" if self.store is None else f"{self.store} was opened again"
            warnings.warn(f"{reason}, so {name}", StoreReopened, stacklevel=4)

    def _start(self) -> None:
        words = list(self._command)
        if self.store is not None:
            words += ["--store", self._store_word(self.store)]
            self._had_wal = os.path.lexists(f"{self.store}-wal")
        errors = self._errors_file()
        try:
            self._held.process = subprocess.Popen(
                words,
                bufsize=0,
                stdin=subprocess.PIPE,
                stdout=subprocess.PIPE,
                stderr=errors,
                cwd=self.folder,
                start_new_session=True,
            )
        finally:
            os.close(errors)
        self._within = True
        self._got.clear()
        try:
            line = self._take_line(None)
            first = read_first(line)
        except BadAnswer:
            self._drop()
            raise
        if isinstance(first, BadRow):
            self._drop()
            raise StoreBad(
                f"{self.store}: {first.kind} {first.number} of this store isn't one that the program writes; mend the row "
                f"by sqlite3, or take it out",
                kind=first.kind,
                number=first.number,
            )
        self.ready = first
        self._within = False

    def _store_word(self, store: Path) -> str:
        """The store's name for the program, whose words are UTF-8, as is the path to which a link leads."""
        for path in (os.fsencode(store), os.path.realpath(os.fsencode(store))):
            try:
                path.decode("utf-8")
            except UnicodeDecodeError:
                shown = path.decode("utf-8", "replace")
                raise StoreBad(f"{shown}: the path of a store has to be UTF-8; rename the file or its folder") from None
        return str(store)

    def _errors_file(self) -> int:
        """The file of standard error. It is locked by whatever process has it, so none of an earlier start is left."""
        path = self.folder / "errors"
        fault = os.open(path, os.O_RDWR | os.O_CREAT | os.O_APPEND | os.O_CLOEXEC, 0o600)
        try:
            for pause in [0.001] * 100 + [0.01] * 3000:
                try:
                    fcntl.flock(fault, fcntl.LOCK_EX | fcntl.LOCK_NB)
                    break
                except BlockingIOError:
                    time.sleep(pause)
            os.ftruncate(fault, 0)
        except BaseException:
            os.close(fault)
            raise
        return fault

    def _said(self) -> str:
        """What the process left on standard error, for a message."""
        try:
            said = (self.folder / "errors").read_text("utf-8", "replace").strip()
        except OSError:
            return ""
        return f"; it said: {said[-1000:]}" if said else ""

    # ---- asking

    def ask(self, command: str, deadline: Optional[float] = None) -> Frame:
        """Do one command, and give its frame.

        Parameters
        ----------
        command : str
            A line without its LF.
        deadline : float or None
            The time of the clock, in seconds, behind which the frame isn't waited for.

        Raises
        ------
        OutOfMemory
            Memory ran out; nothing was changed, and the session goes on.
        CutOff
            The deadline passed. A frame that was whole by then is given all the same.
        StoreBad, StoreBusy, ProgramEnded
            The process ended.
        """
        return self._frames([command], deadline)[0]

    def ask_each(self, commands: Sequence[str]) -> List[Frame]:
        """Do some short commands that are written at once, and give their frames.

        The program answers one after the other without waiting for who reads, which takes less time than to ask each.

        Parameters
        ----------
        commands : sequence of str
            Lines without their LF, of 4,000 bytes at most in all, so that a pipe holds them.

        Raises
        ------
        OutOfMemory, StoreBad, StoreBusy, ProgramEnded
            As `ask` does; all the commands were done, or the process ended.

        Examples
        --------
        >>> with Session() as session:
        ...     [frame.how for frame in session.ask_each(["list", "show 1"])]
        ['done', 'refused']
        """
        if sum(len(command) + 1 for command in commands) > _MOST_WRITTEN:
            raise ValueError(f"commands that are written at once have {_MOST_WRITTEN} bytes at most")
        return self._frames(commands, None) if commands else []

    def _frames(self, commands: Sequence[str], deadline: Optional[float]) -> List[Frame]:
        self._check_process()
        for command in commands:
            if "\n" in command or "\r" in command:
                raise ValueError(f"a command is one line, and {command!r} isn't")
        command = commands[0]
        frames: List[Frame] = []
        with self.lock:
            self._open_if_needed()
            self._is_over = False
            try:
                self._within = True
                self._put("".join(f"{each}\n" for each in commands).encode("utf-8"), command)
                for command in commands:
                    head = read_head(self._take_line(deadline, command))
                    frames.append(Frame(head.how, self._take(head, deadline, command)))
                if self._got:
                    raise BadAnswer(f"the program wrote more than the frame of '{command}'")
                self._within = False
            except BaseException:
                self._ended_by = self._ended_by or f"the command '{command.split(' ', 1)[0]}' was cut off"
                self._drop()
                raise
        for command, frame in zip(commands, frames):
            if frame.how == "memory":
                raise OutOfMemory(
                    f"memory ran out at '{command}'; nothing was changed. Give the program more memory, or it smaller files"
                )
            if frame.how == "unread":
                raise MarkushError(f"the program couldn't read the file of '{command}'; nothing was changed")
        return frames

    def _put(self, data: bytes, command: str) -> None:
        process = self._held.process
        assert process is not None and process.stdin is not None
        try:
            while data:
                data = data[os.write(process.stdin.fileno(), data) :]
        except OSError as fault:
            if fault.errno not in (errno.EPIPE, errno.ECONNRESET):
                raise
            raise self._end_of_process(command) from None

    def _take_line(self, deadline: Optional[float], command: str = "") -> bytes:
        while True:
            end = self._got.find(b"\n")
            if end >= 0:
                line = bytes(self._got[: end + 1])
                del self._got[: end + 1]
                return line
            if len(self._got) > _LONGEST_HEAD:
                raise BadAnswer(f"the program wrote no head of a frame, but {bytes(self._got[:80])!r}")
            self._more(deadline, command, began=bool(self._got))

    def _take(self, head: Head, deadline: Optional[float], command: str) -> bytes:
        while len(self._got) < head.size:
            self._more(deadline, command, began=True)
        data = bytes(self._got[: head.size])
        del self._got[: head.size]
        return data

    def _more(self, deadline: Optional[float], command: str, began: bool) -> None:
        """Read some more bytes, or raise where there will be none."""
        process = self._held.process
        assert process is not None and process.stdout is not None
        out = process.stdout.fileno()
        if not self._is_over:
            waiting = select.poll()
            waiting.register(out, select.POLLIN | select.POLLHUP)
            pause = 0.0
            while not waiting.poll(None if deadline is None else 1000 * pause):
                left = 0.0 if deadline is None else deadline - self._clock()
                if left <= 0:
                    # what it wrote before it was ended counts, so the reading goes on behind its end
                    self._held.end()
                    self._is_over = True
                    self._ended_by = f"the time was over within the command '{command.split(' ', 1)[0]}'"
                    break
                pause = min(left, _STEP)
        data = os.read(out, 1 << 16)
        if data:
            self._got += data
        elif self._is_over:
            raise CutOff(self._ended_by, began)
        else:
            raise self._end_of_process(command)

    def _end_of_process(self, command: str) -> MarkushError:
        """The error for a process that ended by itself."""
        process = self._held.process
        assert process is not None
        try:
            status = process.wait(timeout=30)
        except subprocess.TimeoutExpired:
            self._held.end()
            status = process.wait()
        self._ended_by = f"the program had ended with the status {status}"
        said, where = self._said(), f"at '{command}'" if command else "when it was started"
        if status == 5:
            return self._store_fault(where, said)
        if status == 6:
            return OutOfMemory(f"memory ran out {where}{said}. Give the program more memory, or smaller files")
        by = f"was ended by the signal {-status}" if status < 0 else f"ended with the status {status}"
        return ProgramEnded(f"{self._program} {by} {where}{said}", status)

    def _store_fault(self, where: str, said: str) -> MarkushError:
        """Why a store wasn't opened, read or written, as far as the file shows it."""
        store = self.store
        assert store is not None or self._held.folder
        if store is None:
            return StoreBad(f"the library couldn't be kept {where}{said}")
        if where.startswith("at "):
            free = shutil.disk_usage(store.parent).free
            room = "; its disk is full" if free < 1 << 20 else ""
            return StoreBad(f"{store}: the store couldn't be read or written {where}{room}{said}; what was answered is kept")
        if store.is_dir():
            return StoreBad(f"{store} is a folder, and a store is a file")
        if not store.parent.is_dir():
            return StoreBad(f"{store}: there is no folder {store.parent}; make it first")
        if not store.exists():
            return StoreBad(f"{store}: this user can't make a file in {store.parent}, or its disk is full")
        if not os.access(store, os.R_OK | os.W_OK) or not os.access(store.parent, os.W_OK):
            return StoreBad(f"{store}: this user may not read and write it and its folder")
        if store.stat().st_nlink > 1:
            return StoreBad(f"{store} has a second name by a hard link, and a store has one; copy it instead")
        with open(store, "rb") as file:
            start = file.read(16)
        if start and start != b"SQLite format 3\0":
            self._drop_empty_wal(store)
            return StoreBad(f"{store} is no store: it isn't a SQLite database")
        return StoreBusy(
            f"{store}: another run has this store, as a Library that is open here or in another process, or sqlite3; close "
            f"that first, or copy the store by snapshot and open the copy"
        )

    def _drop_empty_wal(self, store: Path) -> None:
        """Take away the empty file that opening what is no database has left beside it."""
        wal = Path(f"{store}-wal")
        try:
            if not self._had_wal and wal.lstat().st_size == 0:
                wal.unlink()
        except OSError:
            pass

    # ---- what the store's files show

    def mark(self) -> Optional[bytes]:
        """A digest of the store's files, equal where no command was kept between two marks; None without a store."""
        if self.store is None:
            return None
        digest = hashlib.blake2b()
        for path, whole in ((self.store, False), (Path(f"{self.store}-wal"), True)):
            try:
                with open(path, "rb") as file:
                    about = os.fstat(file.fileno())
                    digest.update(f"{about.st_ino} {about.st_size} {about.st_mtime_ns};".encode())
                    if whole:
                        digest.update(file.read())
            except FileNotFoundError:
                digest.update(b"none;")
        return digest.digest()

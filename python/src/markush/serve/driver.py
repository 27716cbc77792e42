"""The one thread that drives the session program. What others want of it, it does between two commands."""
from __future__ import annotations

import threading
import time
import traceback
import warnings
from collections import deque
from concurrent.futures import Future
from pathlib import Path
from typing import Any, Callable, Deque, Iterator, Optional, Tuple

from ..errors import MarkushError, ProgramEnded, StoreReopened
from ..library import Library

__all__ = ["Driver"]

LONG = 10.0  # seconds after which a command is shown as a long one


class Driver:
    """A library, and the thread that asks it.

    Short deeds go before all else; tasks are done in turn, a step each. A step is one command of the session, or a few
    short ones, so a deed waits no longer than that.

    Parameters
    ----------
    store : path or None
        None for a library that goes when it is closed.
    program : path or None
        The session program; else it is looked for.

    Examples
    --------
    >>> driver = Driver(None)
    >>> driver.start()
    >>> driver.do("counting", lambda library: len(library)).result()
    0
    >>> driver.close()
    """

    def __init__(self, store: Optional[Path], program: Optional[Path] = None) -> None:
        self.store, self._program = store, program
        self.library: Optional[Library] = None
        self.fault = ""  # why the library isn't open
        self.opened = threading.Event()
        self.ended = threading.Event()  # the thread has let all go; `Thread.join` takes it for ended where Ctrl-C comes within it
        self._ready = threading.Condition()
        self._deeds: Deque[Tuple[str, Callable[[Library], Any], "Future[Any]"]] = deque()
        self._tasks: Deque[Tuple[str, Iterator[None]]] = deque()
        self._last: Optional[Iterator[None]] = None  # what is done when there is nothing else
        self._closing = False
        self._doing: Optional[Tuple[str, float]] = None
        self._is_ended = False  # the command that runs was ended by who looks at the page
        self._thread = threading.Thread(target=self._run, name="driver", daemon=True)

    def start(self) -> None:
        """Open the library, in the thread."""
        self._thread.start()

    def close(self) -> None:
        """Let the library go, once the command that runs is done; one that runs long is ended."""
        with self._ready:
            self._closing = True
            self._ready.notify_all()
        if self._thread.ident is not None and not self.ended.wait(LONG):
            self.end_command()
            self.ended.wait(LONG)

    # ---- what others ask

    def do(self, what: str, deed: Callable[[Library], Any]) -> "Future[Any]":
        """Have something short done with the library, before any task goes on."""
        found: "Future[Any]" = Future()
        with self._ready:
            if self._closing:
                found.set_exception(MarkushError(self.fault or "the server is being stopped"))
                return found
            self._deeds.append((what, deed, found))
            self._ready.notify_all()
        return found

    def task(self, what: str, steps: Iterator[None]) -> None:
        """Have something long done, step by step, in turn with the other tasks."""
        with self._ready:
            self._tasks.append((what, steps))
            self._ready.notify_all()

    def at_last(self, steps: Iterator[None]) -> None:
        """Have something done when there is nothing else to do."""
        with self._ready:
            self._last = steps
            self._ready.notify_all()

    def busy(self) -> Optional[Tuple[str, float]]:
        """What is done now, and for how many seconds."""
        doing = self._doing
        return None if doing is None else (doing[0], time.monotonic() - doing[1])

    def end_command(self) -> None:
        """End the session's process, and open the store again. What was answered is kept."""
        library = self.library
        if library is not None:
            self._is_ended = True
            library._session.end()
            if not self._closing:
                self.do("the store is opened again", lambda library: library._refresh())

    def words(self, fault: Exception) -> str:
        """What a fault of the command that runs says, to who looks at the page."""
        if self._is_ended and isinstance(fault, ProgramEnded):
            return "the command was ended, and the store is opened again; what was answered before is kept"
        return str(fault.args[0]) if isinstance(fault, KeyError) and fault.args else str(fault)

    # ---- the thread

    def _run(self) -> None:
        try:
            self._work()
        finally:
            self.ended.set()

    def _work(self) -> None:
        warnings.simplefilter("ignore", StoreReopened)
        self._doing = ("the store is opened", time.monotonic())
        try:
            self.library = Library(self.store, program=self._program)
        except Exception as fault:
            self.fault = str(fault) if isinstance(fault, (MarkushError, OSError)) else f"the store can't be opened: {type(fault).__name__}"
            if not isinstance(fault, (MarkushError, OSError)):
                traceback.print_exc()
        self._doing = None
        self.opened.set()
        if self.library is None:
            self._refuse()
            return
        try:
            while self._step(self.library):
                pass
        finally:
            self._refuse()
            self.library.close()

    def _step(self, library: Library) -> bool:
        with self._ready:
            while not (self._closing or self._deeds or self._tasks or self._last):
                self._ready.wait()
            if self._closing:
                return False
            deed = self._deeds.popleft() if self._deeds else None
            task = self._tasks.popleft() if self._tasks and deed is None else None
            last = self._last if deed is None and task is None else None
        what = deed[0] if deed else task[0] if task else "the records are read"
        self._is_ended = False
        self._doing = (what, time.monotonic())
        try:
            if deed is not None:
                self._do(deed, library)
            elif task is not None:
                if _goes_on(task[1]):
                    with self._ready:
                        self._tasks.append(task)
            elif last is not None and not _goes_on(last):
                with self._ready:
                    if self._last is last:
                        self._last = None
        finally:
            self._doing = None
        return True

    def _do(self, deed: "Tuple[str, Callable[[Library], Any], Future[Any]]", library: Library) -> None:
        try:
            deed[2].set_result(deed[1](library))
        except Exception as fault:
            deed[2].set_exception(MarkushError(self.words(fault)) if isinstance(fault, ProgramEnded) else fault)

    def _refuse(self) -> None:
        with self._ready:
            self._closing = True
            while self._deeds:
                self._deeds.popleft()[2].set_exception(MarkushError(self.fault or "the server is being stopped"))
            tasks = [steps for _, steps in self._tasks]
            self._tasks.clear()
        for steps in tasks:
            close = getattr(steps, "close", None)
            if close is not None:
                close()


def _goes_on(steps: Iterator[None]) -> bool:
    """One step of a task, and whether there are others; a task tells its faults itself."""
    try:
        next(steps)
        return True
    except StopIteration:
        return False
    except Exception:
        traceback.print_exc()
        return False

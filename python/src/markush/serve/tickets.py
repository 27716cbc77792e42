"""What takes longer than a request may: other threads do it, and the page asks for it by a ticket."""
from __future__ import annotations

import threading
import traceback
from concurrent.futures import ThreadPoolExecutor
from typing import Any, Callable, Dict, Tuple

from ..errors import MarkushError
from .asked import read_json, whole
from .server import Raw

__all__ = ["Tell", "Tickets"]

MOST_TICKETS = 500

Tell = Callable[[str], None]


class Tickets:
    """The tickets that were given, with what came of them; each is asked for once.

    Examples
    --------
    >>> tickets = Tickets()
    >>> given = tickets.later(lambda tell: 6 * 7)
    >>> tickets.close()
    >>> tickets.ticket(b'{"ticket": 1}', "")
    {'found': 42}
    """

    def __init__(self) -> None:
        self._pool = ThreadPoolExecutor(4, thread_name_prefix="asker")
        self._line = ThreadPoolExecutor(1, thread_name_prefix="reader")
        self._lock = threading.Lock()
        self._held: Dict[int, Tuple[str, Any]] = {}
        self._last = 0

    def close(self) -> None:
        """Begin nothing any more, and wait for what was begun."""
        for pool in (self._pool, self._line):
            pool.shutdown(wait=True)

    def drop(self) -> None:
        """Begin nothing any more, and wait for nothing."""
        for pool in (self._pool, self._line):
            pool.shutdown(wait=False, cancel_futures=True)

    def submit(self, deed: Callable[[], Any]) -> None:
        """Have something done that nobody asks for again."""
        self._pool.submit(deed)

    def in_turn(self, deed: Callable[[], Any]) -> None:
        """Have something done that nobody asks for again, after all that was given before it."""
        self._line.submit(deed)

    def later(self, deed: Callable[[Tell], Any]) -> Dict[str, Any]:
        """Have something done, and give the ticket for it. The deed is given a function that tells how far it is."""
        with self._lock:
            if len(self._held) >= MOST_TICKETS:
                del self._held[next(iter(self._held))]
            self._last += 1
            number = self._last
            self._held[number] = ("waits", "")

        def put(how: str, what: Any) -> None:
            with self._lock:
                if number in self._held:
                    self._held[number] = (how, what)

        def done() -> None:
            try:
                put("done", deed(lambda told: put("waits", told)))
            except MarkushError as fault:
                put("fault", fault)
            except KeyError as fault:
                put("fault", MarkushError(str(fault.args[0]) if fault.args else "it isn't there"))
            except Exception:
                traceback.print_exc()
                put("fault", MarkushError("something went wrong in the server; its terminal says what"))

        self._pool.submit(done)
        return {"ticket": number}

    def ticket(self, body: bytes, words: str) -> Any:
        """What a ticket was given for: whether it's done, and what came of it."""
        number = whole(read_json(body), "ticket")
        with self._lock:
            if number not in self._held:
                raise MarkushError("what was asked for isn't there any more; ask again")
            how, found = self._held[number]
            if how in ("done", "fault"):
                del self._held[number]
        if how == "waits":
            return {"waits": True, "told": found}
        if how == "fault":
            raise found
        return found if isinstance(found, Raw) else {"found": found}

"""The bench behind the page: its parts put together, and what may be asked for, by the path of a request."""
from __future__ import annotations

from pathlib import Path
from typing import Any, Callable, Dict, Mapping, Optional

from .claims import Claims
from .compounds import Compounds
from .desk import Desk
from .driver import LONG, Driver
from .hits import Hits
from .questions import Questions

__all__ = ["Bench"]


class Bench:
    """All that is behind the page.

    Parameters
    ----------
    store : path or None
        None for a library that goes with the server; `folder` is then where what is kept stands for so long.
    folder : path
        A private folder.
    program : path or None
        The session program; else it is looked for.

    Examples
    --------
    >>> import tempfile
    >>> with tempfile.TemporaryDirectory() as folder:
    ...     bench = Bench(None, Path(folder))
    ...     bench.start()
    ...     print(bench.driver.opened.wait(60), bench.state(b"", "")["library"]["records"])
    ...     bench.close()
    True 0
    """

    def __init__(self, store: Optional[Path], folder: Path, program: Optional[Path] = None) -> None:
        self.desk = desk = Desk(store, folder, program)
        self.claims, self.hits = Claims(desk), Hits(desk)
        self.questions, self.compounds = Questions(desk), Compounds(desk)

    @property
    def driver(self) -> Driver:
        """The thread that drives the session program."""
        return self.desk.driver

    @property
    def is_ready(self) -> bool:
        """Whether the library is open, and what is kept beside it."""
        return self.desk.is_ready

    @property
    def routes(self) -> Mapping[str, Callable[[bytes, str], Any]]:
        """What may be asked for, by the path of a request."""
        asked: Dict[str, Callable[[bytes, str], Any]] = {"state": self.state, "ticket": self.desk.tickets.ticket, "end": self.end_command}
        for routes in (self.claims.routes, self.hits.routes, self.questions.routes, self.compounds.routes):
            asked.update(routes)
        return {f"/api/{name}": route for name, route in asked.items()}

    def start(self) -> None:
        """Open the library and what is kept beside it."""
        self.desk.start()

    def close(self) -> None:
        """Keep what has to be kept, and let all go."""
        self.desk.close()

    def state(self, body: bytes, words: str) -> Dict[str, Any]:
        """All that changes by itself, in short."""
        desk = self.desk
        library, busy = desk.driver.library, desk.driver.busy()
        with desk.lock:
            return {
                "library": {
                    "name": desk.store.name if desk.store is not None else "",
                    "isOpen": desk.is_ready,
                    "fault": desk.driver.fault,
                    "records": len(library._numbers) if library is not None else 0,
                    "read": desk.read,
                    "revision": desk.revision,
                },
                "busy": None if busy is None or busy[1] < LONG else {"what": busy[0], "seconds": round(busy[1])},
                "claims": self.claims.told(),
                "searches": [search.told(desk.revision) for search in desk.searches.values()],
                "loads": self.compounds.told(),
                "verdicts": self.hits.verdict_changes,
                "rdkit": desk.quick.has_rdkit,
            }

    def end_command(self, body: bytes, words: str) -> Dict[str, Any]:
        """End the command that runs, and have the store opened again."""
        self.desk.library()
        self.desk.tickets.submit(self.driver.end_command)
        return {}

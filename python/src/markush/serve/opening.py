"""The bench as a whole: the server over the library, and the browser that is opened at it."""
from __future__ import annotations

import os
import tempfile
import threading
import webbrowser
from pathlib import Path
from typing import Dict, Optional, Sequence, Tuple

from .bench import Bench
from .server import BenchServer

__all__ = ["Serving", "shell"]

FOLDER = Path(__file__).parent
_SHELL = {
    "/": ("bench.html", "text/html; charset=utf-8"),
    "/bench.css": ("bench.css", "text/css; charset=utf-8"),
    "/hits.css": ("../hits.css", "text/css; charset=utf-8"),
    "/hits.js": ("../hits.js", "text/javascript; charset=utf-8"),
    "/bench.js": ("bench.js", "text/javascript; charset=utf-8"),
}
_ICON = b'<svg xmlns="http://www.w3.org/2000/svg" viewBox="0 0 32 32"><path d="M16 3l11 6.5v13L16 29 5 22.5v-13z" fill="none" stroke="#17598f" stroke-width="4"/></svg>'
_REDIRECT = '<!doctype html><meta charset="utf-8"><meta name="referrer" content="no-referrer"><meta http-equiv="refresh" content="0;url={link}"><title>markush</title>'


def shell() -> Dict[str, Tuple[bytes, str]]:
    """What is answered to anybody, by the path of a request: constant bytes of the package, read once.

    Examples
    --------
    >>> sorted(shell())
    ['/', '/bench.css', '/bench.js', '/hits.css', '/hits.js', '/icon.svg']
    """
    found = {path: ((FOLDER / name).read_bytes(), kind) for path, (name, kind) in _SHELL.items()}
    found["/icon.svg"] = (_ICON, "image/svg+xml")
    return found


class Serving:
    """A bench that is served, until it is closed.

    Parameters
    ----------
    store : path or None
        The store; it is made where it isn't there. None for a library that goes when it is closed.
    port : int
        0 for one that is free.
    hosts : sequence of str
        Further hosts by which the page is reached, as `localhost:9000` through a tunnel.
    program : path or None
        The session program; else it is looked for.

    Examples
    --------
    >>> with Serving(None) as serving:
    ...     serving.bench.driver.opened.wait(60), serving.link.count("#")
    (True, 1)
    """

    def __init__(self, store: Optional[Path], port: int = 0, hosts: Sequence[str] = (), program: Optional[Path] = None) -> None:
        self._folder = tempfile.TemporaryDirectory(prefix="markush-serve-")
        try:
            self.bench = Bench(store, Path(self._folder.name), program)
            self.server = BenchServer(port, shell(), self.bench.routes, tuple(hosts))
        except BaseException:
            self._folder.cleanup()
            raise
        self.link = self.server.link
        self._thread = threading.Thread(target=self.server.serve_forever, kwargs={"poll_interval": 0.1}, name="server", daemon=True)
        self.bench.start()
        self._thread.start()

    def __enter__(self) -> "Serving":
        return self

    def __exit__(self, *_: object) -> None:
        self.close()

    def close(self) -> None:
        """Stop serving, keep what has to be kept, and let the store go."""
        self.server.shutdown()
        self.server.server_close()
        self.bench.close()
        self._folder.cleanup()

    def open_browser(self) -> bool:
        """Open the page in the browser, by a file that only this user can read, so that no list of processes shows the token."""
        path = Path(self._folder.name) / "open.html"
        number = os.open(path, os.O_WRONLY | os.O_CREAT | os.O_TRUNC | os.O_CLOEXEC, 0o600)
        with open(number, "w", encoding="ascii") as file:
            file.write(_REDIRECT.format(link=self.link))
        return webbrowser.open(path.as_uri())

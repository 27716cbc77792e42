"""Open a bench to search at: one page in the browser, over a library.

With --store FILE claims, searches and verdicts are kept beside the store, in FILE-bench. COMPOUNDS are SDfiles or lists of
SMILES, which are loaded into a library that goes with the server. The page is at 127.0.0.1 alone, and the link that is
printed lets in whoever has it; end the server by Ctrl-C.
"""
from __future__ import annotations

import argparse
import errno
import gc
import os
import signal
import sys
from pathlib import Path
from typing import TYPE_CHECKING, Any, Optional, Sequence

from .common import HITS, Fault, go_on_with_rdkit

if TYPE_CHECKING:
    from ..serve.opening import Serving


def add_words(parser: argparse.ArgumentParser) -> None:
    """The words of the tool."""
    parser.add_argument("compounds", nargs="*", metavar="COMPOUNDS", help="SDfiles or lists of SMILES, packed by gzip or xz or not")
    parser.add_argument("--store", metavar="FILE", help="the store; it is made where it isn't there")
    parser.add_argument("--port", type=int, default=0, metavar="N", help="the port at 127.0.0.1; one that is free where none is named")
    parser.add_argument("--host", action="append", default=[], metavar="NAME:PORT", help="a further host by which a tunnel reaches the page")
    parser.add_argument("--no-browser", action="store_true", help="print the link, and open no browser")


def run(args: argparse.Namespace) -> int:
    """Serve until it is ended."""
    if args.store is not None and args.compounds:
        raise Fault("the page is over a store or over COMPOUNDS; load these into the store at the page")
    if not 0 <= args.port <= 65535:
        raise Fault("a port is a number from 0 to 65535")
    for host in args.host:
        name, colon, port = host.rpartition(":")
        if not (name and colon and port.isdigit()) or "/" in host:
            raise Fault(f"--host {host}: a host is written as NAME:PORT, as localhost:9000")
    if args.port == 80 or any(int(host.rpartition(":")[2]) == 80 for host in args.host):
        raise Fault("browsers leave port 80 out of the name of a host, which has to have it here; name another port")
    try:
        go_on_with_rdkit(args.words)
    except Fault as fault:
        print(f"markush-tools serve: {fault}; lists of SMILES aren't drawn without it", file=sys.stderr)
    # requests are answered soon, also while the driver's thread takes hits up: they wait neither for it, nor for a collector that
    # looks through all that was there when the library was open
    sys.setswitchinterval(0.0005)
    gc.disable()
    signal.signal(signal.SIGTERM, _interrupt)
    bodies = [(path, Path(path).read_bytes()) for path in args.compounds]
    store = None if args.store is None else Path(os.path.abspath(args.store))
    with _served(store, args.port, [host.lower() for host in args.host]) as serving:  # as a browser writes them
        print(f"Open {serving.link}", flush=True)
        print("Whoever has this link may do all that the page does. Ctrl-C ends the server.", flush=True)
        driver = serving.bench.driver
        try:
            driver.opened.wait()
            gc.collect()
            gc.freeze()
            gc.enable()
            if driver.fault:
                raise Fault(driver.fault)
            _load(serving.bench, bodies)
            if not args.no_browser:
                serving.open_browser()
            while not driver.ended.wait(0.5):
                pass
            if driver.fault:
                raise Fault(driver.fault)
        except KeyboardInterrupt:
            print("\nThe server is stopped.", file=sys.stderr)
    return HITS


def _served(store: Optional[Path], port: int, hosts: Sequence[str]) -> "Serving":
    from ..serve.opening import Serving

    try:
        return Serving(store, port, hosts)
    except OSError as fault:
        if fault.errno == errno.EADDRINUSE:
            raise Fault(f"port {port} is another program's; name another one by --port, or none, and one that is free is taken") from None
        if fault.errno == errno.EACCES:
            raise Fault(f"port {port} is none that this user may take; name one from 1024 on by --port, or none") from None
        raise


def _load(bench: Any, bodies: Any) -> None:
    import time

    while bodies and not bench.is_ready and not bench.driver.fault:
        time.sleep(0.02)
    for path, body in bodies:
        bench.compounds.load_file(path, body)


def _interrupt(*_: object) -> None:
    raise KeyboardInterrupt

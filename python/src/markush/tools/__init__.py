"""The tools of the command line, `markush-tools`: a file for each, and what they share in `common`."""
from __future__ import annotations

import argparse
import importlib
import os
import signal
import sys
import warnings
from typing import List, Optional, Sequence, TextIO, Type, Union

from ..errors import MarkushError
from .common import FAULT, Fault, WantsRdkit, go_on_with_rdkit

__all__ = ["main"]

# in the order of the help
COMMANDS = ("find", "draw", "page", "table", "split", "structures", "why", "covers", "watch", "scan", "show", "run", "report", "normalize", "serve")

ABOUT = """Claims, compounds and hits at the command line. The program markush decides what is a hit.

The status is 0 where there are hits or all was done, 1 where there are none, 2 after a fault, and 3 where some records
were refused."""


def make_parser() -> argparse.ArgumentParser:
    """The words of every tool.

    Examples
    --------
    >>> make_parser().parse_args(["show", "store.db", "1"]).command
    'show'
    """
    from .. import __version__

    parser = argparse.ArgumentParser(prog="markush-tools", description=ABOUT, formatter_class=argparse.RawDescriptionHelpFormatter)
    parser.add_argument("--version", action="version", version=f"markush-tools {__version__}")
    tools = parser.add_subparsers(dest="command", metavar="COMMAND", required=True)
    for name in COMMANDS:
        module = importlib.import_module(f"markush.tools.{name}")
        about = (module.__doc__ or "").strip()
        # words are whole, since an account keeps them for `report`
        tool = tools.add_parser(
            name,
            help=about.splitlines()[0].rstrip("."),
            description=about,
            formatter_class=argparse.RawDescriptionHelpFormatter,
            allow_abbrev=False,
        )
        module.add_words(tool)
        tool.set_defaults(run=module.run, takes_rdkit=getattr(module, "takes_rdkit", lambda _: False))
    return parser


def main(words: Optional[Sequence[str]] = None) -> int:
    """Do what the words say, and give the exit status.

    Parameters
    ----------
    words : sequence of str or None
        The words behind `markush-tools`; those of the command line where none are given.

    Returns
    -------
    int
        0 where there are hits or all was done, 1 where there are none, 2 after a fault, 3 where records were refused.

    Examples
    --------
    >>> from markush.tools import main
    >>> main(["report", "/dev/null"])
    2
    """
    given: List[str] = list(sys.argv[1:] if words is None else words)
    args = make_parser().parse_args(given)
    args.words = given
    with warnings.catch_warnings():
        _tell_notes(args.command)
        return _done(args, given)


def _tell_notes(command: str) -> None:
    """Let what the package warns of be told as a line for people, each time."""
    shown = warnings.showwarning

    def show(
        message: Union[Warning, str], category: Type[Warning], filename: str, lineno: int, file: Optional[TextIO] = None, line: Optional[str] = None
    ) -> None:
        if category.__module__.split(".")[0] == __name__.split(".")[0]:
            print(f"markush-tools {command}: {message}", file=sys.stderr)
        else:
            shown(message, category, filename, lineno, file, line)

    warnings.simplefilter("always", UserWarning)
    warnings.showwarning = show


def _done(args: argparse.Namespace, given: List[str]) -> int:
    try:
        try:
            if args.takes_rdkit(args):
                go_on_with_rdkit(given)
            status = int(args.run(args))
        except WantsRdkit:
            go_on_with_rdkit(given)
            raise
        sys.stdout.flush()
        return status
    except BrokenPipeError:
        return _end_by(signal.SIGPIPE)
    except KeyboardInterrupt:
        return _end_by(signal.SIGINT)
    except (Fault, MarkushError, OSError, ImportError) as fault:
        print(f"markush-tools {args.command}: {_said(fault)}", file=sys.stderr)
        return FAULT


def _said(fault: BaseException) -> str:
    if isinstance(fault, OSError) and not isinstance(fault, MarkushError) and fault.filename is not None:
        return f"{os.fsdecode(fault.filename)}: {fault.strerror}"
    return str(fault)


def _end_by(number: signal.Signals) -> int:
    """End as a program does that takes no care of the signal."""
    # what is left to be written has nobody who reads it
    os.dup2(os.open(os.devnull, os.O_WRONLY), 1)
    signal.signal(number, signal.SIG_DFL)
    os.kill(os.getpid(), number)
    return 128 + number

"""Where the programs are: the session program, through which the package works, and the program of the command line.

A program is looked for in this order: the caller's path; the environment; beside the installed package; on the path;
in the checkout that the package or the working folder lies in. Nothing is built.
"""
from __future__ import annotations

import os
import shutil
import sys
from pathlib import Path
from typing import Iterator, List, Optional, Tuple, Union

from .errors import MarkushError

__all__ = ["session_program", "program", "session_command", "engine"]

_HERE = Path(__file__).resolve().parent
# where a package of the system, or a wheel that brings its programs, puts them
_INSTALLED = (_HERE / "programs", Path("/usr/lib/markush"), Path("/usr/local/lib/markush"))


def session_program(given: Union[str, "os.PathLike[str]", None] = None) -> Path:
    """The path of the session program, `markush-session`.

    Parameters
    ----------
    given : path or None
        A path that the caller names; nothing else is looked at then.

    Raises
    ------
    MarkushError
        It is nowhere; the message names each place and what to do.

    Examples
    --------
    >>> session_program("/bin/sh").name
    'sh'
    """
    return _find("markush-session", given, ("MARKUSH_SESSION",), "crates/markush_session/out/markush_session")


def program(given: Union[str, "os.PathLike[str]", None] = None) -> Path:
    """The path of the program of the command line, `markush`.

    Parameters
    ----------
    given : path or None
        A path that the caller names; nothing else is looked at then.

    Raises
    ------
    MarkushError
        It is nowhere; the message names each place and what to do.

    Examples
    --------
    >>> program("/bin/sh").name
    'sh'
    """
    return _find("markush", given, ("MARKUSH_PROGRAM", "MARKUSH"), "crates/markush/out/markush")


def session_command(given: Union[str, "os.PathLike[str]", None] = None) -> List[str]:
    """The words that start a session: the session program, or where there is none `markush` line by line.

    Parameters
    ----------
    given : path or None
        A session program that the caller names; nothing else is looked at then.

    Raises
    ------
    MarkushError
        Neither program is anywhere; the message names each place and what to do.

    Examples
    --------
    >>> session_command("/bin/sh") == [str(session_program("/bin/sh"))]
    True
    """
    try:
        return [str(session_program(given))]
    except MarkushError:
        if given is not None or os.environ.get("MARKUSH_SESSION"):
            raise
        try:
            return [sys.executable, "-I", str(_HERE / "scripted.py"), str(program())]
        except MarkushError as fault:
            raise fault from None


def engine(given: Union[str, "os.PathLike[str]", None] = None) -> Path:
    """The built program that decides what a session answers: the last of the words that start it.

    Parameters
    ----------
    given : path or None
        A session program that the caller names.

    Raises
    ------
    MarkushError
        Neither program is anywhere.

    Examples
    --------
    >>> engine("/bin/sh").name
    'sh'
    """
    return Path(session_command(given)[-1])


def _find(
    name: str, given: Union[str, "os.PathLike[str]", None], variables: Tuple[str, ...], built: str
) -> Path:
    if given is not None:
        return _runs(Path(given), "the path that was given")
    for variable in variables:
        value = os.environ.get(variable)
        if value:
            return _runs(Path(value), f"the environment variable {variable}")
    places: List[Path] = [folder / name for folder in _INSTALLED]
    for place in places:
        if _is_program(place):
            return place
    on_path = shutil.which(name)
    # the door of a checkout on the path builds before it answers, so the built file of that checkout goes first
    for top in _checkouts(on_path):
        places.append(top / built)
        if _is_program(top / built):
            return top / built
    if on_path:
        return Path(on_path).resolve()
    tried = ", ".join(str(place) for place in places)
    raise MarkushError(
        f"the program {name} wasn't found: not by the environment variable {' or '.join(variables)}, not on the path, "
        f"and not at {tried}. Install the package markush of your system, or build it in its checkout by bin/{name}, "
        f"or set {variables[0]} to its path"
    )


def _checkouts(on_path: Optional[str]) -> Iterator[Path]:
    """The folders above the package, the working folder and the command on the path that are checkouts."""
    starts = [_HERE, Path.cwd()] + ([Path(on_path).resolve().parent] if on_path else [])
    seen = set()
    for start in starts:
        for top in (start, *start.parents):
            if top not in seen and (top / "crates.txt").is_file():
                seen.add(top)
                yield top


def _is_program(path: Path) -> bool:
    return path.is_file() and os.access(path, os.X_OK)


def _runs(path: Path, whose: str) -> Path:
    if not _is_program(path):
        raise MarkushError(f"{path}, {whose}, is no program that this user may run")
    return path.resolve() if not path.is_symlink() else path.absolute()

"""The texts of many records, asked for at once."""
from __future__ import annotations

from typing import Dict, Sequence

from ..answers import read_shown
from ..library import Library

__all__ = ["texts_of"]

AT_ONCE = 100  # commands that are written at once


def texts_of(library: Library, numbers: Sequence[int]) -> Dict[int, bytes]:
    """The texts of records, by their numbers, without those that aren't held; they stay in the library's memory.

    Parameters
    ----------
    library : Library
        In the thread that drives it.
    numbers : sequence of int

    Examples
    --------
    >>> from markush import Library
    >>> with Library() as library:
    ...     loaded = library.load(EXAMPLES / "phenoxy_acids" / "compounds.sdf")
    ...     found = texts_of(library, [3, 34])
    ...     print(list(found), library[3].raw == found[3])
    [3] True
    """
    with library._session.lock:
        library._refresh()
        held = library._texts  # what is remembered; it is emptied where the store is opened again
        missing = [number for number in numbers if number not in held and library._holds(number)]
        for start in range(0, len(missing), AT_ONCE):
            library._refresh()
            some = missing[start : start + AT_ONCE]
            for number, frame in zip(some, library._session.ask_each([f"show {number}" for number in some])):
                if frame.how == "done":
                    held[number] = read_shown(frame.data).text
        return {number: held[number] for number in numbers if number in held}

"""Claims that are kept under watch: after an update each is searched again, and only what is new is told."""
from __future__ import annotations

from typing import Dict, Optional, Tuple

from .claim import Claim
from .hits import Changes, check_name
from .library import Library

__all__ = ["keep", "watch"]


def keep(library: Library, name: str, claim: Claim, per: str = "choice") -> int:
    """Put a claim under watch: it is searched, and the search saved under a name beside the store.

    Parameters
    ----------
    library : Library
        The library that is watched, which has a store to outlast the block.
    name : str
        1 to 64 letters, digits, dots, hyphens and underscores. A claim that has the name is replaced.
    claim : Claim
        What is searched for.
    per : {"choice", "record", "map"}
        What counts as one hit.

    Returns
    -------
    int
        How many hits there are.

    Raises
    ------
    ValueError
        It is no such name; or `per` is none of these.
    Refused
        The claim is refused.

    Examples
    --------
    >>> claim = Claim.read(EXAMPLES / "phenoxy_acids" / "claim.rgf")
    >>> with Library() as lib:
    ...     loaded = lib.load(EXAMPLES / "phenoxy_acids" / "compounds.sdf")
    ...     print(keep(lib, "acids", claim))
    11
    """
    check_name(name)
    with library.search(claim, per=per) as hits:
        count = sum(1 for _ in hits)
        hits.save(name)
    return count


def watch(library: Library, timeout: Optional[float] = None) -> "Dict[str, Changes]":
    """Search all claims that are kept, and tell what is new, by their names; those without anything new aren't there.

    A claim whose search is cut off is told the next time, with the others behind it.

    Parameters
    ----------
    library : Library
        The library that is watched.
    timeout : float or None
        In seconds, for each claim.

    Raises
    ------
    SearchTimeout
        A claim wasn't searched in time; those before it were, and are saved.

    Examples
    --------
    >>> claim = Claim.read(EXAMPLES / "phenoxy_acids" / "claim.rgf")
    >>> with Library() as lib:
    ...     count = keep(lib, "acids", claim)
    ...     loaded = lib.load(EXAMPLES / "phenoxy_acids" / "compounds.sdf")
    ...     print(len(watch(lib)["acids"].new), watch(lib))
    11 {}
    """
    found = {name: library.saved(name).again(timeout) for name in _kept(library)}
    return {name: changes for name, changes in found.items() if changes}


def _kept(library: Library) -> Tuple[str, ...]:
    return library.saved_searches()

"""One compound against many claims: which claims cover it, by which choice, or why not."""
from __future__ import annotations

import os
from dataclasses import dataclass
from typing import Any, Iterable, List, Mapping, Optional, Sequence, Union

from .claim import Claim
from .frames import pandas
from .hits import Hit
from .library import Library
from .molecules import is_mol
from .reasons import Reason

__all__ = ["covers", "cover_rows", "Cover"]

Compounds = Union[Library, str, "os.PathLike[str]", Sequence[Any]]
Claims = Union[Claim, Mapping[str, Claim], Iterable[Claim]]


@dataclass(frozen=True)
class Cover:
    """What a claim says of a compound.

    Attributes
    ----------
    record : int
        The compound's number.
    name : str
        Its name.
    claim : str
        What the claim is called.
    hit : Hit or None
        The first hit, if there is one.
    why : Reason or None
        Why there is none, where it was asked for.

    Examples
    --------
    >>> Cover(1, "phenol", "acids", None, None).words
    ''
    """

    record: int
    name: str
    claim: str
    hit: Optional[Hit]
    why: Optional[Reason]

    @property
    def words(self) -> str:
        """The choice in words, or why there is no hit."""
        return self.hit.words if self.hit is not None else str(self.why or "")


def cover_rows(compounds: Compounds, claims: Claims, why: bool = True, timeout: float = 2.0) -> List[Cover]:
    """Each compound against each claim, compound by compound.

    Parameters
    ----------
    compounds : Library, path, molecule of RDKit or sequence of them
        What `Library.load` takes, or a library.
    claims : Claim, iterable of Claim, or mapping of name to Claim
        Claims without a name are called by their titles.
    why : bool
        Whether it is asked why a compound isn't covered.
    timeout : float
        In seconds, for each such question.

    Raises
    ------
    Refused
        A claim or a compound is refused.

    Examples
    --------
    >>> acids = Claim.read(EXAMPLES / "phenoxy_acids" / "claim.rgf")
    >>> rows = cover_rows(EXAMPLES / "phenoxy_acids" / "compounds.sdf", [acids], why=False)
    >>> [row.name for row in rows if row.hit][:2]
    ['phenoxyacetic acid', '4-chlorophenoxyacetic acid']
    """
    if not isinstance(compounds, Library):
        with Library() as library:
            library.load([compounds] if is_mol(compounds) else compounds)
            return cover_rows(library, claims, why, timeout)
    if isinstance(claims, Claim):
        claims = [claims]
    named = claims.items() if isinstance(claims, Mapping) else [(_called(at, c), c) for at, c in enumerate(claims, 1)]
    found = {}
    order = []
    for called, claim in named:
        order.append((called, claim))
        for hit in compounds.search(claim, per="record"):
            found[called, hit.record] = hit
    rows = []
    for record in compounds:
        for called, claim in order:
            cover = found.get((called, record.number))
            reason = compounds.why_not(claim, record.number, timeout) if cover is None and why else None
            rows.append(Cover(record.number, record.name, called, cover, reason))
    return rows


def _called(number: int, claim: Claim) -> str:
    return claim.title or f"claim {number}"


def covers(compounds: Compounds, claims: Claims, why: bool = True, timeout: float = 2.0) -> Any:
    """Each compound against each claim, as a DataFrame of pandas.

    Parameters
    ----------
    compounds, claims, why, timeout
        As for `cover_rows`.

    Returns
    -------
    DataFrame
        A row for each compound and claim: `record`, `name`, `claim`, `hit` (bool), `choice` (in words), `why`.

    Raises
    ------
    Refused
        A claim or a compound is refused.
    MarkushError
        There is no pandas.

    Examples
    --------
    >>> acids = Claim.read(EXAMPLES / "phenoxy_acids" / "claim.rgf")
    >>> frame = covers(EXAMPLES / "phenoxy_acids" / "compounds.sdf", [acids], why=False)
    >>> int(frame["hit"].sum()), len(frame)
    (8, 33)
    """
    rows = cover_rows(compounds, claims, why, timeout)
    return pandas().DataFrame(
        {
            "record": [row.record for row in rows],
            "name": [row.name for row in rows],
            "claim": [row.claim for row in rows],
            "hit": [row.hit is not None for row in rows],
            "choice": [row.hit.words if row.hit is not None else None for row in rows],
            "why": [str(row.why) if row.why is not None else None for row in rows],
        }
    )

"""Hits and R-group tables as DataFrames of pandas, which is asked for only here."""
from __future__ import annotations

from typing import TYPE_CHECKING, Any, Dict, Iterable, List, Optional, Tuple

from .answers import read_refusal, read_table
from .claim import Claim
from .errors import MarkushError, SearchTimeout
from .library import KeptClaim
from .refusals import explained
from .rgfile import members_at
from .session import CutOff

if TYPE_CHECKING:
    from .hits import Hit
    from .library import Library

__all__ = ["hits_frame", "table_frame", "to_frame", "table_rows"]


def pandas() -> Any:
    """The module pandas, or an error that says what to install."""
    try:
        import pandas as found
    except ImportError:
        raise MarkushError("a DataFrame takes pandas: install python3-pandas, or go through the hits themselves") from None
    return found


def to_frame(hits: "Iterable[Hit]") -> Any:
    """Hits as a DataFrame, a row each.

    Parameters
    ----------
    hits : iterable of Hit
        Hits of one claim, or of several: a site's column is called by its label, so claims may share columns.

    Returns
    -------
    DataFrame
        `record`, `name`, `choice` (its numbers with blanks between), then a column for each slot that some choice decides,
        with the member's name or SMILES, and None where the choice doesn't come to it or leaves it unfilled.

    Raises
    ------
    MarkushError
        There is no pandas.

    Examples
    --------
    >>> claim = Claim.read(EXAMPLES / "phenoxy_acids" / "claim.rgf")
    >>> with Library() as lib:
    ...     loaded = lib.load(EXAMPLES / "phenoxy_acids" / "compounds.sdf")
    ...     print(list(to_frame(lib.search(claim, limit=1)).columns))
    ['record', 'name', 'choice', 'R1@12', 'R1@13', 'R2']
    """
    rows: List[Dict[str, Any]] = []
    for hit in hits:
        row: Dict[str, Any] = {"record": hit.record, "name": hit.name, "choice": " ".join(map(str, hit.choice))}
        row.update({name: part.name or None for name, part in hit.parts.items()})
        rows.append(row)
    columns = ["record", "name", "choice"]
    for row in rows:
        columns += [name for name in row if name not in columns]
    return pandas().DataFrame(rows, columns=columns)


def hits_frame(claim: Claim, hits: "Iterable[Hit]") -> Any:
    """Hits of one claim as a DataFrame; the columns of its root's sites are there without a hit too."""
    frame = to_frame(hits)
    if not len(frame):
        columns = ["record", "name", "choice"] + [claim.column(site.atom) for site in claim.sites]
        return pandas().DataFrame({column: [] for column in columns})
    return frame


def table_rows(library: "Library", claim: Claim, timeout: Optional[float] = None) -> List[Dict[str, Any]]:
    """The rows of the R-group table of a claim, as dicts: record, name, data items, then the sites.

    Raises
    ------
    SearchTimeout
        It isn't made within the seconds.

    Examples
    --------
    >>> claim = Claim.read(EXAMPLES / "phenoxy_acids" / "claim.rgf")
    >>> with Library() as lib:
    ...     loaded = lib.load(EXAMPLES / "phenoxy_acids" / "compounds.sdf")
    ...     print(table_rows(lib, claim)[2])
    {'record': 3, 'name': '2,4-D', 'formula': 'C8H6Cl2O3', 'R1@12': '*Cl', 'R1@13': None, 'R2': '*Cl'}
    """
    deadline = None if timeout is None else library._clock() + timeout
    kept = KeptClaim(library._dropped)
    with library._session.lock:
        try:
            command = f"table {library._keep(claim, kept)}"
            frame = library._session.ask(command, deadline)
            if frame.how != "done":
                raise explained(read_refusal(frame.data), command)
            answer = read_table(frame.data)
            texts = {number: library[number] for number, _ in answer.rows}
        except CutOff:
            raise SearchTimeout(f"the table wasn't made within {timeout:g} s; give it more, or search in its place") from None
        finally:
            kept.drop()
        library._settle()
    members = {site.atom: members_at(claim.query, site.groups) for site in claim.sites}
    rows = []
    for number, cells in answer.rows:
        record = texts[number]
        row: Dict[str, Any] = {"record": number, "name": record.name}
        row.update((item, value) for item, value in record.data.items() if item not in row)
        for atom, cell in zip(answer.sites, cells):
            label, place = members[atom][cell - 1][:2] if cell else (0, 0)
            row[claim.column(atom)] = claim.member_name(label, place) if cell else None
        rows.append(row)
    return rows


def table_columns_rows(
    library: "Library", claim: Claim, timeout: Optional[float] = None
) -> Tuple[List[str], List[Dict[str, Any]]]:
    """The columns of the R-group table of a claim, and its rows as dicts, some of whose data items may be missing.

    Raises
    ------
    SearchTimeout
        It isn't made within the seconds.

    Examples
    --------
    >>> claim = Claim.read(EXAMPLES / "phenoxy_acids" / "claim.rgf")
    >>> with Library() as lib:
    ...     table_columns_rows(lib, claim)
    (['record', 'name', 'R1@12', 'R1@13', 'R2'], [])
    """
    rows = table_rows(library, claim, timeout)
    sites = [claim.column(site.atom) for site in claim.sites]
    items: List[str] = []
    for row in rows:
        items += [name for name in row if name not in ("record", "name") and name not in sites and name not in items]
    return ["record", "name", *items, *sites], rows


def table_frame(library: "Library", claim: Claim, timeout: Optional[float] = None) -> Any:
    """The R-group table of a claim as a DataFrame (`Library.table`)."""
    columns, rows = table_columns_rows(library, claim, timeout)
    return pandas().DataFrame(rows, columns=columns)

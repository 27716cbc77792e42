"""markush from Python: claims (generic structures with R-groups), libraries of compounds, and the hits of one in the other.

A `Claim` is read from an RGfile, a molfile or a list of SMILES; a `Library` holds the records of SDfiles in a store, and
searches them; a `Hit` says where the claim lies in a record and by which choice. What is a hit the proved program decides.

Examples
--------
>>> claim = Claim.from_list("root c1ccccc1[1*]\\nR1 *Br")
>>> with Library() as lib:
...     loaded = lib.load(EXAMPLES / "phenoxy_acids" / "compounds.sdf")
...     print([hit.name for hit in lib.search(claim, per="record")])
['4-bromophenoxyacetic acid']
"""
from __future__ import annotations

from .claim import Claim, Structure
from .covers import Cover, cover_rows, covers
from .errors import (
    MarkushError,
    OutOfMemory,
    ProgramEnded,
    Refused,
    SearchTimeout,
    StoreBad,
    StoreBusy,
    StoreReopened,
)
from .hits import Changes, FoundHit, Hit, Hits, Part, SavedSearch
from .frames import to_frame
from .library import Library, Loaded, Record, Updated
from .reasons import Reason, why_not
from .scan import Scan, scan
from .watch import keep, watch

__version__ = "0.1.0"

__all__ = [
    "Claim",
    "Structure",
    "Library",
    "Record",
    "Loaded",
    "Updated",
    "Hit",
    "Part",
    "Hits",
    "SavedSearch",
    "FoundHit",
    "Changes",
    "to_frame",
    "Reason",
    "why_not",
    "Cover",
    "cover_rows",
    "covers",
    "keep",
    "watch",
    "Scan",
    "scan",
    "MarkushError",
    "Refused",
    "StoreBusy",
    "StoreBad",
    "OutOfMemory",
    "ProgramEnded",
    "SearchTimeout",
    "StoreReopened",
]

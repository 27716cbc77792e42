"""Hits to hand on: a table, an SDfile, and a page of hits and JSON that `markush-tools report` makes anew."""
from __future__ import annotations

import csv
import hashlib
import io
import re
from typing import Dict, Iterator, List, Sequence, Tuple

from ..answers import RawHit, decode
from ..claim import is_query_file
from ..errors import MarkushError
from ..hits import Hit
from ..library import Record
from ..records import gap_before_items, items_of
from .desk import Desk
from .searches import Search
from .server import Raw
from .tickets import Tell

__all__ = ["export", "quoted"]


def quoted(cell: str) -> str:
    """A cell of a table that no program of tables takes for a formula.

    Examples
    --------
    >>> quoted("=1+1"), quoted("-Cl"), quoted("methyl")
    ("'=1+1", "'-Cl", 'methyl')
    """
    return f"'{cell}" if cell.startswith(("=", "+", "-", "@", "\t", "\r", "\n")) else cell


def export(kind: str, search: Search, places: Sequence[int], desk: Desk, told: Tell) -> Raw:
    """What a search has found, as a file.

    Parameters
    ----------
    kind : str
        `csv`, `sdf`, `page` or `json` (with the account for `report`), `claim` (its RGfile) or `source` (the claim as it was
        pasted, which is what `report` takes).
    search : Search
    places : sequence of int
        Which of the records that are hit.
    desk : Desk
        Of the records and the verdicts.
    told : function
        Is told how far it is.

    Raises
    ------
    MarkushError
        A record was changed since it was found.
    """
    if kind == "claim":
        return Raw(search.claim.text.encode("utf-8", "surrogateescape"), "chemical/x-mdl-rgfile")
    if kind == "source":
        return Raw(_source(search), "text/plain; charset=utf-8")
    if kind == "csv":
        return Raw(_csv(search, places, desk, told).encode("utf-8"), "text/csv; charset=utf-8")
    if kind == "sdf":
        return Raw(b"".join(_sdf(search, places, desk)), "chemical/x-mdl-sdfile")
    if kind in ("page", "json"):
        return _with_account(kind, search, places, desk, told)
    raise MarkushError("hits are written as csv, sdf, page or json, and their claim as claim or source")


def file_name(name: str) -> str:
    """The name of a claim as that of a file; `bench.js` gives files the same.

    Examples
    --------
    >>> file_name("acids, 2/3")
    'acids_ 2_3'
    """
    return re.sub(r"[^\w .-]+", "_", name, flags=re.ASCII)


def _source(search: Search) -> bytes:
    """The claim as it was pasted. A list has names of members, which its RGfile hasn't."""
    return search.version.source.encode("utf-8")


def _texts(search: Search, places: Sequence[int], desk: Desk) -> Iterator[Tuple[int, bytes]]:
    """Places, each with the text of its record, which is still the one that was hit."""
    records = desk.records([search.records[at] for at in places])
    for at in places:
        record = next(records, None)
        if record is None or record.number != search.records[at] or record.sha256 != search.shas[at]:
            raise MarkushError(f"record {search.records[at]} was changed since it was found; search again")
        yield at, record.raw


def _hits(search: Search, at: int, text: bytes) -> Iterator[Hit]:
    """The first hit by each choice of a record."""
    for choice, maps in search.hits_of(at):
        yield Hit(search.records[at], choice, maps[0], search.claim, text)


def _csv(search: Search, places: Sequence[int], desk: Desk, told: Tell) -> str:
    from ..tools.find import cells, columns

    sites = columns([search.claim])
    items: Dict[str, None] = {}
    rows: List[Tuple[List[str], Dict[str, str], Dict[str, str]]] = []
    for count, (at, text) in enumerate(_texts(search, places, desk)):
        if count % 500 == 0:
            told(f"{count:,} of {len(places):,} written")
        data = items_of(decode(text).split("\n"))
        items.update(dict.fromkeys(data))
        verdict, note = desk.verdicts.get(search.shas[at], ("open", ""))
        for hit in _hits(search, at, text):
            front = [str(hit.record), hit.name, verdict, note, " ".join(map(str, hit.choice))]
            rows.append((front, cells(search.claim, hit.choice), data))
    out = io.StringIO()
    table = csv.writer(out, lineterminator="\n")
    table.writerow([quoted(cell) for cell in ["record", "name", "verdict", "note", "choice", *sites, *items]])
    for front, held, data in rows:
        cells_of = [*front, *(held.get(site, "") for site in sites), *(data.get(item, "") for item in items)]
        table.writerow([quoted(cell) for cell in cells_of])
    return out.getvalue()


def _sdf(search: Search, places: Sequence[int], desk: Desk) -> Iterator[bytes]:
    for at, text in _texts(search, places, desk):
        verdict, note = desk.verdicts.get(search.shas[at], ("open", ""))
        more = [("markush record", str(search.records[at])), ("markush verdict", verdict), ("markush note", _line(note))]
        choices = "\n".join(search.choices.written[place] for place in search.held[at][::2])
        more.append(("markush choices", choices))
        yield text + gap_before_items(decode(text)).encode() + b"".join(f"> <{name}>\n{value}\n\n".encode() for name, value in more if value) + b"$$$$\n"


def _line(value: str) -> str:
    """A value as one line that neither ends an item nor a record."""
    found = " ".join(value.split())
    return f" {found}" if found.startswith((">", "$")) else found


def _with_account(kind: str, search: Search, places: Sequence[int], desk: Desk, told: Tell) -> Raw:
    from ..page import Made, Source, write_page
    from ..tools.account import Named, account_of
    from ..tools.find import Found, with_account, write_json

    chosen = set(places)
    digest, found = hashlib.sha256(), {search.records[at]: at for at in places}
    records: List[Record] = []
    numbers, store = list(desk.library()._numbers), str(desk.store) if desk.store is not None else ""
    for count, record in enumerate(desk.records(numbers)):
        if count % 500 == 0:
            told(f"{count:,} of {len(numbers):,} records read")
        digest.update(b"%d\n" % record.number + record.raw)
        records.append(record)
    for _ in _texts(search, places, desk):
        pass
    raws = [RawHit(search.records[at], choice, each) for at in places for choice, maps in search.hits_of(at) for each in maps]
    ending = "rgf" if is_query_file(search.version.source) else "txt"
    named = Named(f"{file_name(search.version.name)}.{ending}", hashlib.sha256(_source(search)).hexdigest())
    compounds = desk.source or Named(store or "the records", digest.hexdigest())
    limits = [] if search.state == "ended" else [f"the search was stopped after {search.done:,} of {search.of:,} records"]
    if len(chosen) < len(search.records):
        limits.append(f"{len(chosen):,} of {len(search.records):,} records that are hit were chosen")
    by_choice = [hit for at in places for hit in _hits(search, at, b"")]
    title = f"{search.version.name}, version {search.version.number}"
    # reasons, which `find` asks for where it makes a page, would take a while of each record
    words = ["find", named.name, compounds.name, *(["--why", "0", f"--title={title}"] if kind == "page" else [])]
    account = account_of(words, [named], [compounds], searched=len(records), refused=0, hits=len(by_choice), limits=limits)
    if kind == "json":
        texts = {record.number: record.raw for record in records}
        listed = Found([search.claim], [(0, Hit(hit.record, hit.choice, hit.map, hit.claim, texts[hit.record])) for hit in by_choice])
        out = io.StringIO()
        write_json(out, listed, account)
        return Raw(out.getvalue().encode("utf-8"), "application/json")
    made = Made(
        program=f"sha256 {account.program}", package=account.package, date=account.date, claim=Source(named.name, named.sha256),
        compounds=(Source(compounds.name, compounds.sha256),),
    )
    page = io.StringIO()
    told("the page is written")
    # records that are hit and weren't chosen don't stand among those that are no hits
    hidden = set(search.records) - set(found)
    kept = [record for record in records if record.number not in hidden]
    write_page(page, search.claim, raws, kept, limits=limits, title=title, made=made)
    return Raw(with_account(page.getvalue(), account).encode("utf-8", "replace"), "text/html; charset=utf-8")

"""Write a page of hits: one HTML file that a browser opens, with no server and no network.

The answers stand on standard input: lines of the program, of `match`, `search` or `resume`; those that are no hits are
left out. CLAIM is the query file, and FILE the SDfile whose first record has the number N of --first, which is 1; with
--store it is the store that was searched. `find --out hits.html` does all in one.
"""
from __future__ import annotations

import argparse
import io
import os
import re
from dataclasses import dataclass
from typing import Any, Dict, Iterable, List, Mapping, Tuple

from .account import account_of, named
from .common import HITS, NONE, Fault, counting, open_bytes, text_of, written
from .find import how_many, with_account

HIT = re.compile(r"hit (\d+) choice((?: \d+)*) map((?: \d+)*)")


def add_words(parser: argparse.ArgumentParser) -> None:
    """The words of the tool."""
    parser.add_argument("claim", metavar="CLAIM", help="the query file, or the list that it was drawn of")
    parser.add_argument("file", nargs="?", metavar="FILE", help="the SDfile of the records")
    parser.add_argument("--store", metavar="FILE", help="the store of the records")
    parser.add_argument("--first", type=counting, default=1, metavar="N", help="the number of the SDfile's first record")
    parser.add_argument("--name", default="", metavar="ITEM", help="the data item that names a compound")
    parser.add_argument("--data", action="append", default=[], metavar="ITEM", help="a data item that cards show")
    parser.add_argument("--title", metavar="TEXT", help="the page's title; the claim's where none is given")
    parser.add_argument("--why", type=how_many, default=200, metavar="N", help="say of so many that aren't hit why (200); or all")
    parser.add_argument("--out", metavar="FILE", help="the file that is written; standard output without it")


def takes_rdkit(args: argparse.Namespace) -> bool:
    """Whether the claim has to be drawn."""
    from .find import _is_list

    return _is_list(args.claim)


@dataclass(frozen=True)
class RawHit:
    """A line of hits.

    Examples
    --------
    >>> RawHit(1, (2,), (3, 4)).map
    (3, 4)
    """

    record: int
    choice: Tuple[int, ...]
    map: Tuple[int, ...]


@dataclass(frozen=True)
class Numbered:
    """A record by the number that the answers give it.

    Examples
    --------
    >>> Numbered(7, "phenol", {}, "").name
    'phenol'
    """

    number: int
    name: str
    data: Mapping[str, str]
    text: str


def hits_of(lines: Iterable[str]) -> Tuple[List[RawHit], List[str]]:
    """The hits among answers, and what cut them.

    Examples
    --------
    >>> hits_of(["loaded 1 first 1", "hit 1 choice 2 map 3 4", "more 1"])
    ([RawHit(record=1, choice=(2,), map=(3, 4))], ['the answers end with more 1: hits behind it may be missing'])
    """
    hits, last = [], ""
    for line in lines:
        found = HIT.fullmatch(line)
        if found:
            choice, atoms = (tuple(map(int, found[at].split())) for at in (2, 3))
            hits.append(RawHit(int(found[1]), choice, atoms))
        if found or line == "end" or re.match(r"(more|paused) \d", line):
            last = line
    cut = [] if last == "end" or not last else [f"the answers end with {last}: hits behind it may be missing"]
    return hits, cut


def _records(args: argparse.Namespace) -> List[Any]:
    if args.store is not None:
        if not os.path.isfile(args.store):
            raise Fault(f"{args.store}: there is no such store")
        from ..library import Library

        with Library(args.store) as library:
            return list(library)
    from ..records import read_records

    return [
        Numbered(record.number + args.first - 1, record.name, record.data, record.text) for record in read_records(args.file)
    ]


def _reasons(claim: Any, hits: List[RawHit], records: List[Any], most: int) -> Dict[int, str]:
    hit_records = {hit.record for hit in hits}
    others = [record for record in records if record.number not in hit_records][:most]
    from ..reasons import why_not_each

    return {number: str(reason) for number, reason in why_not_each(claim, others).items()}


def run(args: argparse.Namespace) -> int:
    """Write the page."""
    if (args.file is None) == (args.store is None):
        raise Fault("the records are those of one SDfile, or of one store by --store")
    from ..claim import Claim
    from ..page import Made, Source, write_page

    claim = Claim.read(args.claim)
    with open_bytes("-") as answers:
        hits, limits = hits_of(text_of(answers.read()).splitlines())
    records = _records(args)
    given = args.file if args.store is None else args.store
    held, compounds = named(args.claim), named(given)
    account = account_of(
        args.words, [held], [compounds], searched=len(records), refused=0, hits=len(hits), limits=limits
    )
    made = Made(
        program=f"sha256 {account.program}",
        package=account.package,
        date=account.date,
        claim=Source(held.name, held.sha256),
        compounds=(Source(compounds.name, compounds.sha256),),
    )
    page = io.StringIO()
    write_page(
        page,
        claim,
        hits,
        records,
        limits=limits,
        reasons=_reasons(claim, hits, records, args.why),
        title=args.title,
        name=args.name,
        data=args.data,
        made=made,
    )
    with written(args.out) as out:
        out.write(with_account(page.getvalue(), account))
    return HITS if hits else NONE

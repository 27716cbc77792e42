"""Keep claims under watch in a store: after an update each is searched again, and only what is new is told.

    watch STORE --keep NAME CLAIM              the claim is kept under the name, and its hits are counted
    watch STORE --update FILE --key ITEM       the records of the file are taken in by a data item, and what is new is told
    watch STORE --update FILE --by-name        the same by the records' names
    watch STORE                                what is new since the last time

A line for each hit has the claim's name, `new`, `lost` or `changed`, the record's number, its name and the choice, with
tabs between. A record that isn't held any more has no name. The status is 0 where something is new and 1 where nothing is.
"""
from __future__ import annotations

import argparse
import os

from .common import HITS, NONE, SOME_REFUSED, Compounds, Fault, left_of, takes_rdkit_for, tell
from .find import _is_list


def add_words(parser: argparse.ArgumentParser) -> None:
    """The words of the tool."""
    parser.add_argument("store", metavar="STORE", help="the store; it is made where it isn't there and a file is taken in")
    parser.add_argument("--keep", nargs=2, action="append", default=[], metavar=("NAME", "CLAIM"), help="keep a claim under a name")
    parser.add_argument("--update", metavar="FILE", help="take in the records of a file: those that are new, and those that changed")
    by = parser.add_mutually_exclusive_group()
    by.add_argument("--key", default="ID", metavar="ITEM", help="the data item by which records are the same; ID where nothing is said")
    by.add_argument("--by-name", dest="key", action="store_const", const=None, help="records of one name are the same")
    parser.add_argument("--missing", choices=("keep", "remove"), default="keep", help="what becomes of records that the file hasn't")


def takes_rdkit(args: argparse.Namespace) -> bool:
    """Whether something has to be drawn."""
    return any(_is_list(claim) for _, claim in args.keep) or (args.update is not None and takes_rdkit_for([args.update]))


def run(args: argparse.Namespace) -> int:
    """Take in, search, and tell."""
    from ..claim import Claim
    from ..hits import check_name
    from ..library import Library
    from ..watch import keep, watch

    if args.update is None and not os.path.isfile(args.store):
        raise Fault(f"{args.store}: there is no such store; --update FILE makes it")
    for name, _ in args.keep:
        try:
            check_name(name)
        except ValueError as fault:
            raise Fault(f"--keep {name}: {fault}") from None
    claims = [(name, Claim.read(path)) for name, path in args.keep]
    left = []
    with Library(args.store) as library:
        if args.update is not None:
            with Compounds([args.update]) as compounds:
                left += compounds.left
                for source in compounds.sources:
                    updated = library.update(source.path, key=args.key, missing=args.missing)
                    left += [left_of(fault, source) for fault in updated.refused]
                    print(
                        f"{source.name}: {len(updated.added)} added, {len(updated.replaced)} replaced, {len(updated.same)} the same, "
                        f"{len(updated.missing)} missing, {len(updated.refused)} refused"
                    )
        changes = watch(library)
        for name, change in changes.items():
            for kind, hits in (("new", change.new), ("changed", change.changed)):
                for hit in hits:
                    print(name, kind, hit.record, hit.name, " ".join(map(str, hit.choice)), sep="\t")
            for lost in change.lost:
                called = library[lost.record].name if lost.record in library else ""
                print(name, "lost", lost.record, called, " ".join(map(str, lost.choice)), sep="\t")
        for name, claim in claims:
            print(f"{name}: {keep(library, name, claim)} hits")
    tell(left)
    return SOME_REFUSED if left else HITS if changes or claims else NONE

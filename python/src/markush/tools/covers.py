"""Look at compounds beside many claims: which of them cover each, by which choice, or why not.

A line for each compound and claim has the record's number, its name, the claim's file, `hit` or nothing, and the choice
in words or the reason, with tabs between. The account comes first, in lines that begin with `# `: by what, when
and of which files this was made.
"""
from __future__ import annotations

import argparse

from .account import account_of, named
from .common import HITS, NONE, SOME_REFUSED, needs_folder, seconds, takes_rdkit_for, tell, written
from .find import _is_list
from .held import held


def add_words(parser: argparse.ArgumentParser) -> None:
    """The words of the tool."""
    parser.add_argument("compounds", metavar="COMPOUNDS", help="an SDfile, a list of SMILES, or a store")
    parser.add_argument("claims", nargs="+", metavar="CLAIM", help="an RGfile, a molfile or a list")
    parser.add_argument("--no-why", dest="why", action="store_false", help="don't say why a compound isn't covered")
    parser.add_argument("--timeout", type=seconds, default=2.0, metavar="SECONDS", help="for each such question; 2 where nothing is said")
    parser.add_argument("--out", metavar="FILE", help="the file that is written; standard output without it")


def takes_rdkit(args: argparse.Namespace) -> bool:
    """Whether something has to be drawn."""
    return takes_rdkit_for([args.compounds]) or any(_is_list(claim) for claim in args.claims)


def run(args: argparse.Namespace) -> int:
    """Write the lines."""
    from ..claim import Claim
    from ..covers import cover_rows

    if args.out:
        needs_folder(args.out)
    claims = {path: Claim.read(path) for path in args.claims}
    with held([args.compounds]) as records:
        rows = cover_rows(records.library, claims, args.why, args.timeout)
        late = sum(row.why is not None and row.why.kind == "time" for row in rows)
        account = account_of(
            args.words,
            [named(path) for path in args.claims],
            records.named,
            searched=len(records.library),
            refused=len(records.left),
            hits=sum(row.hit is not None for row in rows),
            limits=[f"{late} not told in {args.timeout:g} s"] if late else [],
        )
    with written(args.out) as out:
        out.write(account.lines())
        print("record", "name", "claim", "hit", "words", sep="\t", file=out)
        for row in rows:
            print(row.record, row.name, row.claim, "hit" if row.hit is not None else "", row.words, sep="\t", file=out)
    tell(records.left)
    return SOME_REFUSED if records.left else HITS if account.hits else NONE

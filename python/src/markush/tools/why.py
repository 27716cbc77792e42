"""Say of each compound that isn't a hit which single demand of the claim keeps it from being one.

A line for each compound has its number, its name and the reason, with tabs between; of a hit it says so. The account
comes first, in lines that begin with `# `: by what, when and of which files this was made.
"""
from __future__ import annotations

import argparse

from .account import account_of, named
from .common import HITS, NONE, SOME_REFUSED, Fault, counting, needs_folder, seconds, takes_rdkit_for, tell, written
from .held import held


def add_words(parser: argparse.ArgumentParser) -> None:
    """The words of the tool."""
    parser.add_argument("claim", metavar="CLAIM", help="an RGfile, a molfile or a list")
    parser.add_argument("compounds", nargs="+", metavar="COMPOUNDS", help="SDfiles, lists of SMILES, or one store")
    parser.add_argument("--record", type=counting, action="append", default=[], metavar="N", help="of this record alone")
    parser.add_argument("--timeout", type=seconds, default=2.0, metavar="SECONDS", help="for each compound; 2 where nothing is said")
    parser.add_argument("--out", metavar="FILE", help="the file that is written; standard output without it")


def takes_rdkit(args: argparse.Namespace) -> bool:
    """Whether something has to be drawn."""
    from .find import _is_list

    return takes_rdkit_for(args.compounds) or _is_list(args.claim)


def run(args: argparse.Namespace) -> int:
    """Say why."""
    from ..claim import Claim

    if args.out:
        needs_folder(args.out)
    claim = Claim.read(args.claim)
    lines, late = [], 0
    with held(args.compounds) as records:
        library = records.library
        hits = {hit.record for hit in library.search(claim, per="record")}
        for number in args.record or library.numbers:
            if number not in library:
                raise Fault(f"there is no record {number}")
            said = "it is a hit"
            if number not in hits:
                reason = library.why_not(claim, number, args.timeout)
                said, late = str(reason), late + (reason.kind == "time")
            lines.append(f"{number}\t{library[number].name}\t{said}\n")
        account = account_of(
            args.words,
            [named(args.claim)],
            records.named,
            searched=len(library),
            refused=len(records.left),
            hits=len(hits),
            limits=[f"{late} not told in {args.timeout:g} s"] if late else [],
        )
    with written(args.out) as out:
        out.write(account.lines())
        out.writelines(lines)
    tell(records.left)
    return SOME_REFUSED if records.left else HITS if hits else NONE

"""Search files of any size for a claim, block by block, and write the hits as they are found.

FILES are SDfiles, packed by gzip or xz or not; - is standard input. Hits stand in the order of the files, with tabs: the
record's number over all files, its name, the choice, and a column for each site. After them comes the account, in lines
that begin with `# `: by what, when and of which files they were found, and how many records were searched and refused.
Records that are refused are named on standard error and passed over.
"""
from __future__ import annotations

import argparse
import concurrent.futures
import csv

from .account import Named, account_of, named
from .common import HITS, NONE, SOME_REFUSED, Compounds, counting, left_of, needs_folder, takes_rdkit_for, tell, written
from .find import _is_list, cells, columns


def add_words(parser: argparse.ArgumentParser) -> None:
    """The words of the tool."""
    parser.add_argument("claim", metavar="CLAIM", help="an RGfile, a molfile or a list")
    parser.add_argument("files", nargs="+", metavar="FILE", help="an SDfile")
    parser.add_argument("--jobs", type=counting, metavar="N", help="so many blocks at a time; as many as there are processors")
    parser.add_argument("--count", action="store_true", help="write how many records and hits there are, and no hit")
    parser.add_argument("--out", metavar="FILE", help="the file that is written; standard output without it")


def takes_rdkit(args: argparse.Namespace) -> bool:
    """Whether something has to be drawn."""
    return takes_rdkit_for(args.files) or _is_list(args.claim)


def run(args: argparse.Namespace) -> int:
    """Search, and write each hit."""
    from ..claim import Claim
    from ..scan import scan

    claim = Claim.read(args.claim)
    names = columns([claim])
    count = 0
    if args.out:
        needs_folder(args.out)
    with Compounds(args.files) as compounds, written(args.out) as out, concurrent.futures.ThreadPoolExecutor(args.jobs) as pool:
        table = csv.writer(out, delimiter="\t", lineterminator="\n")
        if not args.count:
            table.writerow(["record", "name", "choice", *names])
        with scan([source.path for source in compounds.sources], claim, executor=pool) as hits:
            for hit in hits:
                count += 1
                if not args.count:
                    held = cells(claim, hit.choice)
                    choice = " ".join(map(str, hit.choice))
                    table.writerow([hit.record, hit.name, choice, *(held.get(name, "") for name in names)])
            left = [*compounds.left, *map(left_of, hits.refused)]
            records = hits.records
            searched = records - len(hits.refused)
        if args.count:
            out.write(f"{records} records, {count} hits, {len(left)} refused\n")
        else:
            files = [Named(source.name, source.sha256) for source in compounds.sources]
            account = account_of(args.words, [named(args.claim)], files, searched=searched, refused=len(left), hits=count)
            out.write(account.lines())
    tell(left)
    return SOME_REFUSED if left else HITS if count else NONE

"""Draw a list by RDKit: that of a claim as an RGfile, or that of compounds as an SDfile.

The list of a claim has lines as `root c1ccccc1[1*]`, `R1 *Cl`, `logic R1 >0`; one of compounds has a SMILES in each
line, perhaps a tab and a name, and behind a second tab the formula, which is compared. A line that can't be drawn is
named on standard error: of a claim nothing is written then, of compounds the others.
"""
from __future__ import annotations

import argparse
from pathlib import Path

from ..claim import is_query_file
from ..errors import Refused
from .common import FAULT, HITS, SOME_REFUSED, Fault, Left, drawn_smiles, open_bytes, tell, text_of, written

WORDS = ("title", "root", "logic", "closed", "include")


def add_words(parser: argparse.ArgumentParser) -> None:
    """The words of the tool."""
    parser.add_argument("list", metavar="LIST", help="the list; - is standard input")
    parser.add_argument("--out", metavar="FILE", help="the file that is written; standard output without it")


def takes_rdkit(_: argparse.Namespace) -> bool:
    """RDKit draws."""
    return True


def is_of_claim(text: str) -> bool:
    """Whether the first line that says something has a word of a claim's list in front.

    Examples
    --------
    >>> is_of_claim("# mine\\ntitle ethers"), is_of_claim("R1 *Cl"), is_of_claim("CCO\\tethanol")
    (True, True, False)
    """
    for line in text.splitlines():
        words = line.split()
        if words and not words[0].startswith("#"):
            return words[0] in WORDS or (words[0][0] == "R" and words[0][1:].isdigit())
    return False


def run(args: argparse.Namespace) -> int:
    """Draw the list."""
    with open_bytes(args.list) as file:
        data = file.read()
    if is_query_file(text_of(data).replace("\r\n", "\n")):
        raise Fault(f"{args.list} is no list: it is drawn already, so it goes to `find` as it is")
    if is_of_claim(text_of(data)):
        from ..claim_list import read_claim_list

        name, folder = ("", None) if args.list == "-" else (args.list, Path(args.list).resolve().parent)
        try:
            claim = read_claim_list(text_of(data), folder, name)
        except Refused as fault:
            raise Fault(f"{name}: {fault}" if name else str(fault)) from None
        with written(args.out) as out:
            out.write(claim.rgfile if claim.rgfile.endswith("\n") else claim.rgfile + "\n")
        return HITS
    count, left = 0, []
    with written(args.out) as out:
        for drawn in drawn_smiles(iter(data.splitlines(keepends=True))):
            if drawn.text is None:
                left.append(Left(args.list, drawn.name, drawn.why, line=drawn.line))
            else:
                out.write(drawn.text)
                count += 1
    tell(left)
    if left:
        return SOME_REFUSED if count else FAULT
    return HITS

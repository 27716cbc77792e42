"""Write the structures that a claim stands for as SMILES, by RDKit.

With a CLAIM, an RGfile or a list, it asks the program for them, page by page. With no words it reads the answer of
`enum` on standard input. Each line has SMILES, a tab and the choice. What a structure asks of an atom beside element,
charge and radical isn't said; a structure with lists, A, Q or * has SMARTS in place of SMILES.
"""
from __future__ import annotations

import argparse
import re
import sys
from itertools import islice
from typing import Iterable, Iterator, List

from .common import HITS, NONE, Fault, open_bytes, text_of, whole


def add_words(parser: argparse.ArgumentParser) -> None:
    """The words of the tool."""
    parser.add_argument("claim", nargs="?", metavar="CLAIM", help="an RGfile, a molfile or a list")
    parser.add_argument("--limit", type=whole, metavar="N", help="so many structures at the most")
    parser.add_argument("--start", metavar="P", help="begin with the first choice that isn't below P, as 1,0")
    parser.add_argument("--sdf", action="store_true", help="write them as the program does, as an SDfile, which takes no RDKit")


def takes_rdkit(args: argparse.Namespace) -> bool:
    """Whether SMILES are written, or the claim has to be drawn."""
    from .find import _is_list

    return not args.sdf or (args.claim is not None and _is_list(args.claim))


def blocks(lines: Iterable[str]) -> Iterator[List[str]]:
    """The records of an answer of `enum`: the lines from `choice ..` to that before the separator.

    Raises
    ------
    Fault
        The answers end within one.

    Examples
    --------
    >>> list(blocks(["kept q", "choice 1", "", "M  END", "$$$$", "end"]))
    [['choice 1', '', 'M  END']]
    """
    block: List[str] = []
    for line in lines:
        if line == "choice" or line.startswith("choice "):
            block = [line]
        elif line == "$$$$" and block:
            yield block
            block = []
        elif block:
            block.append(line)
    if block:
        raise Fault(f"the answers end within the structure of '{block[0]}': were they cut off?")


def padded(line: str) -> str:
    """A line `M  ALS` whose entries have four columns each, as other tools read them.

    Examples
    --------
    >>> padded("M  ALS   1  2 F N   O")
    'M  ALS   1  2 F N   O   '
    """
    return line.ljust(16 + 4 * int(line[10:13])) if line.startswith("M  ALS") else line


def spelt(block: List[str]) -> str:
    """A structure as SMILES, or as SMARTS where it has lists, A, Q or *.

    Raises
    ------
    Fault
        It is no table, or RDKit doesn't read it.

    Examples
    --------
    >>> from .structures import spelt
    >>> atom = "    0.0000    0.0000    0.0000 {} 0  0  0  0  0  0"
    >>> spelt(["choice 1", "", "", "  1  0  0  0  0  0            999 V2000", atom.format("C  "), "M  END"])
    'C'
    """
    from rdkit import Chem, RDLogger

    RDLogger.DisableLog("rdApp.*")
    lines = list(block)
    counts = lines[3][:3] if len(lines) > 3 else ""
    if not re.fullmatch(r" *[0-9]{1,3}", counts):
        raise Fault(f"the structure of '{block[0]}' has no counts line, so it isn't as `enum` wrote it")
    atoms = int(counts)
    symbols = [line[31:34].strip() for line in lines[4 : 4 + atoms]]
    # RDKit takes the hydrogen column for all the hydrogens of an atom
    lines[4 : 4 + atoms] = [line[:42] + "  0" + line[45:] for line in lines[4 : 4 + atoms]]
    kept = [padded(line) for line in lines if not line.startswith(("M  RBC", "M  SUB", "M  UNS"))]
    mol = Chem.MolFromMolBlock("\n".join(kept) + "\n", removeHs=False)
    if mol is None:
        raise Fault(f"RDKit doesn't read the structure of '{block[0]}'")
    is_query = any(symbol in ("L", "A", "Q", "*") for symbol in symbols)
    said = Chem.MolToSmarts(mol) if is_query else Chem.MolToSmiles(Chem.RemoveHs(mol))
    return str(said)


def run(args: argparse.Namespace) -> int:
    """Write a line for each structure."""
    if args.claim is None:
        with open_bytes("-") as answer:
            found = blocks(text_of(answer.read()).splitlines())
    else:
        from ..claim import Claim

        if args.start is not None and not re.fullmatch(r"\d+(,\d+)*", args.start):
            raise Fault(f"--start {args.start} is no place: it is numbers with commas between them, as 1,0")
        structures = Claim.read(args.claim).structures(args.start)
        found = (structure.text.splitlines() for structure in structures)
    count = 0
    for block in islice(found, args.limit):
        count += 1
        if args.sdf:
            sys.stdout.write("\n".join([*block, "$$$$", ""]))
        else:
            print(spelt(block), block[0], sep="\t")
    return HITS if count else NONE

"""Molfiles for other tools: blocks that RDKit reads, SMILES out of structures, and records out of SMILES.

The program writes an `M  ALS` line without the blanks at its end, which RDKit refuses ("Atom list line too short"). Such lines are mended
here before RDKit sees them.
"""
from __future__ import annotations

import re
from typing import Any

from .errors import Refused
from .molecules import rdkit

__all__ = ["is_query_block", "mend_lists", "mol_of_block", "record_of_smiles", "structure_smiles"]

QUERY_SYMBOLS = frozenset({"L", "A", "Q", "*"})
ASKS = ("M  RBC", "M  SUB", "M  UNS")


def mend_lists(block: str) -> str:
    """A molfile whose `M  ALS` lines are as long as their counts say, with four columns for each entry.

    >>> mend_lists("M  ALS   1  2 F N   S\\nM  END\\n")
    'M  ALS   1  2 F N   S   \\nM  END\\n'
    """
    return "\n".join(_padded(line) if line.startswith("M  ALS") else line for line in block.split("\n"))


def _padded(line: str) -> str:
    count = line[10:13].strip()
    return line.rstrip("\r").ljust(16 + 4 * int(count)) if count.isdigit() else line


def is_query_block(block: str) -> bool:
    """Whether a molfile has atoms that no molecule has: lists, `A`, `Q` or `*`."""
    lines = block.split("\n")
    return any(line[31:34].strip() in QUERY_SYMBOLS for line in _atom_lines(lines))


def _atom_lines(lines: list[str]) -> list[str]:
    counts = lines[3] if len(lines) > 3 else ""
    count = counts[:3].strip()
    return lines[4 : 4 + int(count)] if count.isdigit() and counts[33:39].strip() != "V3000" else []


def mol_of_block(block: str, sanitize: bool = True) -> Any:
    """RDKit's molecule of a molfile of V2000 or V3000, lists mended, with the hydrogens that are drawn.

    Raises
    ------
    Refused : RDKit doesn't read it; the message has RDKit's words.
    MarkushError : there is no RDKit.
    """
    chem = rdkit("a molecule out of a molfile")
    from rdkit import rdBase

    try:
        with rdBase.BlockLogs():
            mol = chem.MolFromMolBlock(mend_lists(block), sanitize=sanitize, removeHs=False)
    except (RuntimeError, ValueError) as fault:
        raise Refused(f"RDKit doesn't read {block.split(chr(10), 1)[0].strip() or 'the block'!r}: {fault}") from None
    if mol is None:
        raise Refused(f"RDKit doesn't read {block.split(chr(10), 1)[0].strip() or 'the block'!r}")
    return mol


def structure_smiles(block: str) -> str:
    """The SMILES of a structure as the program's `enum` writes it; SMARTS where it has a list, `A`, `Q` or `*`.

    What a structure asks of an atom beside element, charge and radical isn't said: hydrogens, neighbours, ring bonds.

    Raises
    ------
    Refused : RDKit doesn't read it.
    MarkushError : there is no RDKit.
    """
    chem = rdkit("SMILES of structures")
    lines = [line for line in block.split("\n") if not line.startswith(ASKS)]
    count = len(_atom_lines(lines))
    # RDKit would take the hydrogen column for all the hydrogens of the atom
    lines[4 : 4 + count] = [line[:42] + "  0" + line[45:] for line in lines[4 : 4 + count]]
    mol = mol_of_block("\n".join(lines))
    return str(chem.MolToSmarts(mol) if is_query_block(block) else chem.MolToSmiles(chem.RemoveHs(mol)))


def record_of_smiles(smiles: str, name: str) -> tuple[str | None, str | None]:
    """The text of a record that RDKit draws of a SMILES, with its separator; or None, and why there is none.

    Raises
    ------
    MarkushError : there is no RDKit.
    """
    chem = rdkit("a list of SMILES")
    from rdkit import rdBase
    from rdkit.Chem import rdDepictor

    with rdBase.BlockLogs():
        mol = chem.MolFromSmiles(smiles)
    if mol is None:
        return None, f"RDKit doesn't read the SMILES {smiles}"
    rdDepictor.Compute2DCoords(mol)
    mol.SetProp("_Name", name)
    return chem.MolToMolBlock(mol) + "$$$$\n", None


def block_of_structure(text: str) -> str:
    """The molfile of a record's text: its lines up to `M  END`."""
    found = re.search(r"^M  END[^\n]*\n?", text, re.M)
    return text[: found.end()] if found else text

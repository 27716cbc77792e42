"""Molecules by RDKit, which is asked for only here and in what draws: records as molecules, molecules as records."""
from __future__ import annotations

import re
import shutil
import subprocess
from typing import Any, Iterable, Sequence

from .answers import decode
from .errors import MarkushError, Refused

__all__ = ["to_mol", "to_inchikeys", "atom_count", "is_mol", "write_mols"]


def rdkit(what: str) -> Any:
    """RDKit's module Chem, or an error that says what to install."""
    try:
        from rdkit import Chem
    except ImportError:
        raise MarkushError(
            f"{what} takes RDKit, which this Python doesn't have: install python3-rdkit for /usr/bin/python3, or the package "
            f"rdkit for this one"
        ) from None
    return Chem


def to_mol(text: bytes, name: str) -> Any:
    """A record as a molecule of RDKit, with its data items as properties; hydrogens that are drawn are kept.

    Raises
    ------
    Refused
        RDKit can't read it.
    MarkushError
        There is no RDKit.

    Examples
    --------
    >>> to_mol((EXAMPLES / "phenoxy_acids" / "compounds.sdf").read_bytes().split(b"$$$$")[0], "first").GetNumAtoms()
    11
    """
    chem = rdkit("a molecule")
    supplier = chem.SDMolSupplier()
    supplier.SetData(decode(text), sanitize=True, removeHs=False)
    mol = next(iter(supplier), None)
    if mol is None:
        supplier.SetData(decode(text), sanitize=False, removeHs=False)
        mol = next(iter(supplier), None)
        if mol is None:
            raise Refused(f"RDKit can't read {name}")
        mol.UpdatePropertyCache(strict=False)
    return mol


def to_inchikeys(texts: "Sequence[bytes]") -> "list[str]":
    """The InChIKeys of records, each nothing where there is none; by RDKit, or by Open Babel where RDKit was built without.

    Raises
    ------
    MarkushError
        Neither can make them.

    Examples
    --------
    >>> to_inchikeys((EXAMPLES / "phenoxy_acids" / "compounds.sdf").read_bytes().split(b"$$$$\\n")[:1])
    ['LCPDWSOZIOUXRV-UHFFFAOYSA-N']
    """
    try:
        from rdkit.Chem.inchi import MolToInchiKey
    except ImportError:
        return _by_babel(texts)
    from rdkit import rdBase

    keys = []
    with rdBase.BlockLogs():
        for text in texts:
            try:
                keys.append(str(MolToInchiKey(to_mol(text, "a record"))))
            except Refused:
                keys.append("")
    return keys


def _by_babel(texts: "Sequence[bytes]") -> "list[str]":
    """The InChIKeys by one run of Open Babel, which is given each record under its place as a name."""
    program = shutil.which("obabel")
    if program is None:
        raise MarkushError(
            "an InChIKey takes an RDKit that was built with InChI, which this Python doesn't have, or Open Babel: install "
            "openbabel"
        )
    keys = [""] * len(texts)
    start = 0
    while start < len(texts):
        some = enumerate(texts[start:], start)
        given = b"".join(b"r%d\n" % at + text.split(b"\n", 1)[-1] + b"$$$$\n" for at, text in some)
        ran = subprocess.run([program, "-isdf", "-oinchikey", "-xt", "-e"], input=given, capture_output=True, check=False)
        last = start - 1
        for line in ran.stdout.decode("ascii", "replace").splitlines():
            found = re.fullmatch(r"([A-Z]{14}-[A-Z]{10}-[A-Z])\s+r(\d+)", line.strip())
            if found:
                last = int(found[2])
                keys[last] = found[1]
        # it ends at the first record that it can't read, so the next run begins behind that
        start = last + 2
    return keys


def atom_count(text: bytes) -> int:
    """How many atoms a record draws, by its counts line.

    Examples
    --------
    >>> atom_count((EXAMPLES / "phenoxy_acids" / "compounds.sdf").read_bytes())
    11
    """
    lines = text.split(b"\n")
    if b"V3000" in lines[3][33:39]:
        for line in lines[4:]:
            words = line.split()
            if words[:3] == [b"M", b"V30", b"COUNTS"]:
                return int(words[3])
        return 0
    return int(lines[3][:3])


def is_mol(value: object) -> bool:
    """Whether a value is a molecule of RDKit, without asking for RDKit.

    Examples
    --------
    >>> is_mol("CCO")
    False
    """
    return any(kind.__name__ == "Mol" and kind.__module__.startswith("rdkit") for kind in type(value).__mro__)


def write_mols(mols: Iterable[Any]) -> "list[bytes]":
    """Molecules of RDKit as records of an SDfile with their properties, each with its separator.

    Raises
    ------
    Refused
        One of them is None, as what RDKit couldn't read is, or its name or a property would end its record; the message
        says which.

    Examples
    --------
    >>> write_mols([])
    []
    """
    chem = rdkit("a list of molecules")
    from io import StringIO

    records = []
    for number, mol in enumerate(mols, 1):
        if mol is None:
            raise Refused(f"molecule {number} of the list is None: RDKit couldn't read it; leave it out", record=number)
        out = StringIO()
        writer = chem.SDWriter(out)
        writer.write(mol)
        writer.close()
        text = out.getvalue()
        name = mol.GetProp("_Name") if mol.HasProp("_Name") else ""
        if "\n" in name or "\r" in name:
            raise Refused(f"molecule {number} of the list has a name of several lines; set its _Name to one", record=number)
        # else what stands behind the line would be a record of its own
        if any(line.startswith("$$$$") for line in text.split("\n")[:-2]):
            raise Refused(f"molecule {number} of the list has the name or a property with a line that begins with $$$$; take it out", record=number)
        records.append(text.encode("utf-8"))
    return records

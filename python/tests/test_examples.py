"""The hits in the compounds of the examples beside what `checks/by_rdkit.py` reasons out by RDKit, which shares nothing with the package."""
from __future__ import annotations

import importlib
from pathlib import Path
from typing import Any

import pytest

from markush import Claim, Library

CLAIMS = ("amino_chains", "anilinoquinazolines", "benzodiazepines", "beta_blockers", "local_anaesthetics", "phenoxy_acids")


@pytest.fixture(scope="module")
def plain(top: Path) -> Any:
    """The module of `checks/claims`: it writes codes, logic and expansions out by the rules, and asks RDKit for the rest."""
    with pytest.MonkeyPatch.context() as patch:
        patch.syspath_prepend(str(top / "checks"))
        return importlib.import_module("by_rdkit")


def test_no_claim_is_left_out(examples: Path) -> None:
    assert {path.parent.name for path in examples.glob("*/claim.rgf")} == set(CLAIMS)


@pytest.mark.parametrize("name", CLAIMS)
def test_hits_are_those_that_rdkit_finds(library: Library, examples: Path, plain: Any, name: str) -> None:
    by_rdkit = list(plain.hits(plain.Query(examples / name / "claim.rgf"), plain.compounds(examples / name)))
    library.load(examples / name / "compounds.sdf")
    claim = Claim.read(examples / name / "claim.rgf")
    found = [
        " ".join(map(str, ["hit", hit.record, "choice", *hit.choice, "map", *hit.map])) for hit in library.search(claim, per="map")
    ]
    assert by_rdkit and found == by_rdkit


def test_members_are_where_rdkit_sees_them(library: Library, examples: Path, acids: Claim) -> None:
    """Where a phenoxyacetic acid bears what, told by a pattern of RDKit alone, is what the parts of its hits say."""
    from rdkit import Chem

    library.load(examples / "phenoxy_acids" / "compounds.sdf")
    pattern = Chem.MolFromSmarts("[OX2][CX4H2]C(=O)[OX2H1]")
    seen = set()
    for hit in library.search(acids):
        mol = hit.mol
        (match,) = mol.GetSubstructMatches(pattern)
        (ring,) = [atom for atom in mol.GetAtomWithIdx(match[0]).GetNeighbors() if atom.GetIdx() != match[1]]
        distances = Chem.GetDistanceMatrix(mol)[ring.GetIdx()]
        for label, part in hit.parts.items():
            atoms = [atom for atom in part.atoms if atom is not None]
            # the sites of R1 are beside the oxygen's place, and that of R2 is opposite to it
            away = {int(min(distances[atom] for atom in atoms))} if atoms else set()
            assert away <= ({4} if label == "R2" else {2}), (hit, label)
            symbols = sorted(mol.GetAtomWithIdx(atom).GetSymbol() for atom in atoms)
            assert symbols == sorted({"*Cl": ["Cl"], "*Br": ["Br"], "[H]": []}.get(part.smiles, ["C"])), (hit, label, part)
            seen.add((label.split("@")[0], part.smiles))
    assert {("R2", "[H]"), ("R2", "*Cl"), ("R2", "*Br"), ("R1", "*Cl")} <= seen

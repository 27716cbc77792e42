"""Claims: told by what a file holds, frozen, equal by text, and the structures that they stand for."""
from __future__ import annotations

import dataclasses
import pickle
from pathlib import Path

import pytest

from markush import Claim, Refused, scan
from markush.rgfile import Logic

LIST = "title ethers\nroot c1ccccc1[1*]\nR1 *Cl\nR1 *O[2*] oxy\nR2 *[CH3] methyl\nlogic R2 0-1 rest\n"


def test_a_file_is_told_by_what_it_holds(examples: Path, tmp_path: Path) -> None:
    rgfile = Claim.read(examples / "phenoxy_acids" / "claim.rgf")
    assert (rgfile.title, len(rgfile.groups), rgfile.code_count) == ("phenoxyacetic acid", 2, 27)
    molfile = Claim.read(examples.parent / "crates" / "markush" / "data" / "q.mol")
    assert (molfile.title, molfile.code_count, molfile.root.smiles) == ("q", 1, "CO")
    path = tmp_path / "claim.rgf"
    path.write_text(LIST)
    assert Claim.read(path).title == "ethers" and Claim.read(path).member_name(2, 1) == "methyl"
    path.write_text(rgfile.text)
    assert Claim.read(path) == rgfile


def test_a_claim_is_frozen_and_equal_by_its_text() -> None:
    claim = Claim.from_list(LIST)
    with pytest.raises(dataclasses.FrozenInstanceError):
        claim.text = ""  # type: ignore[misc]
    with pytest.raises(TypeError):
        claim.names[1, 1] = "x"  # type: ignore[index]
    again = Claim.from_rgfile(claim.to_rgfile())
    assert again == claim and hash(again) == hash(claim) and claim != Claim.from_list("root C") and claim != claim.text
    back = pickle.loads(pickle.dumps(claim))
    assert back == claim and (back.title, dict(back.names)) == (claim.title, dict(claim.names))


def test_what_a_claim_says() -> None:
    claim = Claim.from_list(LIST)
    assert [site.atom for site in claim.sites] == [7] and claim.column(7) == "R1"
    assert [(group.label, len(group.members)) for group in claim.groups] == [(1, 2), (2, 1)]
    assert claim.logic == {2: Logic("0-1", True, 0)} and claim.code_count == 4
    assert [claim.member_name(1, number) for number in (1, 2)] == ["*Cl", "oxy"]
    for label, number in ((1, 3), (3, 1), (1, 0)):
        with pytest.raises(KeyError):
            claim.member_name(label, number)


@pytest.mark.parametrize("page", [1, 2, 200])
def test_structures_come_page_by_page(program: Path, page: int) -> None:
    claim = Claim.from_list(LIST)
    found = [structure.choice for structure in claim.structures(page=page)]
    assert found == [(1,), (2, 1), (2, 2)]
    assert [structure.choice for structure in claim.structures("2", page=page)] == found[1:]
    assert [structure.choice for structure in claim.structures((2, 2), page=page)] == found[2:]
    first = next(claim.structures())
    assert first.text.startswith("choice 1\n") and first.text.endswith("M  END\n")


def test_structures_are_molecules(program: Path) -> None:
    mols = [structure.mol for structure in Claim.from_list(LIST).structures()]
    behind_the_ring = [[atom.GetSymbol() for atom in mol.GetAtoms()][6:] for mol in mols]
    assert behind_the_ring == [["Cl"], ["O", "C"], ["O", "H"]]
    assert all(mol.GetNumBonds() == mol.GetNumAtoms() for mol in mols)


def test_faults_name_the_file_and_the_line(tmp_path: Path, program: Path) -> None:
    path = tmp_path / "bad claim.txt"
    path.write_text("root c1ccccc1[1*]\nR1 *Cl\nR1 Cl\n")
    with pytest.raises(Refused, match="line 3") as fault:
        Claim.read(path)
    assert str(path) in str(fault.value) and (fault.value.file, fault.value.line) == (str(path), 3)
    path.write_text("\n\n\n  1  0  0\n    0.0000    0.0000    0.0000 Xx  0  0\nM  END\n")
    claim = Claim.read(path)
    with pytest.raises(Refused, match="atom 1 has an unknown symbol") as fault:
        next(claim.structures())
    assert (fault.value.code, fault.value.atom, fault.value.line, fault.value.file) == (3, 1, 5, str(path))
    with pytest.raises(FileNotFoundError):
        Claim.read(tmp_path / "none.rgf")


@pytest.mark.parametrize("start", ["x", "1,", "1 3", "1,3\nlist", (1, -3), "1" * 10])
def test_structures_begin_with_a_choice(start: object) -> None:
    with pytest.raises(ValueError, match="start is a choice, as '1,3'"):
        next(Claim.from_list("root C[1*]\nR1 *F").structures(start))  # type: ignore[arg-type]


@pytest.mark.parametrize("page", [0, -1, 1_001])
def test_structures_come_by_pages_of_a_size(page: int) -> None:
    with pytest.raises(ValueError, match="page is a number from 1 to 1,000"):
        next(Claim.from_list("root C[1*]\nR1 *F").structures(page=page))


def test_a_column_is_that_of_a_site() -> None:
    claim = Claim.from_list("root C[1*]\nR1 *F")
    assert claim.column(2) == "R1"
    for number in (1, 0, 9):
        with pytest.raises(KeyError, match=f"the root has no site at atom {number}"):
            claim.column(number)


@pytest.mark.parametrize("label, number", [(1, 0), (1, 2), (2, 1)])
def test_a_member_that_is_not_there(label: int, number: int) -> None:
    with pytest.raises(KeyError, match=f"R{label} has no member {number}"):
        Claim.from_list("root C[1*]\nR1 *F").member_name(label, number)


@pytest.mark.parametrize("given", ["claim.rgf", Path("claim.rgf"), None])
def test_the_name_of_a_file_is_no_claim(fake: Path, given: object) -> None:
    with pytest.raises(TypeError, match="a claim is what Claim.read gives"):
        scan("compounds.sdf", given, program=fake)  # type: ignore[arg-type]

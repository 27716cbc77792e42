"""The class words: their counts, and each member once, by RDKit's canonical SMILES."""
from pathlib import Path
import re

import pytest
from rdkit import Chem

from markush.claim_words import CLASSES, NAMES, members_of
from markush.errors import Refused

TOP = Path(__file__).resolve().parents[2]

# how many members have so many carbons, from the least on
COUNTS = {
    "alkyl": [1, 1, 2, 4, 8, 17, 39, 89],
    "cycloalkyl": [1, 1, 1, 1],
    "alkenyl": [1, 3, 8, 21, 56],
    "alkynyl": [1, 2, 4, 10, 25],
    "alkoxy": [1, 1, 2, 4, 8, 17],
    "haloalkyl": [3, 11, 54, 280],
    "alkylene": [1, 2, 5, 12, 31],
    "aryl": [1, 0, 0, 0, 2],
}


@pytest.mark.parametrize("word", COUNTS)
def test_counts(word: str) -> None:
    least = CLASSES[word].least
    found = [len(CLASSES[word].members(carbons, carbons)) for carbons in range(least, least + len(COUNTS[word]))]
    assert found == COUNTS[word]


def test_no_class_has_more_members_than_a_claim_takes_by_one_number() -> None:
    for word in CLASSES.values():
        if word.least:
            assert len(word.members(word.most, word.most)) <= 4096


def molecule(smiles: str) -> Chem.Mol:
    """A member as RDKit reads it: points are told apart, and a list is its first element."""
    first, *_, last = [found.start() for found in re.finditer(r"\*", smiles)] * 2
    marked = smiles.replace("[F,Cl,Br,I]", "F")
    return Chem.MolFromSmiles(marked if first == last else "[1*]" + marked[1:-1] + "[2*]")


@pytest.mark.parametrize("word", [word for word in CLASSES if word != "H"])
def test_each_member_stands_once_and_is_closed_by_its_hydrogens(word: str) -> None:
    found = CLASSES[word].members(CLASSES[word].least, min(CLASSES[word].most, CLASSES[word].least + 4))
    mols = [molecule(smiles) for smiles in found]
    assert len({Chem.MolToSmiles(mol) for mol in mols}) == len(found)
    for mol in mols:
        assert all(atom.GetNumRadicalElectrons() == 0 for atom in mol.GetAtoms())


def test_haloalkyl_has_a_halogen_in_each_member() -> None:
    assert all("[F,Cl,Br,I]" in smiles for smiles, _ in members_of("haloalkyl", 1, 4))


def test_each_name_is_that_of_a_member() -> None:
    made = {smiles for word in CLASSES for smiles in CLASSES[word].members(CLASSES[word].least, min(CLASSES[word].most, 10 if word == "aryl" else 7))}
    assert set(NAMES) <= made


@pytest.mark.parametrize("word, first, last", [("alkyl", 0, 1), ("alkyl", 2, 1), ("alkyl", 1, 13), ("aryl", 5, 6), ("acyl", 1, 2)])
def test_what_no_class_says(word: str, first: int, last: int) -> None:
    with pytest.raises(Refused):
        members_of(word, first, last)



def test_the_document_has_the_counts_that_the_code_makes() -> None:
    rows = dict(re.findall(r"^\| `(\w+)[^|]*\| [^|]*\| ([0-9, ]+?) \|", (TOP / "docs/DRAWING.md").read_text(), re.M))
    assert set(rows) == set(CLASSES)
    for word, row in rows.items():
        least = CLASSES[word].least
        counts = [len(CLASSES[word].members(n, n)) for n in range(least, least + len(row.split(",")))] if least else [len(CLASSES[word].members())]
        assert [int(it) for it in row.split(",")] == counts, word

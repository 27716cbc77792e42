"""Expansions beside what the program says: the maps of the stored answers, and structures as `enum` writes them."""
from pathlib import Path

import pytest

from markush.errors import Refused
from markush.expansion import Expansion, expand
from markush.rgfile import Query, read_query

TOP = Path(__file__).resolve().parents[2]
EXAMPLES = ["amino_chains", "beta_blockers", "local_anaesthetics", "phenoxy_acids"]


def claim(name: str) -> Query:
    return read_query((TOP / "examples" / name / "claim.rgf").read_text())


def hits(name: str):
    for line in (TOP / "examples" / name / "answer").read_text().splitlines():
        words = line.split()
        if words[0] == "hit":
            at = words.index("map")
            yield int(words[1]), list(map(int, words[3:at])), list(map(int, words[at + 1 :]))


def tables(name: str):
    """The drawn atoms and bonds of each compound of an example."""
    for record in (TOP / "examples" / name / "compounds.sdf").read_text().split("$$$$\n")[:-1]:
        yield read_query(record[: record.index("M  END")] + "M  END\n").root


def as_drawn(made: Expansion):
    """What a structure's table says of an expansion."""
    atoms = [
        (it.symbol, it.charge, it.hydrogens, it.elements, it.is_not, it.substitution, it.ring_bonds, it.unsaturated, it.radical)
        for it in (atom.asks for atom in made.atoms)
    ]
    return atoms, [(bond.first, bond.second, bond.type, bond.topology) for bond in made.bonds]


@pytest.mark.parametrize("name", EXAMPLES)
def test_a_map_has_each_atom_on_its_element_and_each_bond_on_a_bond(name: str) -> None:
    query, compounds, seen = claim(name), list(tables(name)), 0
    for record, choice, found in hits(name):
        made, table = expand(query, choice), compounds[record - 1]
        assert len(made.atoms) == len(found)
        joined = {frozenset((bond.first, bond.second)) for bond in table.bonds}
        for atom, place in zip(made.atoms, found):
            drawn = table.atoms[place - 1].symbol if place <= len(table.atoms) else "H"
            assert drawn in (atom.asks.elements or (atom.asks.symbol,))
        for bond in made.bonds:
            ends = frozenset((found[bond.first - 1], found[bond.second - 1]))
            assert ends in joined or max(ends) > len(table.atoms)
        seen += 1
    assert seen == {"amino_chains": 20, "beta_blockers": 104, "local_anaesthetics": 96, "phenoxy_acids": 16}[name]


def test_structures_are_those_that_the_program_wrote() -> None:
    query, seen = claim("phenoxy_acids"), 0
    text = (TOP / "examples/phenoxy_acids/structures").read_text()
    for record in text[text.index("choice") :].split("$$$$\n")[:-1]:
        structure = read_query(record).root
        choice = list(map(int, record.split("\n", 1)[0].split()[1:]))
        made = expand(query, choice)
        atoms = [
            (it.symbol, it.charge, it.hydrogens, it.elements, it.is_not, it.substitution, it.ring_bonds, it.unsaturated, it.radical)
            for it in structure.atoms
        ]
        assert (atoms, [(b.first, b.second, b.type, b.topology) for b in structure.bonds]) == as_drawn(made)
        assert made.free_ends == ()
        seen += 1
    assert seen == 11


def test_parts_name_members_and_their_atoms() -> None:
    made = expand(claim("local_anaesthetics"), [2, 5, 2, 3])
    said = [(part.groups, part.label, part.number, part.length, part.member and part.member.smiles) for part in made.parts]
    assert said == [
        ((1,), 1, 2, 0, "*[NH][R3]"), ((3,), 3, 5, 0, "*[CH2][CH2][CH2][CH3]"), ((), 0, 0, 2, None), ((4,), 4, 3, 0, "*N([CH3])[CH3]"),
    ]
    assert [len(part.atoms) for part in made.parts] == [1, 4, 2, 3]
    assert made.part_atoms(0) == (1, 2, 3, 4, 5) and made.parts[1].parent == 0
    assert made.atoms[1].path == (1, 2)


def test_rest_hydrogens_belong_to_their_site() -> None:
    made = expand(claim("local_anaesthetics"), [23, 3, 13])
    assert made.parts[0].member is None and [made.atoms[n - 1].is_rest for n in made.parts[0].atoms] == [True]


@pytest.mark.parametrize("choice", [[], [2], [24, 3, 13], [0, 1, 1], [23, 3, 13, 1], [23, 4, 13], [-1, 1, 1]])
def test_a_choice_that_there_is_not(choice: list) -> None:
    with pytest.raises(Refused, match="no choice"):
        expand(claim("local_anaesthetics"), choice)

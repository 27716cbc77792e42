"""The list of a claim: what each word becomes, what is told, and what is refused with its line."""
import warnings
from pathlib import Path

import pytest

from markush.claim_list import ClaimNote, read_claim_list, with_names
from markush.errors import Refused
from markush.rgfile import Atom, code_count, read_query, valid_code_count

TOP = Path(__file__).resolve().parents[2]


def read(text: str, folder=None):
    """A list that is read without a note."""
    with warnings.catch_warnings():
        warnings.simplefilter("error")
        return read_claim_list(text, folder)


def asked(atom: Atom):
    """What an atom asks, as pairs of those that it asks."""
    said = {
        "symbol": atom.symbol, "charge": atom.charge, "hydrogens": atom.hydrogens, "elements": ",".join(atom.elements), "is_not": atom.is_not,
        "substitution": atom.substitution, "ring_bonds": atom.ring_bonds, "unsaturated": atom.unsaturated, "point": atom.point,
    }
    return {name: value for name, value in said.items() if value is not None and value is not False and value != "" and not (value == 0 and name in ("charge", "point"))}


# the word of a root of one atom and a carbon, and what its first atom asks
ATOMS = [
    ("CC", {"symbol": "C"}),
    ("[CH3]C", {"symbol": "C", "hydrogens": 3}),
    ("[CH]C", {"symbol": "C", "hydrogens": 1}),
    ("[C;H2]C", {"symbol": "C", "hydrogens": 2}),
    ("[N]C", {"symbol": "N"}),
    ("[N+]C", {"symbol": "N", "charge": 1}),
    ("[N+2]C", {"symbol": "N", "charge": 2}),
    ("[O-]C", {"symbol": "O", "charge": -1}),
    ("[Fe++]C", {"symbol": "Fe", "charge": 2}),
    ("[NH0]C", {"symbol": "N", "hydrogens": 0}),
    ("[N;H0]C", {"symbol": "N", "hydrogens": 0}),
    ("[N,O]C", {"symbol": "L", "elements": "N,O"}),
    ("[N,O;H1]C", {"symbol": "L", "elements": "N,O", "hydrogens": 1}),
    ("[!N;!O]C", {"symbol": "L", "elements": "N,O", "is_not": True}),
    ("[!N]C", {"symbol": "L", "elements": "N", "is_not": True}),
    ("[!C;!N;D2;x0]C", {"symbol": "L", "elements": "C,N", "is_not": True, "substitution": 2, "ring_bonds": 0}),
    ("[A]C", {"symbol": "A"}),
    ("[Q;H1]C", {"symbol": "Q", "hydrogens": 1}),
    ("[any]C", {"symbol": "*"}),
    ("[N;D3]C", {"symbol": "N", "substitution": 3}),
    ("[N;D0]C", {"symbol": "N", "substitution": 0}),
    ("[N;D6]C", {"symbol": "N", "substitution": 6}),
    ("[N;Ds]C", {"symbol": "N", "substitution": -2}),
    ("[C;x0]C", {"symbol": "C", "ring_bonds": 0}),
    ("[C;x4;u]C", {"symbol": "C", "ring_bonds": 4, "unsaturated": True}),
    ("[C;xs]C", {"symbol": "C", "ring_bonds": -2}),
    ("[NH2+;D1]C", {"symbol": "N", "charge": 1, "hydrogens": 2, "substitution": 1}),
    ("[Se]C", {"symbol": "Se"}),
    ("[H]C", {"symbol": "H"}),
    ("ClC", {"symbol": "Cl"}),
    ("[c,n]1ccccc1", {"symbol": "L", "elements": "C,N"}),
]


@pytest.mark.parametrize("word, want", ATOMS, ids=[word for word, _ in ATOMS])
def test_what_an_atom_asks(word: str, want: dict) -> None:
    listed = read(f"root {word}")
    assert asked(listed.query.root.atoms[0]) == want
    assert read_query(listed.rgfile) == listed.query


# the word, and the bonds as types and topologies
BONDS = [
    ("CC", [(1, 0)]), ("C-C", [(1, 0)]), ("C=C", [(2, 0)]), ("C#C", [(3, 0)]), ("C:C", [(4, 0)]), ("C-,=C", [(5, 0)]), ("C-,:C", [(6, 0)]),
    ("C=,:C", [(7, 0)]), ("C~C", [(8, 0)]), ("C;@C", [(1, 1)]), ("C;!@C", [(1, 2)]), ("C=;@C", [(2, 1)]), ("C-,=;!@C", [(5, 2)]),
    ("C1CC-,=1", [(1, 0), (1, 0), (5, 0)]), ("C-,=1CC1", [(1, 0), (1, 0), (5, 0)]), ("C=;@1CC=;@1", [(1, 0), (1, 0), (2, 1)]),
    ("c1ccccc1", [(2, 0), (1, 0), (2, 0), (1, 0), (2, 0), (1, 0)]), ("c1cc[nH]c1", [(1, 0), (2, 0), (1, 0), (1, 0), (2, 0)]),
    ("c1ccc[n,o]1", [(2, 0), (1, 0), (2, 0), (1, 0), (1, 0)]), ("C%12CC%12", [(1, 0)] * 3), ("C%(123)CC%(123)", [(1, 0)] * 3),
]


@pytest.mark.parametrize("word, want", BONDS, ids=[word for word, _ in BONDS])
def test_bonds(word: str, want: list) -> None:
    listed = read(f"root {word}")
    assert [(bond.type, bond.topology) for bond in listed.query.root.bonds] == want
    assert read_query(listed.rgfile) == listed.query


def test_sites_have_three_spellings_and_several_labels() -> None:
    members = "\n".join(f"R{label} *F" for label in (1, 2, 32))
    root = read(f"root C([1*])([*:2])([R32])[R2,R1]\n{members}").query.root
    assert [(site.atom, site.groups, site.ends) for site in root.sites] == [(2, (1,), (1,)), (3, (2,), (1,)), (4, (32,), (1,)), (5, (1, 2), (1,))]


# a member, and the atoms that bear its points with what they bear
POINTS = [
    ("*O", 1, [(1, 1)]), ("[*]O", 1, [(1, 1)]), ("O*", 1, [(1, 1)]), ("CO[*:1]", 1, [(2, 1)]), ("CO[*:7]", 1, [(2, 1)]), ("*CC*", 2, [(1, 1), (2, 2)]),
    ("*C*", 2, [(1, 3)]), ("C(*)C*", 2, [(1, 1), (2, 2)]), ("[*:1]CO[*:2]", 2, [(1, 1), (2, 2)]),
]


@pytest.mark.parametrize("word, sides, want", POINTS, ids=[word for word, *_ in POINTS])
def test_points(word: str, sides: int, want: list) -> None:
    root = "C[R1]" if sides == 1 else "C[R1]C"
    member = read(f"root {root}\nR1 {word}").query.groups[0].members[0]
    assert [(atom.number, atom.point) for atom in member.atoms if atom.point] == want


def test_links_stand_between_the_first_and_the_last_neighbour() -> None:
    listed = read("root C[CH2:4]O")
    assert [(it.atom, it.most, it.start, it.end) for it in listed.query.root.links] == [(2, 4, 1, 3)]
    listed = read("root C[C:3](F)(Cl)O")
    assert [(it.atom, it.most, it.start, it.end) for it in listed.query.root.links] == [(2, 3, 1, 5)]
    assert read("root C[A:3]C").query.root.atoms[1].symbol == "A"
    assert read("root C[N,O;H1:2]C").query.root.atoms[1].elements == ("N", "O")


def test_logic_and_comments_and_titles() -> None:
    listed = read(
        "title  two # rings, a title takes its line\n# a comment\nroot C([R1])[R2] the root # why\nR1 *F fluoro # F\nR2 *C#N\n"
        "logic R2 0-1,3 rest then R1 # so\nlogic R1 >0\n"
    )
    assert listed.title == "two # rings, a title takes its line" and listed.root_name == "the root"
    assert listed.names == {(1, 1): "fluoro"}
    logic = {group.label: group.logic for group in listed.query.groups}
    assert (logic[2].range, logic[2].rest, logic[2].then) == ("0-1,3", True, 1) and logic[1].range == ">0"
    assert [group.members[0].smiles for group in listed.query.groups] == ["*F", "*C#N"]


def test_closed_asks_of_each_atom_but_sites_that_has_no_neighbours_asked() -> None:
    listed = read("closed\nroot C[N;D2]([R1])[H]\nR1 *[CH2]O")
    assert [atom.substitution for atom in listed.query.root.atoms] == [-2, 2, None, None]
    assert [atom.substitution for atom in listed.query.groups[0].members[0].atoms] == [-2, -2]


def test_classes_become_members_with_names() -> None:
    listed = read("root C[R1]\nR1 alkyl 1-4 lower alkyl\nR1 halogen\nR1 phenyl Ph\nR1 alkyl 5\n")
    members = listed.query.groups[0].members
    assert len(members) == 8 + 1 + 1 + 8
    assert listed.names[1, 1] == "lower alkyl: methyl" and listed.names[1, 9] == "halogen" and listed.names[1, 10] == "Ph"
    assert listed.names[1, 11] == "pentyl" and members[8].atoms[0].elements == ("F", "Cl", "Br", "I")
    assert listed.names[1, 13] == "*CC(CC)C"  # one that has no short name


def test_an_included_file_stands_in_the_place_of_its_line(tmp_path: Path) -> None:
    (tmp_path / "ends").mkdir()
    (tmp_path / "ends" / "all.txt").write_text("R1 *F\ninclude more.txt\n")
    (tmp_path / "ends" / "more.txt").write_text("R1 *Cl\n")
    listed = read("root C[R1]\ninclude ends/all.txt\nR1 *Br", tmp_path)
    assert [member.smiles for member in listed.query.groups[0].members] == ["*F", "*Cl", "*Br"]
    assert listed.lines == {(0, 0): "line 1", (1, 1): "ends/all.txt, line 1", (1, 2): "more.txt, line 1", (1, 3): "line 3"}
    (tmp_path / "ends" / "more.txt").write_text("\nR1 Cl\n")
    with pytest.raises(Refused, match="^more.txt, line 2: a member of R1 has no attachment point") as told:
        read("root C[R1]\ninclude ends/all.txt", tmp_path)
    assert (told.value.file, told.value.line) == ("more.txt", 2)
    (tmp_path / "ends" / "more.txt").write_text("include all.txt\n")
    with pytest.raises(Refused, match="more.txt, line 1: all.txt includes itself"):
        read("root C[R1]\ninclude ends/all.txt", tmp_path)


# a list, the words that its note has
NOTES = [
    ("root [C@H](F)(Cl)[R1]\nR1 *F", "line 1: atom 1 `[C@H]` is taken without `@`"),
    ("root F/C=CF", "the bond `/` at atom 1 `F`"),
    ("root [13CH3]O", "atom 1 `[13CH3]` is taken without its mass"),
    ("root [2H]O", "isotopes aren't asked for"),
    ("root C.O", "atom 2 stands behind `.`"),
    ("root CO |c:1|", "`|c:1|` behind the SMILES is left out"),
    ("root C[*:2]C\nR2 *O*", "atom 2 `[*:2]` is a site of R2"),
    ("root C[R1]\nR1 *F\nR1 H\nlogic R1 1 rest", "line 4: R1 has H as a member and `rest`"),
    ("root C[R1]\nR1 [H][*:1]\nR1 *F\nlogic R1 0-1 rest", "line 4: R1 has H as a member and `rest`"),
    ("root CC\nR3 *F", "line 2: R3 has members, and no site bears it"),
    ("root C[R1]\nR1 alkyl 1-2 halogen", "line 2: `halogen` is taken as a name"),
    ("root CC\nlogic R3 1", "line 2: logic for R3"),
]


@pytest.mark.parametrize("text, words", NOTES, ids=[words for _, words in NOTES])
def test_nothing_is_dropped_in_silence(text: str, words: str) -> None:
    with pytest.warns(ClaimNote) as told:
        listed = read_claim_list(text)
    assert len(told) == 1 and words in str(told[0].message) and listed.notes == (str(told[0].message),)


def test_a_chiral_atom_asks_for_its_hydrogen() -> None:
    with pytest.warns(ClaimNote):
        assert read_claim_list("root [C@H](F)Cl").query.root.atoms[0].hydrogens == 1


# a list, the line that is named, words of the message
FAULTS = [
    ("", 1, "no root"),
    ("root", 1, "has a SMILES behind it"),
    ("root C\nroot C", 2, "a second root; the first stands in line 1"),
    ("title a\ntitle b\nroot C", 2, "a second title"),
    ("roots C", 1, "`roots` begins no line"),
    ("root C\nR33 *F", 2, "groups are R1 to R32"),
    ("root C\nR0 *F", 2, "groups are R1 to R32"),
    ("root C[R1]\nR1", 2, "SMILES or a class"),
    ("root C[R1]\nR1 F", 2, "a member of R1 has no attachment point"),
    ("root C[R1]\n\nR1 *C(*)C*", 3, "has 3 attachment points"),
    ("root C*", 1, "stands in a member only"),
    ("root C[R1]", 1, "no line gives R1 a member"),
    ("root C[R1]\nR1 *F\nR1 *O[R2]", 3, "no line gives R2 a member"),
    ("root C[R1]\nR1 **", 2, "is at atom 2 `*`"),
    ("root C[R1]\nR1 *[R1]", 2, "no site, link or point"),
    ("root C[R1]\nR1 *[CH2:3]C", 2, "no site, link or point"),
    ("root C[R1][R1]C\nR1 *C*", 1, "are bonded; an atom stands between"),
    ("root C[R1](O)N\nR1 *F", 1, "has 3 neighbours"),
    ("root C[R1]C\nR1 *F", 2, "has one attachment point, and the site of line 1 has two neighbours"),
    ("root C[R1]\nR1 *C*", 2, "has two attachment points, and the site of line 1 has one neighbour"),
    ("root C[R1]\nR1 *=O", 2, "another bond at its point"),
    ("root C=[R1]\nR1 *-O", 2, "another bond at its point"),
    ("root C[R1]\nR1 *O[R1]", 2, "stands in itself"),
    ("root C[R1]\nR1 alkyl", 2, "takes its numbers of carbons"),
    ("root C[R1]\nR1 aryl", 2, "aryl takes its numbers of carbons, as `aryl 6-10`"),
    ("root C[R1]\nR1 alkyl 1 - 4", 2, "a range of carbons has no blanks: write `alkyl 1-4`; here stands `alkyl 1 - 4`"),
    ("root C[R1]\nR1 alkyl 1- 4", 2, "write `alkyl 1-4`"),
    ("root C[R1]\nR1 alkyl 1 -4 lower", 2, "write `alkyl 1-4`"),
    ("root C[R1]\nR1 alkyl 1 to 4", 2, "write `alkyl 1-4`"),
    ("root C[R1]\nR1 aryl 6 10", 2, "write `aryl 6-10`"),
    ("root C[R1]\nR1 alkyl 1 \N{EN DASH} 4", 2, "write `alkyl 1-4`"),
    ("root C[R1]\nR1 alkyl 1\N{EN DASH}4", 2, "is no range of carbons: write `alkyl 1-4`"),
    ("root C[R1]\nR1 alkyl C1-C4", 2, "is no range of carbons: write `alkyl 1-4`"),
    ("root C[R1]\nR1 alkyl 1-4 - 6", 2, "`-` isn't understood behind the range 1-4"),
    ("root C[R1]\nR1 C1-4 alkyl", 2, "a class stands before its carbons: write `R1 alkyl 1-4`"),
    ("root C[R1]\nR1 C1-4alkyl", 2, "no class word: the nearest is `alkyl 1-4`"),
    ("root C[R1]\nR1 alkil 1-4", 2, "`alkil` is no SMILES of a list, and no class word: the nearest is `alkyl 1-4`"),
    ("root C[R1]\nR1 Alkyl 1-4", 2, "the nearest is `alkyl 1-4`"),
    ("root C[R1]\nR1 halogens", 2, "the nearest is `halogen`"),
    ("root C[R1]\nR1 haloalkoxy 1-2", 2, "the nearest are `haloalkyl 1-5` and `alkoxy 1-4`"),
    ("root C[R1]\nR1 Me", 2, "methyl is written `*[CH3] methyl`"),
    ("root C[R1]\nR1 heteroaryl", 2, "the class words are alkyl, cycloalkyl, "),
    ("root C[R1]\nR1 *CCx", 2, "`x` is no atom"),
    ("root C[R1]\nR1 *F\nlogic R1 0 - 1 rest", 3, "the range `0 - 1` is one word: write `0-1`"),
    ("root C[R1]\nR1 *F\nlogic R1 > 0", 3, "is one word: write `>0`"),
    ("root C[R1]\nR1 *F\nlogic R1 0\N{EN DASH}1", 3, "is one word: write `0-1`"),
    ("root C[R1]\nR1 alkyl 0-2", 2, "takes numbers of carbons from 1"),
    ("root C[R1]\nR1 alkyl 3-2", 2, "takes numbers of carbons from 1"),
    ("root C[R1]\nR1 phenyl 6", 2, "takes no numbers"),
    ("root C[R1]\nR1 aryl 7-9", 2, "no member of 7 to 9"),
    ("root C[R1]\nR1 alkyl 1-12\nR1 *F", 3, "the claim has 5,175 members, and 4,096 are the most: R1 5,175"),
    ("root C[R1]\nR1 *F\nlogic R1", 3, "a line of logic is"),
    ("root C[R1]\nR1 *F\nlogic R1 one", 3, "is no range"),
    ("root C[R1]\nR1 *F\nlogic R1 1\nlogic R1 2", 4, "a second line of logic for R1; the first stands in line 3"),
    ("root C[R1]\nR1 *F\nlogic R1 1 then", 3, "isn't understood"),
    ("root C[R1]\nR1 *F\nlogic R1 1 then R99", 3, "groups are R1 to R32"),
    ("root C\nclosed all", 2, "stands alone"),
    ("root C\ninclude more.txt", 2, "needs to know where the list lies"),
    ("root [!N,!O]C", 1, "true of every atom"),
    ("root [N,!O]C", 1, "in one list"),
    ("root [NH,O]C", 1, "hydrogens stand behind it, as [N,O;H1]"),
    ("root [c,N]C", 1, "small letters and capitals"),
    ("root [N,N]C", 1, "an element twice"),
    ("root [Xx]C", 1, "is no atom of a list"),
    ("root [#6]C", 1, "write the symbol"),
    ("root [AH]C", 1, "as [A;H1]"),
    ("root [C;R1]C", 1, "write x2"),
    ("root [C;r5]C", 1, "write x2"),
    ("root [C;X4]C", 1, "write x2"),
    ("root [C;x1]C", 1, "ring bonds are x0"),
    ("root [C;D7]C", 1, "neighbours are D0"),
    ("root [CH3;H2]C", 1, "asks twice"),
    ("root [C;H7]C", 1, "H4 is the most"),
    ("root [CH3:1]C", 1, "atom maps aren't read"),
    ("root C[C:x]C", 1, "atom maps aren't read"),
    ("root [R0]C", 1, "groups are R1 to R32"),
    ("root [R1;H1]C", 1, "a site is [R1]"),
    ("root [R1,R1]C", 1, "one group twice"),
    ("root CR1", 1, "a site stands in brackets"),
    ("root CA", 1, "stands in brackets: [A]"),
    ("root C@C", 1, "`;@`"),
    ("root C$C", 1, "quadruple"),
    ("root C->C", 1, "dative"),
    ("root C=", 1, "leads to nothing"),
    ("root C(C", 1, "`)` is missing"),
    ("root C)C", 1, "closes no branch"),
    ("root C()C", 1, "has no atom"),
    ("root (C)C", 1, "stands behind an atom"),
    ("root C1CC", 1, "isn't closed: it opens at atom 1 `C`"),
    ("root C=1CC-1", 1, "another bond than it closes with"),
    ("root C1C1", 1, "bonded twice"),
    ("root C11", 1, "bonded to itself"),
    ("root [CH3C", 1, "`[` isn't closed"),
    ("root C[CH2:4]", 1, "it stands between two"),
    ("root C=[CH:4]C", 1, "differ; they have to be alike"),
    ("root C1[CH:4](C1)O", 1, "passed by another way"),
    ("root C[CH:4]([R1])C\nR1 *F", 1, "repeats atom 3 `[R1]`"),
    ("root C[CH2:600]C", 1, "512 are the most"),
    ("root C(C)(C)(C)(C)C", 1, "RDKit doesn't read"),
    ("root c1cccc1", 1, "RDKit doesn't read"),
    ("root C[any;H1:2:3]C", 1, "atom maps aren't read"),
    ("root [*;H1]C", 1, "write any"),
]


@pytest.mark.parametrize("text, line, words", FAULTS, ids=[f"{text[:40]!r}" for text, *_ in FAULTS])
def test_a_fault_names_its_line(text: str, line: int, words: str) -> None:
    with pytest.raises(Refused) as told:
        read(text)
    assert words in str(told.value) and told.value.line == line
    assert text == "" or str(told.value).startswith(f"line {line}: ")


def test_counts_of_all_groups_are_told_where_there_are_too_many() -> None:
    with pytest.raises(Refused, match="R1 1, R2 4,295, R3 1"):
        read("root C([R1])([R2])[R3]\nR1 *F\nR2 alkyl 11\nR2 alkyl 12\nR3 *F")


def test_a_claim_that_is_too_long_for_the_program_is_refused_by_its_list() -> None:
    many = "\n".join(f"R1 *{'C' * 80}" for _ in range(900))
    with pytest.raises(Refused, match=r"^line 902: the claim has 4,741,706 bytes as an RGfile, and 4,194,304 are the most; .*: R1 900, R2 1$"):
        read(f"root C([R1])[R2]\n\n{many}\nR2 *F")


def test_the_list_of_an_example_is_its_claim() -> None:
    folder = TOP / "examples/local_anaesthetics"
    listed = read((folder / "claim.txt").read_text(), folder)
    query, stored = read_query(listed.rgfile), read_query((folder / "claim.rgf").read_text())
    assert with_names(query, listed.names) == listed.query
    assert (code_count(query), valid_code_count(query)) == (7749, 7311)
    assert query.root.smiles == stored.root.smiles
    said = [[(group.label, group.logic, [member.smiles for member in group.members]) for group in it.groups] for it in (query, stored)]
    assert said[0] == said[1]


def test_what_a_claim_spells_is_read_again_as_the_same() -> None:
    listed = read(
        "root [R1]c1cc([N,O;H1;D2])c([!C;!N])cc1C-,=;@C~[A][Q;D3]\nR1 *O[CH2:3]N[NH+]=,:[O-]\nR1 *c1ccc2[nH]ccc2c1\nR1 *[C;x2;u]1C[S;Ds]1\nR1 *[any;H0]\n"
    )
    again = read(f"root {listed.query.root.smiles}\n" + "\n".join(f"R1 {member.smiles}" for member in listed.query.groups[0].members))
    assert again.query.root.smiles == listed.query.root.smiles
    assert [member.smiles for member in again.query.groups[0].members] == [member.smiles for member in listed.query.groups[0].members]

"""Drawings: what a picture says of a table, and what stands in the SVG text."""
from __future__ import annotations

import math
import pathlib
import re
import xml.etree.ElementTree
from types import SimpleNamespace
from typing import Any, List, Sequence

import pytest

from markush.drawing import NOTES, Picture, claim_svg, hit_svg, hue_of, laid_out, meanings, record_picture, template_picture
from markush.rgfile import Atom, Bond, Group, Link, Query, Site, read_query, template

TOP = pathlib.Path(__file__).resolve().parents[2]
EXAMPLES = TOP / "examples"
NAMES = ("amino_chains", "beta_blockers", "local_anaesthetics", "phenoxy_acids")
SVG = "{http://www.w3.org/2000/svg}"


def claim_of(name: str) -> Any:
    return SimpleNamespace(query=read_query((EXAMPLES / name / "claim.rgf").read_text()))


def records_of(name: str) -> List[str]:
    return (EXAMPLES / name / "compounds.sdf").read_text().split("$$$$\n")[:-1]


def hits_of(name: str) -> List[Any]:
    """The hits of the stored answer, each with its record's text."""
    records, claim, found = records_of(name), claim_of(name), []
    for line in (EXAMPLES / name / "answer").read_text().splitlines():
        words = line.split()
        if words[0] == "hit":
            at, text = words.index("map"), records[int(words[1]) - 1]
            found.append(
                SimpleNamespace(
                    claim=claim, record=int(words[1]), text=text, name=text.split("\n", 1)[0],
                    choice=tuple(map(int, words[3:at])), map=tuple(map(int, words[at + 1 :])),
                )
            )
    return found


def table(atoms: Sequence[str], bonds: Sequence[str] = (), lines: str = "") -> str:
    """A record of atom words (symbol, perhaps with columns as `v=15`) and bond words `1-2x2`."""
    text = f"name\n\n\n{len(atoms):3}{len(bonds):3}  0     0  0            999 V2000\n"
    for n, word in enumerate(atoms):
        symbol, _, mark = word.partition("v=")
        text += f"{1.4 * n:10.4f}{0:10.4f}{0:10.4f} {symbol:3} 0  0  0  0  0{int(mark or 0):3}\n"
    for word in bonds:
        first, second, kind = map(int, re.split("[-x]", word))
        text += f"{first:3}{second:3}{kind:3}  0\n"
    return text + lines + "M  END\n"


ROWS = [
    ("carbon alone", ["C"], [], "", 4),
    ("carbon, doublet", ["C"], [], "M  RAD  1   1   2\n", 3),
    ("carbon, doublet, mark 3", ["Cv=3"], [], "M  RAD  1   1   2\n", 3),
    ("carbon, mark 15", ["Cv=15"], [], "", 0),
    ("nitrogen at +1 with one single bond", ["N", "C"], ["1-2x1"], "M  CHG  1   1   1\n", 3),
    ("carbon with two bonds of type 4", ["C", "C", "C"], ["1-2x4", "1-3x4"], "", 1),
    ("carbon with three bonds of type 4", ["C", "C", "C", "C"], ["1-2x4", "1-3x4", "1-4x4"], "", 0),
    ("carbon with one bond of type 4", ["C", "C"], ["1-2x4"], "", 3),
    ("sulfur with bonds of types 2, 2 and 1", ["S", "O", "O", "C"], ["1-2x2", "1-3x2", "1-4x1"], "", 1),
    ("hydrogen alone", ["H"], [], "", 0),
    ("a charge of zero in a line sets the columns aside", ["O"], [], "M  CHG  1   1   0\n", 2),
]


@pytest.mark.parametrize(("what", "atoms", "bonds", "lines", "want"), ROWS, ids=[row[0] for row in ROWS])
def test_added_hydrogens_are_those_of_the_table_of_valences(
    what: str, atoms: List[str], bonds: List[str], lines: str, want: int
) -> None:
    assert record_picture(table(atoms, bonds, lines)).added[0] == want


V3000 = """name

 a made-up table
  0  0  0     0  0            999 V3000
M  V30 BEGIN CTAB
M  V30 COUNTS 3 2 0 0 0
M  V30 BEGIN ATOM
M  V30 10 C 0 0 0 0
M  V30 30 O 1.4 -
M  V30 0 0 0 CHG=1
M  V30 20 C 2.8 0 0 0
M  V30 END ATOM
M  V30 BEGIN BOND
M  V30 1 1 10 30
M  V30 2 1 30 20 CFG=1
M  V30 END BOND
M  V30 END CTAB
M  END
"""


def test_a_record_of_v3000_has_the_picture_of_its_twin() -> None:
    twin = table(["C", "O", "C"], ["1-2x1", "2-3x1"], "M  CHG  1   2   1\n").replace("  2  3  1  0", "  2  3  1  1")
    assert record_picture(V3000) == record_picture(twin)
    assert record_picture(V3000).charges == {2: 1}


def test_lines_may_end_with_cr() -> None:
    text = table(["C", "O"], ["1-2x1"])
    assert record_picture(text.replace("\n", "\r\n")) == record_picture(text)


@pytest.mark.parametrize("text", ["", "name\n\n\n", "name\n\n\n  1  0  0  0  0  0  0  0  0  0  0 V2000\n", "a\n\n\n  x  0\nM  END\n"])
def test_what_has_no_table_is_refused_by_its_name(text: str) -> None:
    with pytest.raises(ValueError, match="has no table that can be drawn"):
        record_picture(text)


@pytest.mark.parametrize("name", NAMES)
def test_hydrogens_of_the_compounds_are_those_that_rdkit_counts(name: str) -> None:
    from rdkit import Chem

    for text in records_of(name):
        mol = Chem.MolFromMolBlock(text, removeHs=False)
        assert mol is not None
        want = tuple(atom.GetTotalNumHs() for atom in mol.GetAtoms())
        assert record_picture(text).added == want, text.split("\n", 1)[0]


# ---- claims


def member(*atoms: Atom, bonds: Sequence[Bond] = ()) -> Picture:
    return template_picture(template("", atoms, bonds))


LABELS = [
    ("methyl", [Atom(1, "C", hydrogens=3, point=1)], [], {1: 3}, {}),
    ("methylene with two points", [Atom(1, "C", hydrogens=2, point=3)], [], {1: 2}, {}),
    ("amino", [Atom(1, "N", hydrogens=2, point=1)], [], {1: 2}, {}),
    ("ammonio", [Atom(1, "N", charge=1, hydrogens=3, point=1)], [], {1: 3}, {}),
    ("at least one hydrogen, not filled", [Atom(1, "C", hydrogens=1, point=1)], [], {}, {1: ("\u22651H",)}),
    ("a list that asks for one", [Atom(1, "L", elements=("N", "O"), hydrogens=1, point=1)], [], {}, {1: ("\u22651H",)}),
    ("no hydrogen where there is room for one", [Atom(1, "N", hydrogens=0, point=1)], [], {}, {1: ("no H",)}),
    ("no hydrogen where there is no room", [Atom(1, "F", hydrogens=0, point=1)], [], {}, {}),
    ("nothing asked", [Atom(1, "C", point=1)], [], {}, {}),
    (
        "substitution, ring bonds, unsaturation",
        [Atom(1, "C", substitution=2, ring_bonds=0, unsaturated=True)],
        [],
        {},
        {1: ("D2", "x0", "u")},
    ),
    ("as drawn", [Atom(1, "C", substitution=-2, ring_bonds=-2)], [], {}, {1: ("Ds", "xs")}),
    ("methyl, as drawn", [Atom(1, "C", hydrogens=3, substitution=-2, point=1)], [], {1: 3}, {}),
    ("a halogen of a list, as drawn", [Atom(1, "L", elements=("F", "Cl"), substitution=-2, point=1)], [], {}, {}),
    ("oxygen or sulfur between two, as drawn", [Atom(1, "L", elements=("O", "S"), substitution=-2, point=3)], [], {}, {1: ("Ds",)}),
    ("sulfur between two, as drawn", [Atom(1, "S", substitution=-2, point=3)], [], {}, {1: ("Ds",)}),
    ("nitrogen of three bonds, as drawn", [Atom(1, "N", hydrogens=1, substitution=-2, point=3)], [], {1: 1}, {}),
    ("no element of a list, as drawn", [Atom(1, "L", elements=("F",), is_not=True, substitution=-2, point=1)], [], {}, {1: ("Ds",)}),
    ("six or more, four or more", [Atom(1, "C", substitution=6, ring_bonds=4)], [], {}, {1: ("D6+", "x4+")}),
    (
        "CH of a ring drawn with types 6 and 7",
        [Atom(1, "C", hydrogens=1), Atom(2, "C"), Atom(3, "O")],
        [Bond(1, 2, 7), Bond(1, 3, 6)],
        {1: 1},
        {},
    ),
    (
        "CH of a ring drawn with type 4",
        [Atom(1, "C", hydrogens=1), Atom(2, "C"), Atom(3, "C")],
        [Bond(1, 2, 4), Bond(1, 3, 4)],
        {1: 1},
        {},
    ),
    ("a bond of any type leaves it open", [Atom(1, "C", hydrogens=3), Atom(2, "C")], [Bond(1, 2, 8)], {}, {1: ("\u22653H",)}),
]


@pytest.mark.parametrize(("what", "atoms", "bonds", "shown", "notes"), LABELS, ids=[row[0] for row in LABELS])
def test_hydrogens_stand_in_the_label_where_they_fill_the_valence(
    what: str, atoms: List[Atom], bonds: List[Bond], shown: Any, notes: Any
) -> None:
    picture = member(*atoms, bonds=bonds)
    assert (picture.shown, picture.notes) == (shown, notes)


def test_no_drawing_of_the_examples_shouts_hydrogens() -> None:
    for name in NAMES:
        query = claim_of(name).query
        for part in [query.root, *(each for group in query.groups for each in group.members)]:
            notes = [note for held in template_picture(part).notes.values() for note in held]
            assert not [note for note in notes if note.endswith("H")], (name, part.smiles)


def test_a_link_is_noted_with_how_often_it_stands() -> None:
    picture = template_picture(claim_of("local_anaesthetics").query.root)
    assert picture.notes == {11: ("1\u20133\u00d7",)}
    assert picture.shown[11] == 2


def test_signs_that_occur_are_told() -> None:
    pictures = [member(*row[1], bonds=row[2]) for row in LABELS]
    told = meanings(pictures)
    assert list(told) == [sign for sign in NOTES if sign in ("no H", "\u2265nH", "Dn", "Ds", "xn", "xs", "u", "s/a", "d/a", "any")]
    assert meanings([]) == {}


def _texts(svg: str) -> List[Any]:
    return list(xml.etree.ElementTree.fromstring(svg).iter(SVG + "text"))


def test_a_list_does_not_cover_its_attachment_point() -> None:
    for elements in (("F", "Cl"), ("F", "Cl", "Br", "I"), ("C", "N", "O", "S", "Se", "P", "F")):
        root = template("", [Atom(1, "C", x=0), Atom(2, "R#", x=1.4)], [Bond(1, 2, 1)], [Site(2, (1,), (1,))])
        group = Group(1, (template("", [Atom(1, "L", elements=elements, point=1)], [], name="halogen"),))
        svg = claim_svg(SimpleNamespace(query=Query("", root, (group,))))
        tree = xml.etree.ElementTree.fromstring(svg)
        inner = next(each for each in tree.iter(SVG + "svg") if each.findtext(SVG + "title") == "halogen")
        point = inner.find(SVG + "circle[@class='point']")
        label = next(each for each in inner.iter(SVG + "text") if (each.text or "").startswith(elements[0]))
        assert point is not None and label.get("text-anchor") == "start"
        line = inner.find(SVG + "line")
        assert line is not None
        # the point is left of the bond, the bond left of the label, and the bond can be seen
        ends = sorted((float(line.get("x1", 0)), float(line.get("x2", 0))))
        assert float(point.get("cx", 0)) == ends[0] and ends[1] <= float(label.get("x", 0)) and ends[1] - ends[0] >= 12


# ---- SVG


@pytest.mark.parametrize("name", NAMES)
def test_each_hit_is_marked_at_each_of_its_atoms_and_bonds(name: str) -> None:
    hits = hits_of(name)
    assert len(hits) > 5
    for hit in hits:
        tree = xml.etree.ElementTree.fromstring(hit_svg(hit))
        assert len(list(tree.iter(SVG + "circle"))) == len(hit.map)
        numbers = [float(value) for each in tree.iter() for key, value in each.items() if key in ("x1", "y1", "cx", "cy", "x", "y")]
        assert numbers and all(math.isfinite(number) for number in numbers)


def test_parts_have_the_colours_of_their_groups() -> None:
    hit = next(hit for hit in hits_of("phenoxy_acids") if hit.name == "2,4-D")
    fills = {each.get("fill") for each in xml.etree.ElementTree.fromstring(hit_svg(hit)).iter(SVG + "circle")}
    assert len(fills) == 3 and len({hue_of(0), hue_of(1), hue_of(2)}) == 3


def test_a_map_of_another_length_is_refused() -> None:
    hit = hits_of("phenoxy_acids")[0]
    hit.map = hit.map[:-1]
    with pytest.raises(ValueError, match="has 13 atoms, and its choice asks for 14"):
        hit_svg(hit)


@pytest.mark.parametrize("name", NAMES)
def test_a_claim_is_drawn_with_its_groups_and_what_has_no_room_is_counted(name: str) -> None:
    claim = claim_of(name)
    svg = claim_svg(claim, width=480)
    said = [each.text or "" for each in _texts(svg)]
    for group in claim.query.groups:
        assert f"R{group.label}" in said
    left = [int(text[1:].split()[0]) for text in said if text.endswith(" more")]
    drawn = len([each for each in xml.etree.ElementTree.fromstring(svg).iter(SVG + "svg")]) - 2
    assert drawn + sum(left) == sum(len(group.members) for group in claim.query.groups)


def test_what_a_file_says_is_text() -> None:
    hit = hits_of("phenoxy_acids")[0]
    hit.name = '<img src=x onerror="alert(1)">&'
    tree = xml.etree.ElementTree.fromstring(hit_svg(hit))
    assert tree.get("aria-label", "").startswith(hit.name)
    assert not [each for each in tree.iter() if "img" in each.tag]
    root = template("", [Atom(1, "R#"), Atom(2, "C", x=1.4)], [Bond(1, 2, 1)], [Site(1, (1,), (2,))])
    claim = SimpleNamespace(query=Query("<b>&", root, (Group(1, (template("", [Atom(1, "C", point=1)], [], name="<i>\"&"),)),)))
    tree = xml.etree.ElementTree.fromstring(claim_svg(claim))
    assert "<i>\"&" in [each.text for each in tree.iter(SVG + "text")] and tree.get("aria-label") == "<b>&"


def test_a_table_without_coordinates_is_laid_out_by_rdkit() -> None:
    flat = record_picture(re.sub(r"(?m)^ +\d\.\d{4} +\d\.\d{4}", "    0.0000    0.0000", table(["C", "O", "C"], ["1-2x1", "2-3x1"])))
    assert not flat.lies_apart
    drawn = laid_out(flat)
    assert drawn is not None and len(set(drawn.places)) == 3
    assert (drawn.symbols, drawn.bonds, drawn.added) == (flat.symbols, flat.bonds, flat.added)


def test_without_rdkit_it_is_said_that_nothing_is_drawn(monkeypatch: pytest.MonkeyPatch) -> None:
    import sys

    monkeypatch.setitem(sys.modules, "rdkit", None)
    hit = hits_of("phenoxy_acids")[0]
    assert len(list(xml.etree.ElementTree.fromstring(hit_svg(hit)).iter(SVG + "circle"))) == len(hit.map)
    hit.text = re.sub(r"(?m)^ +-?\d+\.\d{4} +-?\d+\.\d{4}", "    0.0000    0.0000", hit.text)
    assert [each.text for each in _texts(hit_svg(hit))] == ["Not drawn: no coordinates, and no RDKit here."]


def test_an_added_hydrogen_that_a_hit_lies_on_is_drawn() -> None:
    query = Query("", template("", [Atom(1, "O"), Atom(2, "H", x=1.0)], [Bond(1, 2, 1)]))
    text = table(["C", "O"], ["1-2x1"])
    hit = SimpleNamespace(claim=SimpleNamespace(query=query), record=1, name="methanol", text=text, choice=(), map=(2, 6))
    tree = xml.etree.ElementTree.fromstring(hit_svg(hit))
    assert [each.text for each in tree.iter(SVG + "text")] == ["O", "H"]
    assert len(list(tree.iter(SVG + "circle"))) == 2


def test_links_are_grey() -> None:
    root = template("", [Atom(1, "N"), Atom(2, "C", x=1.4), Atom(3, "O", x=2.8)], [Bond(1, 2, 1), Bond(2, 3, 1)], links=[Link(2, 3, 1, 3)])
    text = table(["N", "C", "C", "O"], ["1-2x1", "2-3x1", "3-4x1"])
    hit = SimpleNamespace(claim=SimpleNamespace(query=Query("", root)), record=1, name="", text=text, choice=(2,), map=(1, 2, 3, 4))
    fills = [each.get("fill", "") for each in xml.etree.ElementTree.fromstring(hit_svg(hit)).iter(SVG + "circle")]
    assert fills[1] == fills[2] != fills[0] == fills[3]

"""Records drawn as claims draw them: each mend by a pair before and after, and RDKit's process with its limits."""
import random
import re
import sys
from pathlib import Path
from typing import List, Optional, Tuple

import pytest
from rdkit import Chem
from rdkit.Chem import rdDepictor

from markush import Claim, Library
from markush.errors import MarkushError, Refused
from markush.normalize import normalize, normalize_file
from markush.records import RecordText, read_records

TOP = Path(__file__).resolve().parents[2]


def record(smiles: str, name: str = "drawn", type_4: bool = False, as_it_is: bool = True) -> RecordText:
    """A record of a SMILES: with bonds of type 4 where aromatic, or with the bonds and charges as the SMILES says them."""
    params = Chem.SmilesParserParams()
    params.sanitize, params.removeHs = not as_it_is, False
    mol = Chem.MolFromSmiles(smiles, params)
    mol.UpdatePropertyCache(False)
    rdDepictor.Compute2DCoords(mol)
    mol.SetProp("_Name", name)
    return RecordText(1, (Chem.MolToMolBlock(mol, kekulize=not type_4) + "> <ID>\n7\n\n$$$$\n").encode(), 1)


def one(made):
    assert len(made) == 1
    return made[0]


def table(raw: bytes):
    """The symbols, charges and bonds of a record."""
    mol = Chem.MolFromMolBlock(raw.decode(), sanitize=False, removeHs=False)
    atoms = [(atom.GetSymbol(), atom.GetFormalCharge()) for atom in mol.GetAtoms()]
    return atoms, sorted((*sorted((bond.GetBeginAtomIdx(), bond.GetEndAtomIdx())), int(bond.GetBondTypeAsDouble() * 2)) for bond in mol.GetBonds())


CELECOXIB = "Cc1ccc(cc1)-c1cc(nn1-c1ccc(cc1)S(N)(=O)=O)C(F)(F)F"
NITRAZEPAM = "O=C1CN=C(C2=CC=CC=C2)C2=C(N1)C=CC(=C2)N(=O)=O"

# name, the record, what is asked, the SMILES after it, words of what was changed
PAIRS = [
    ("celecoxib by type 4", record(CELECOXIB, type_4=True, as_it_is=False), {}, CELECOXIB, "aromatic bonds of the atoms 2, 3, 4, 5, 6, 7, 8, 9, 10, 11, 12"),
    ("nitrazepam by N(=O)=O", record(NITRAZEPAM), {}, NITRAZEPAM.replace("N(=O)=O", "[N+](=O)[O-]"), "a nitro group or N-oxide is drawn with charges: N19 +1"),
    ("an azide", record("CCN=N#N"), {}, "CCN=[N+]=[N-]", "an azide or diazo group is drawn with charges: N4 +1, N5 -1"),
    ("an N-oxide by a double bond", record("CN(C)(C)=O"), {}, "C[N+](C)(C)[O-]", "N-oxide is drawn with charges"),
    ("sodium valproate", record("CCCC(CCC)C(=O)[O-].[Na+]"), {"largest": True, "neutral": True}, "CCCC(CCC)C(=O)O", "left out beside the largest part: [Na+]"),
    ("disodium succinate", record("[Na+].[O-]C(=O)CCC(=O)[O-].[Na+]"), {"largest": True, "neutral": True}, "OC(=O)CCC(=O)O", "the anions O2, O9"),
    ("a hydrochloride", record("CCN(CC)CC.Cl"), {"largest": True}, "CCN(CC)CC", "left out beside the largest part: Cl"),
    ("2-hydroxypyridine", record("OC1=CC=CC=N1"), {"tautomer": "canonical"}, "O=c1cccc[nH]1", "the tautomer O=c1cccc[nH]1 is drawn"),
    ("4-hydroxyquinazoline", record("OC1=NC=NC2=C1C=CC=C2"), {"tautomer": "canonical"}, "O=c1[nH]cnc2ccccc12", "is drawn in place of"),
    ("2-hydroxybenzimidazole", record("OC1=NC2=C(N1)C=CC=C2"), {"tautomer": "canonical"}, "O=c1[nH]c2ccccc2[nH]1", "is drawn in place of"),
    ("a lactim", record("OC1=NCCC1"), {"tautomer": "canonical"}, "O=C1CCCN1", "is drawn in place of"),
]


@pytest.mark.parametrize("name, before, asked, after, words", PAIRS, ids=[name for name, *_ in PAIRS])
def test_a_pair_before_and_after(name: str, before: RecordText, asked: dict, after: str, words: str) -> None:
    made = one(list(normalize([before], **asked)))
    mol = Chem.MolFromMolBlock(made.raw.decode())
    assert Chem.MolToSmiles(mol) == Chem.CanonSmiles(after)
    assert any(words in change for change in made.changes) and made.fault is None
    assert made.raw.startswith(b"drawn\n") and made.raw.endswith(b"> <ID>\n7\n\n$$$$\n")
    assert 3 not in [kind for *_, kind in table(made.raw)[1]]
    assert list(normalize([RecordText(1, made.raw, 1)], **asked))[0].changes == ()


def test_atoms_keep_their_order_and_places() -> None:
    before = PAIRS[1][1]
    made = one(list(normalize([before])))
    lines, after = before.text.split("\n"), made.raw.decode().split("\n")
    assert [line[:34] for line in lines[4:25]] == [line[:34] for line in after[4:25]]


def test_what_needs_no_mend_keeps_its_bytes() -> None:
    for path in sorted(TOP.glob("examples/*/compounds.sdf")):
        found = list(read_records(path))
        made = list(normalize(found))
        assert [it.raw for it in made] == [it.raw for it in found] and not any(it.changes or it.fault for it in made)


def test_bonds_of_type_4_in_rings_of_six_stay() -> None:
    before = record("Cc1ccccc1", type_4=True, as_it_is=False)
    assert b"  4  0" in before.raw and one(list(normalize([before]))).raw == before.raw


def test_a_nitro_group_and_an_acid_are_no_acid_to_mend() -> None:
    before = record("O=[N+]([O-])c1ccccc1C(=O)O", as_it_is=False)
    assert one(list(normalize([before], neutral=True))).changes == ()


def test_a_dative_bond_is_drawn_single() -> None:
    raw = record("CN(C)(C)O").raw.replace(b"  2  5  1  0", b"  2  5  9  0")
    made = one(list(normalize([RecordText(1, raw, 1)])))
    assert made.changes == ("the dative bond N2-O5 is drawn single, with the charges + and -",)
    assert Chem.MolToSmiles(Chem.MolFromMolBlock(made.raw.decode())) == Chem.CanonSmiles("C[N+](C)(C)[O-]")


def test_all_tautomers_are_records_with_their_parents_number() -> None:
    records = [record("CCO", "ethanol"), RecordText(2, record("CC1=CC=NN1", "5-methylpyrazole").raw, 40)]
    made = list(normalize(records, tautomer="all"))
    assert [it.parent for it in made][:2] == [1, 2] and len(made) > 2 and {it.parent for it in made[1:]} == {2}
    forms = {Chem.MolToSmiles(Chem.MolFromMolBlock(it.raw.decode())) for it in made[1:]}
    assert {Chem.CanonSmiles("CC1=CC=NN1"), Chem.CanonSmiles("CC1=NNC=C1")} <= forms
    assert all(RecordText(1, it.raw, 1).data == {"PARENT": str(it.parent), "ID": "7"} for it in made)
    assert all(it.raw.startswith(b"5-methylpyrazole\n") for it in made[1:]) and "1 further tautomer is drawn: " in made[1].changes[0]


def test_the_lines_before_the_table_stay_as_they_were() -> None:
    table_of = record("CCN(=O)=O").raw.split(b"\n", 3)[3]
    header = "Säure  \n  ACME    0102030405 3D   1   1.00000     0.00000    12\n a comment, in the file's own words \n".encode("latin-1")
    for end in (b"\n", b"\r\n"):
        raw = (header + table_of).replace(b"\n", end)
        made = one(list(normalize([RecordText(1, raw, 1)])))
        assert made.changes and made.raw.startswith(header.replace(b"\n", end)) and made.raw.count(b"\n") == made.raw.count(end)
        assert made.raw.endswith(b"$$$$" + end)
    blank = one(list(normalize([RecordText(1, b"\n\n\n" + table_of, 1)])))
    assert blank.changes and blank.raw.startswith(b"\n\n\n  5  4")


def edited(raw: bytes, *edits: Tuple[str, str]) -> RecordText:
    text = raw.decode()
    for old, new in edits:
        assert text.count(old) == 1, old
        text = text.replace(old, new)
    return RecordText(1, text.encode(), 1)


NITRO = record("CCN(=O)=O").raw
FIRST = NITRO.decode().split("\n")[4]
DRAWN_PHENOL = record("[H]OC1=CC=CC=N1").raw
# name, the record, what is asked, what is told behind the first change
ALSO = [
    ("nothing more", edited(NITRO), {}, []),
    ("type 4 in rings of six", record("Cc1ccccc1N(=O)=O", type_4=True), {}, ["the aromatic bonds of the atoms 2, 3, 4, 5, 6, 7 are drawn single and double"]),
    ("a wedge at no stereo centre", edited(NITRO, ("  1  2  1  0", "  1  2  1  1")), {}, ["stereo mark of the bond C1-C2: none in place of 1 from the atom 1"]),
    ("a valence that is written", edited(NITRO, (FIRST, FIRST[:48] + "  4" + FIRST[51:])), {}, ["valence of C1: none in place of 4"]),
    ("a parity", edited(NITRO, (FIRST, FIRST[:39] + "  1" + FIRST[42:])), {}, ["stereo parity of C1: none in place of 1"]),
    ("a line that RDKit doesn't know", edited(NITRO, ("M  END", "M  XYZ  1   1\nM  END")), {}, ["left out: the line 'M  XYZ  1   1'"]),
    ("an alias and a data group stay", edited(NITRO, ("M  END", "A    1\nEt\nM  STY  1   1 DAT\nM  SAL   1  1   1\nM  SDT   1 FIELD\nM  SED   1 told\nM  END")), {}, []),
    ("drawn hydrogens of a tautomer", edited(DRAWN_PHENOL), {"tautomer": "canonical"}, ["left out, to be added again by what reads the record: the drawn hydrogen H1"]),
    ("a carbon that lacks a hydrogen", record("CCN(=O)=O.[CH2]C"), {}, ["unpaired electrons of C6: 1 in place of none"]),
]


@pytest.mark.parametrize("name, before, asked, told", ALSO, ids=[name for name, *_ in ALSO])
def test_what_rdkit_changes_besides_is_told(name: str, before: RecordText, asked: dict, told: List[str]) -> None:
    made = one(list(normalize([before], **asked)))
    assert list(made.changes[1:]) == told


# what may stand in three columns of an atom's line, and in further lines
MARKS = {39: "stereo parity", 45: "stereo care box", 48: "valence", 60: "map number", 63: "inversion mark", 66: "exact change mark"}
LINES = (["M  ISO  1   1  13"], ["M  XYZ"], ["A    1", "Label"], ["V    1 value"], ["M  STY  1   1 DAT", "M  SAL   1  1   1", "M  SDT   1 F", "M  SED   1 v"])


def test_whatever_differs_in_a_changed_record_is_told() -> None:
    """Compounds with a nitro group to mend and marks drawn by chance: the lines before and after are compared column by column."""
    draw, records = random.Random(73), [it for path in sorted(TOP.glob("examples/*/compounds.sdf")) for it in read_records(path)]
    befores = []
    for number, held in enumerate(draw.sample(records, 60), 1):
        mol = Chem.CombineMols(Chem.MolFromMolBlock(held.text, removeHs=False), Chem.MolFromMolBlock(NITRO.decode(), sanitize=False))
        mol.UpdatePropertyCache(False)
        lines = Chem.MolToMolBlock(mol, kekulize=draw.random() < 0.3).split("\n")
        atoms, bonds = int(lines[3][:3]), int(lines[3][3:6])
        for _ in range(draw.randint(0, 4)):
            at, column = draw.randrange(4, 4 + atoms - 5), draw.choice([39, 45, 60, 63, 66])
            lines[at] = lines[at][:column] + f"{draw.randint(1, 3):3d}" + lines[at][column + 3 :]
        for at in draw.sample(range(4 + atoms, 4 + atoms + bonds), draw.randint(0, 3)):
            lines[at] = lines[at][:9] + f"{3 if lines[at][6:9] == '  2' else draw.choice([1, 4, 6]):3d}"
        lines[-2:-2] = [line for some in draw.sample(LINES, draw.randint(0, 2)) for line in some]
        befores.append(RecordText(number, ("\n".join(lines) + "$$$$\n").encode(), 1))
    changed = 0
    for before, made in zip(befores, normalize(befores)):
        changed += bool(made.changes)
        was, now, told = before.lines, made.raw.decode().split("\n"), " | ".join(made.changes)
        atoms, bonds = int(was[3][:3]), int(was[3][3:6])
        assert now[3][:6] == was[3][:6]
        for n in range(atoms):
            one, other = was[4 + n], now[4 + n]
            assert one[:34] == other[:34]
            for at, what in MARKS.items():
                if one[at : at + 3] != other[at : at + 3] and made.changes:
                    assert f"{what} of {one[31:34].strip()}{n + 1}: " in told
        for one, other in zip(was[4 + atoms : 4 + atoms + bonds], now[4 + atoms : 4 + atoms + bonds]):
            ends = [int(one[:3]), int(one[3:6])]
            if one[:6] != other[:6] or one[9:12] != other[9:12]:
                assert re.search(rf"stereo mark of the bond [A-Z][a-z]?{ends[0]}-[A-Z][a-z]?{ends[1]}:", told)
            if one[6:9] != other[6:9]:
                assert "aromatic bonds of the atoms" in told if one[6:9] == "  4" else max(ends) > atoms - 5
        for line in was[4 + atoms + bonds : was.index("M  END")]:
            assert line[:6] == "M  CHG" or any(it.startswith(line) for it in now) or f"left out: the line '{line}'" in told
    assert changed > 50


def test_a_v3000_table_tells_what_it_loses() -> None:
    mol = Chem.MolFromMolBlock(NITRO.decode(), sanitize=False)
    text = Chem.MolToMolBlock(mol, forceV3000=True, kekulize=False)
    at = next(line for line in text.split("\n") if line.startswith("M  V30 1 C "))
    for old, new, told in (("", "", []), (at, at + " CFG=1", ["CFG of C1: none in place of 1"]), (at, at + " -\nM  V30 VAL=4", ["VAL of C1: none in place of 4"])):
        raw = (text.replace(old, new) if old else text) + "$$$$\n"
        assert list(one(list(normalize([RecordText(1, raw.encode(), 1)]))).changes[1:]) == told


# what a compound is called, as its file draws it, and a claim of the form that its name says
TAUTOMERS = [
    ("2-pyridone", "OC1=CC=CC=N1", "O=C1[NH]C=CC=C1"),
    ("quinazolin-4(3H)-one", "OC1=NC=NC2=C1C=CC=C2", "O=C1[NH]C=NC2=C1C=CC=C2"),
    ("1,3-dihydrobenzimidazol-2-one", "OC1=NC2=C(N1)C=CC=C2", "O=C1[NH]C2=C([NH]1)C=CC=C2"),
    ("2-pyrrolidone", "OC1=NCCC1", "O=C1[NH]CCC1"),
    ("5-methyl-1H-pyrazole", "CC1=NNC=C1", "CC1=CC=N[NH]1"),
]


@pytest.mark.parametrize("which, found", [(None, []), ("canonical", [1, 2, 3, 4]), ("all", [1, 2, 3, 4, 5])])
def test_five_tautomers_drawn_otherwise_than_their_claims(program: Path, tmp_path: Path, which: Optional[str], found: List[int]) -> None:
    """RDKit's canonical form is the claim's for four of five; of all forms one is the claim's."""
    records = [RecordText(n, record(drawn, name).raw, 1) for n, (name, drawn, _) in enumerate(TAUTOMERS, 1)]
    made = list(normalize(records, tautomer=which))
    (tmp_path / "made.sdf").write_bytes(b"".join(it.raw for it in made))
    with Library(program=program) as lib:
        lib.load(tmp_path / "made.sdf")
        hit = [
            {made[it.record - 1].parent for it in lib.search(Claim.from_list(f"root {claim}"), per="record")} for _, _, claim in TAUTOMERS
        ]
    assert [n for n, parents in enumerate(hit, 1) if n in parents] == found
    if which == "all":
        with Library(program=program) as lib:
            lib.load(tmp_path / "made.sdf")
            assert {(it.name, it.data["PARENT"]) for it in lib} == {(name, str(n)) for n, (name, *_) in enumerate(TAUTOMERS, 1)}


# the records of examples/vendor/drawn_otherwise.sdf, a claim of them, its mend, and which records each hits
MENDS = [
    ("type 4 in a pyrazole", "root CC1=CC(C)=NN1c1ccccc1", "root CC1=,:C-,:C(C)=,:N-,:N-,:1c1ccccc1", [], [1]),
    ("a nitro group of five bonds", "root c1ccccc1[N+](=O)[O-]", "root c1ccccc1[R1]\nR1 *[N+](=O)[O-]\nR1 *N(=O)=O", [], [2]),
    ("an acid's salt", "root CC(=O)[OH]", "root CC(=O)[O;D1]", [], [3]),
    ("lactams as lactims", "root C[NH]C=O", "root C-,:[R1]\nR1 *[NH]C=O\nR1 *N=,:C[OH]", [2], [2, 4, 5, 6, 7]),
    ("a pyrazole's other nitrogen", "root CC1=N[NH]C=C1", "root C[R1]\nR1 *C1=N[NH]C=C1\nR1 *C1=CC=N[NH]1", [], [8]),
    ("drawn hydrogens", "root [CH3][CH2][OH]", "root [CH3][CH2][OH]", [9], [9]),
    ("an N-oxide", "root CN(C)[CH2]c1ccccc1", "root C[N;D3](C)[CH2]c1ccccc1", [10, 11], [10]),
    ("an N-oxide, closed", "root CN(C)[CH2]c1ccccc1", "root CN(C)[CH2]c1ccccc1\nclosed", [10, 11], [10]),
]


@pytest.mark.parametrize("name, claim, mended, before, after", MENDS, ids=[name for name, *_ in MENDS])
def test_the_mend_of_a_claim(program: Path, name: str, claim: str, mended: str, before: List[int], after: List[int]) -> None:
    with Library(program=program) as lib:
        lib.load(TOP / "examples" / "vendor" / "drawn_otherwise.sdf")
        found = [[hit.record for hit in lib.search(Claim.from_list(it), per="record")] for it in (claim, mended)]
    assert found == [before, after]


def test_where_there_are_more_tautomers_than_rdkit_looks_at_this_is_told() -> None:
    before = record("CC(=O)" + "CC(=O)" * 6 + "CC1=NC(O)=NC2=C1N=C(O)N2")
    for which, count in (("canonical", 1), ("all", 200)):
        made = list(normalize([before], tautomer=which))
        assert made[0].changes[0] == "there are more tautomers than the 200 that RDKit looked at" and len(made) == count


def test_what_rdkit_cannot_read_is_handed_on_as_it_is() -> None:
    bad = record("CC(C)(C)(C)C", "five bonds")
    cut = RecordText(2, b"cut\n\n\n  1  0\n$$$$\n", 9)
    unread = RecordText(3, b"CC(C none\n", 3, "RDKit doesn't read the SMILES CC(C")
    made = list(normalize([bad, cut, unread]))
    assert [it.raw for it in made] == [bad.raw, cut.raw, unread.raw]
    assert "RDKit refuses the structure" in made[0].fault and "M  END" in made[1].fault and "CC(C" in made[2].fault


def test_a_file_is_normalized_into_another(tmp_path: Path) -> None:
    (tmp_path / "in.sdf").write_bytes(b"".join(before.raw for _, before, asked, *_ in PAIRS[:4]) + record("CC(C)(C)(C)C", "bad").raw)
    summary, told = normalize_file(tmp_path / "in.sdf", tmp_path / "out.sdf")
    assert (summary.read, summary.written, summary.changed) == (5, 5, 4) and [it[:2] for it in summary.unread] == [(5, "bad")]
    assert [it.number for it in read_records(tmp_path / "out.sdf")] == [1, 2, 3, 4, 5] and len(told) == 5


# what stands in for RDKit's process: it fails on the second record that it is asked
STAND_IN = """import json, os, signal, sys
for line in sys.stdin:
    if "second" in json.loads(line)["block"]:
        {deed}
    print(json.dumps({{"blocks": [], "changes": []}}), flush=True)
"""


@pytest.mark.parametrize("deed, words", [("os.kill(os.getpid(), signal.SIGPROF)", "took more than 20 seconds"), ("os._exit(9)", "ended with the status 9")])
def test_a_process_that_ends_over_a_record_is_started_again(tmp_path: Path, deed: str, words: str) -> None:
    (tmp_path / "stand_in.py").write_text(STAND_IN.format(deed=deed))
    records = [RecordText(n, record("C", name).raw, 1) for n, name in enumerate(("first", "second", "third"), 1)]
    made = list(normalize(records, command=[sys.executable, str(tmp_path / "stand_in.py")]))
    assert [it.raw for it in made] == [it.raw for it in records]
    assert [it.fault is None for it in made] == [True, False, True] and words in made[1].fault


def test_processor_time_ends_rdkits_process(tmp_path: Path) -> None:
    from markush import normalizing

    busy = Path(normalizing.__file__).read_text().replace("def normalized(", "def _normalized(").replace(
        "def main(", "def normalized(block, rules, chem):\n    while True:\n        pass\n\n\ndef main(", 1
    )
    (tmp_path / "busy.py").write_text(busy)
    made = one(list(normalize([record("CCO")], seconds=0.5, command=[sys.executable, str(tmp_path / "busy.py"), "0.5", "0"])))
    assert made.fault == "RDKit took more than 0.5 seconds"


def test_memory_has_a_limit() -> None:
    import resource

    held = resource.getrlimit(resource.RLIMIT_AS)
    made = one(list(normalize([record("CCO")], megabytes=4096)))
    assert made.fault is None and resource.getrlimit(resource.RLIMIT_AS) == held


def test_memory_beyond_the_limit_is_a_records_fault(tmp_path: Path) -> None:
    from markush import normalizing

    greedy = Path(normalizing.__file__).read_text().replace("def normalized(", "def _normalized(").replace(
        "def main(", "def normalized(block, rules, chem):\n    return [], [str(len(bytearray(1 << 40)))]\n\n\ndef main(", 1
    )
    (tmp_path / "greedy.py").write_text(greedy)
    command = [sys.executable, str(tmp_path / "greedy.py"), "20", "4096"]
    made = list(normalize([record("CCO"), record("CCC")], command=command))
    assert [it.fault for it in made] == ["RDKit needs more than 4096 megabytes"] * 2 and made[0].raw == record("CCO").raw


def test_words_that_are_not_understood() -> None:
    with pytest.raises(Refused, match="canonical or all"):
        list(normalize([], tautomer="most"))
    with pytest.raises(MarkushError, match="is no answer"):
        list(normalize([record("C")], command=["/bin/echo", "nothing"]))

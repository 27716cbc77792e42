"""Why records aren't hits: near misses whose reasons are known, and what is said where no single demand is it."""
from __future__ import annotations

from pathlib import Path
from typing import Optional

import pytest

from markush import Claim, Library, Record, cover_rows, covers, why_not
from markush.reasons import why_not_each

# record, kind, and what the words hold; the records are those of the phenoxyacetic acids
MISSES = [
    (1, "hit", "it is a hit"),
    (9, "group", "R2 is none of its members"),  # fluorine
    (10, "logic", "the logic"),  # R1 without R2
    (14, "logic", "the logic for R1"),  # R1 twice
    (15, "hydrogens", "the root's atom 8 (C) asks for at least 2 hydrogens"),  # a propionic acid
    (22, "hydrogens", "the root's atom 11 (O) asks for at least 1 hydrogen"),  # a methyl ester
    (24, "hydrogens", "the root's atom 11 (O) asks for at least 1 hydrogen"),  # a salt
    (26, "root", "the root's atom 7 (O)"),  # sulfur in the ether's place
    (32, "root", "the root doesn't lie in it"),  # no acid of this kind
]


@pytest.mark.parametrize("record, kind, said", MISSES, ids=[f"record {record}" for record, _, _ in MISSES])
def test_near_misses(loaded: Library, acids: Claim, record: int, kind: str, said: str) -> None:
    reason = loaded.why_not(acids, record, timeout=1e6)
    assert reason.kind == kind and said in str(reason)


def record(smiles: str) -> Record:
    from rdkit import Chem

    return Record(1, (Chem.MolToMolBlock(Chem.MolFromSmiles(smiles))).encode())


CLAIM = "title aryl\nroot c1cc([2*])ccc1[1*]\nR1 *Cl\nR1 *[CH3] methyl\nR2 *F\nR2 *Br\nlogic R1 1\nlogic R2 1"
ROWS = [
    ("Cc1ccc(F)cc1", "hit", "it is a hit"),
    ("CCc1ccc(F)cc1", "group", "R1 is none of its members"),
    ("Ic1ccc(Cl)cc1", "group", "R2 is none of its members"),
    ("Cc1ccc(I)cc1", "group", "R2 is none of its members"),
    ("Cc1ccccc1", "logic", "R2"),
    ("Ic1ccc(I)cc1", "several", "R1 and R2 have no such members"),
    ("CCCC", "root", "the root doesn't lie in it"),
    ("Cc1ccc(F)nc1", "root", "the root's atom"),
]


@pytest.mark.parametrize("smiles, kind, said", ROWS, ids=[smiles for smiles, _, _ in ROWS])
def test_one_demand_or_several(program: Path, smiles: str, kind: str, said: str) -> None:
    reason = why_not(Claim.from_list(CLAIM), record(smiles), timeout=1e6)
    assert reason.kind == kind and said in str(reason)


NESTED = """title ethers of three levels
root c1ccccc1[R1]
R1 *[CH2][R2] benzyl
R1 *Cl
R2 *O[R3] ether
R2 *N
R3 *[CH3] methyl
R3 *[CH2][CH3] ethyl
logic R1 1
logic R2 1
logic R3 1
"""
# each level's group, where it is at fault
LEVELS = [
    ("COCc1ccccc1", "it is a hit"),
    ("CCCOCc1ccccc1", "R3 is none of its members"),
    ("CSCc1ccccc1", "R2 is none of its members"),
    ("COC(C)c1ccccc1", "R1 is none of its members"),
    ("OCc1ccccc1", "the numbers of the logic for R3 aren't met"),
    ("Cc1ccccc1", "the numbers of the logic for R2 aren't met"),
    ("c1ccccc1", "the numbers of the logic for R1 aren't met"),
]


@pytest.mark.parametrize("smiles, said", LEVELS, ids=[smiles for smiles, _ in LEVELS])
def test_of_groups_inside_one_another_the_one_at_fault_is_named(program: Path, smiles: str, said: str) -> None:
    assert str(why_not(Claim.from_list(NESTED), record(smiles), timeout=1e6)) == said


@pytest.mark.parametrize("name", ["anilinoquinazolines", "phenoxy_acids"])
def test_what_is_passed_over_would_have_no_hit(program: Path, examples: Path, name: str, monkeypatch: pytest.MonkeyPatch) -> None:
    """Ways are passed over where a weaker claim has no hit; the reasons are those that asking each of them gives."""
    import markush.reasons

    claim = Claim.read(examples / name / "claim.rgf")
    with Library(program=program) as lib:
        lib.load(examples / name / "compounds.sdf")
        hits = {hit.record for hit in lib.search(claim, per="record")}
        missed = [lib[number] for number in lib.numbers if number not in hits]
    told = why_not_each(claim, missed, 1e6)
    loose, rules_out = markush.reasons._all_relaxed(claim.query), markush.reasons._Asked.rules_out

    def asks_each(asked, query):  # type: ignore[no-untyped-def]
        if query != loose:
            return False
        # only a single atom or bond of the root can be left out then
        ways = list(markush.reasons._single_ways(claim))[:-1]
        out = rules_out(asked, query)
        assert not out or asked.first(ways) is None
        return out

    monkeypatch.setattr(markush.reasons._Asked, "rules_out", asks_each)
    assert {record.number: why_not(claim, record, 1e6) for record in missed} == told
    assert len(told) == len(missed) > 10 and "not told in time" not in set(map(str, told.values()))


def test_a_site_that_is_one_of_several_is_named(program: Path) -> None:
    claim = Claim.from_list("root c1cc([1*])ccc1[1*]\nR1 *Cl\nlogic R1 2")
    reason = why_not(claim, record("Clc1ccc(Br)cc1"), timeout=1e6)
    assert reason.kind == "group" and reason.label == 1 and str(reason).startswith("R1 at atom ")


def test_time_that_is_over_is_told(program: Path) -> None:
    times = [0.0]

    def clock() -> float:
        times[0] += 1000.0
        return times[0]

    class Never:
        def register(self, *_: object) -> None:
            pass

        def poll(self, pause: Optional[float] = None) -> "list[object]":
            return [1] if pause is None else []

    import markush.session

    with pytest.MonkeyPatch.context() as patched:
        patched.setattr(markush.session.select, "poll", Never)
        reason = why_not(Claim.from_list(CLAIM), record("CCCC"), timeout=5, clock=clock)
    assert reason.kind == "time" and str(reason) == "not told in time"


def test_covers(loaded: Library, acids: Claim) -> None:
    loaded.remove(range(10, 34))
    phenols = Claim.from_list("title ethers\nroot c1ccccc1O[1*]\nR1 *[CH3]")
    rows = cover_rows(loaded, {"acids": acids, "ethers": phenols}, timeout=1e6)
    assert [(row.record, row.claim, row.hit is not None) for row in rows][:4] == [
        (1, "acids", True),
        (1, "ethers", False),
        (2, "acids", True),
        (2, "ethers", False),
    ]
    assert [row.words for row in rows if row.record == 9] == ["R2 is none of its members", "R1 is none of its members"]
    frame = covers(loaded, [acids, phenols], why=False)
    assert list(frame.columns) == ["record", "name", "claim", "hit", "choice", "why"]
    assert list(frame["claim"].unique()) == ["phenoxyacetic acid", "ethers"]
    assert list(frame[frame["hit"]]["record"]) == [1, 2, 3, 4, 5, 6, 7, 8]


def test_one_molecule(acids: Claim, program: Path) -> None:
    from rdkit import Chem

    (row,) = cover_rows(Chem.MolFromSmiles("OC(=O)COc1ccc(Cl)cc1"), [acids])
    assert row.hit is not None and row.words.endswith("R2 = *Cl")

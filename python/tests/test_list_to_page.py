"""From a blank list to the page of hits, by the tools alone: each step on what the step before it wrote."""
from __future__ import annotations

import csv
import json
import os
import re
import subprocess
import sys
from pathlib import Path
from typing import Any, Dict, List

import pytest
from rdkit import Chem

from markush import Claim
from markush.rgfile import code_count, read_query, valid_code_count

SOURCES = Path(__file__).resolve().parents[1] / "src"

# three levels of groups, a class word, a list that keeps a hydrogen, a link, names and logic
LIST = """title benzyl alcohols # and amines
# the root
root [R1]c1ccc(cc1)[CH2:3][N,O;H1]
R1 *O[R2] ether
R1 halogen
R2 alkyl 1-2      # methyl, ethyl
R2 *CC[R3] chain
R3 *N(C)C dimethylamino
R3 *C(=O)[OH] acid
logic R1 1
logic R2 0-1 rest
logic R3 >0
"""
# each compound, and the choice by which it falls under the claim; the last four are near misses
COMPOUNDS = [
    ("OCc1ccc(Cl)cc1", "a chloride", "2 1", "halogen"),
    ("NCCc1ccc(Br)cc1", "an amine by two carbons", "2 2", "halogen"),
    ("OCc1ccc(OC)cc1", "a methyl ether", "1 1 1", "ether"),
    ("OCc1ccc(O)cc1", "a phenol", "1 4 1", "ether"),
    ("OCc1ccc(OCCN(C)C)cc1", "a dimethylaminoethyl ether", "1 3 1 1", "ether"),
    ("OCCCc1ccc(OCCC(=O)O)cc1", "an acid by three carbons", "1 3 2 3", "ether"),
    ("OCc1ccc(OCCC)cc1", "a propyl ether", "", ""),
    ("OCCCCc1ccc(F)cc1", "four carbons", "", ""),
    ("COCc1ccc(Cl)cc1", "no hydrogen at the oxygen", "", ""),
    ("SCc1ccc(Cl)cc1", "a thiol", "", ""),
]
HITS = [(number, name, choice, member) for number, (_, name, choice, member) in enumerate(COMPOUNDS, 1) if choice]


def tools(folder: Path, *words: str) -> str:
    environment = {**os.environ, "PYTHONPATH": str(SOURCES), "PYTHONDONTWRITEBYTECODE": "1"}
    ran = subprocess.run([sys.executable, "-m", "markush.tools", *words], capture_output=True, text=True, env=environment, cwd=folder, check=False)
    assert ran.returncode == 0, ran.stderr
    return ran.stdout


@pytest.fixture
def folder(tmp_path: Path, program: Path) -> Path:
    """A folder with the list and the compounds."""
    (tmp_path / "claim.txt").write_text(LIST)
    (tmp_path / "compounds.smi").write_text("".join(f"{smiles} {name}\n" for smiles, name, *_ in COMPOUNDS))
    return tmp_path


def test_a_list_becomes_a_claim_that_the_program_keeps(folder: Path, command_program: Path) -> None:
    (folder / "claim.rgf").write_text(tools(folder, "draw", "claim.txt"))
    ran = subprocess.run([command_program, "query", "claim", "claim.rgf"], capture_output=True, text=True, cwd=folder, check=False)
    assert (ran.stdout, ran.returncode) == ("kept claim\n", 0)
    drawn, listed = Claim.read(folder / "claim.rgf"), Claim.read(folder / "claim.txt")
    assert drawn.text == listed.text and listed.title == drawn.title == "benzyl alcohols # and amines"
    assert [listed.member_name(2, n) for n in (1, 2, 3)] == ["methyl", "ethyl", "chain"]


def test_its_structures_are_written_as_smarts_that_its_compounds_have(folder: Path) -> None:
    written = dict(reversed(line.split("\t")) for line in tools(folder, "structures", "claim.txt").splitlines())
    query = read_query(Claim.read(folder / "claim.txt").text)
    assert len(written) == valid_code_count(query) == 18 <= code_count(query)
    patterns = {choice: Chem.MolFromSmarts(smarts) for choice, smarts in written.items()}
    for smiles, name, choice, _ in COMPOUNDS:
        molecule = Chem.AddHs(Chem.MolFromSmiles(smiles))
        assert not choice or molecule.HasSubstructMatch(patterns[f"choice {choice}"]), name
    # the list of the root and that of `halogen`
    assert all("#7,#8" in smarts for smarts in written.values()) and sum("#9,#17,#35,#53" in smarts for smarts in written.values()) == 3


def test_its_hits_are_a_table(folder: Path) -> None:
    held = [line for line in tools(folder, "find", "claim.txt", "compounds.smi").splitlines() if not line.startswith("# ")]
    assert list(csv.reader(held, delimiter="\t")) == [["record", "name", "choice", "R1"], *([str(n), *words] for n, *words in HITS)]


def test_its_hits_are_a_page(folder: Path) -> None:
    tools(folder, "find", "claim.txt", "compounds.smi", "--out", "hits.html")
    page = (folder / "hits.html").read_text()
    data: Dict[str, Any] = json.loads(re.search(r'<script type="application/json" id="data">(.*?)</script>', page, re.S)[1])
    choices: List[str] = [choice["n"] for choice in data["choices"]]
    assert data["title"] == "benzyl alcohols # and amines"
    assert [(n, name, choices[found[0]]) for n, name, found in zip(data["records"], data["names"], data["hits"])] == [hit[:3] for hit in HITS]
    assert [(n, name) for n, name, _ in data["missed"]] == [(n, name) for n, (_, name, choice, _) in enumerate(COMPOUNDS, 1) if not choice]
    told = {(facet["t"], value["n"]) for facet in data["facets"] for value in facet["v"]}
    assert {("R1: 1", "ether"), ("R2 in R1; else H", "methyl"), ("R3 in R2", "acid")} <= told


NASTY = "<img src=x onerror=alert(1)>"


def test_what_users_wrote_is_text_on_the_page(folder: Path) -> None:
    """As title, member, compound, data item and its name, and as the names of both files."""
    claim, compounds = f"{NASTY}.txt", f"{NASTY}.sdf"
    (folder / claim).write_text(f"title {NASTY}\nroot c1ccccc1[R1]\nR1 *[OH] {NASTY}\n")
    (folder / "list.smi").write_text(f"c1ccccc1O {NASTY}\nCCO {NASTY}\n")
    tools(folder, "draw", "list.smi", "--out", compounds)
    drawn = (folder / compounds).read_text()
    (folder / compounds).write_text(drawn.replace("> <formula>", f"> {NASTY}\n{NASTY}\n\n> <formula>"))
    tools(folder, "find", claim, compounds, "--data", NASTY[1:-1], "--out", f"{NASTY}.html")
    page = (folder / f"{NASTY}.html").read_text()
    assert "<img" not in page and page.count("<script") == page.count("</script") == 4
    data: Dict[str, Any] = json.loads(re.search(r'<script type="application/json" id="data">(.*?)</script>', page, re.S)[1])
    assert data["title"] == NASTY and data["names"] == [NASTY] and (data["items"], data["values"]) == ([NASTY[1:-1]], [[NASTY]])
    assert data["tables"][1]["t"] == NASTY and data["missed"] == [[2, NASTY, "the root doesn't lie in it"]]
    assert {claim, compounds} <= {row[1] for row in data["origin"]}


def test_a_page_has_the_title_names_and_data_that_are_asked_for(folder: Path) -> None:
    words = ["--title", "a title", "--name", "formula", "--data", "formula", "--why", "1"]
    tools(folder, "find", "claim.txt", "compounds.smi", *words, "--out", "hits.html")
    page = (folder / "hits.html").read_text()
    data: Dict[str, Any] = json.loads(re.search(r'<script type="application/json" id="data">(.*?)</script>', page, re.S)[1])
    assert data["title"] == "a title" and data["items"] == ["formula"]
    assert [[name] for name in data["names"]] == data["values"] and all(re.fullmatch(r"C[0-9].*", name) for name in data["names"])
    assert [bool(row[2]) for row in data["missed"]] == [n == 0 for n in range(len(data["missed"]))]


def test_notes_of_a_list_are_lines_for_people(folder: Path) -> None:
    (folder / "noted.txt").write_text("root C[*:2]C[C@H](F)O\nR2 *O*\n")
    words = [sys.executable, "-m", "markush.tools", "draw", "noted.txt"]
    environment = {**os.environ, "PYTHONPATH": str(SOURCES)}
    ran = subprocess.run(words, capture_output=True, text=True, cwd=folder, env=environment, check=False)
    told = ran.stderr.splitlines()
    assert ran.returncode == 0 and len(told) == 2
    assert told[0] == "markush-tools draw: noted.txt: line 1: atom 4 `[C@H]` is taken without `@`: stereochemistry isn't asked for"
    assert told[1].startswith("markush-tools draw: noted.txt: line 1: atom 2 `[*:2]` is a site of R2; a link of up to 2 any atoms is written")


@pytest.mark.parametrize("words", [[], ["--name", "CODE", "--data", "CODE"]], ids=["by the first line", "by a data item"])
def test_a_page_of_a_store_has_no_old_name_after_replace(folder: Path, command_program: Path, words: List[str]) -> None:
    """Neither of a search before the replacement nor of one after it, be the record hit or not, whoever replaced it."""

    def run(*lines: str) -> str:
        command = [str(command_program), "--store", "held.db"]
        return subprocess.run(command, input="\n".join([*lines, ""]), capture_output=True, text=True, cwd=folder, check=False).stdout

    def page(name: str, answers: str) -> Dict[str, Any]:
        command = [sys.executable, "-m", "markush.tools", "page", "claim.rgf", "--store", "held.db", *words, "--out", name]
        environment = {**os.environ, "PYTHONPATH": str(SOURCES), "PYTHONDONTWRITEBYTECODE": "1"}
        subprocess.run(command, input=answers, text=True, env=environment, cwd=folder, check=True)
        text = (folder / name).read_text()
        assert "former" not in text
        data: Dict[str, Any] = json.loads(re.search(r'id="data">(.*?)</script>', text, re.S)[1])
        return data

    def named(number: int, age: str) -> str:
        block = drawn[number - 1]
        return f"{age} {number}\n" + block.split("\n", 1)[1] + f"> <CODE>\n{age}-{number}\n\n$$$$\n"

    tools(folder, "draw", "claim.txt", "--out", "claim.rgf")
    tools(folder, "draw", "compounds.smi", "--out", "compounds.sdf")
    drawn = (folder / "compounds.sdf").read_text().split("$$$$\n")
    (folder / "old.sdf").write_text("".join(named(number, "former" if number in (3, 7) else "kept") for number in range(1, 11)))
    for number in (3, 7):
        (folder / f"new_{number}.sdf").write_text(named(number, "new"))
    before = run("load old.sdf", "query benzyl claim.rgf", "search benzyl 100")
    assert before.startswith("loaded 10 first 1\nkept benzyl\nhit 1 ") and "\nhit 3 " in before and "\nhit 7 " not in before
    assert run("replace 3 new_3.sdf", "replace 7 new_7.sdf") == "replaced 3\nreplaced 7\n"
    after = run("search benzyl 100")
    assert after in before
    between = " " if not words else "-"
    for number, answers in enumerate((before, after)):
        data = page(f"{number}.html", answers)
        assert data["names"] == [f"{'new' if n == 3 else 'kept'}{between}{n}" for n in range(1, 7)]
        assert [row[1] for row in data["missed"]] == [f"{'new' if n == 7 else 'kept'}{between}{n}" for n in range(7, 11)]
    tools(folder, "find", "claim.rgf", "held.db", *words, "--out", "found.html")
    found = json.loads(re.search(r'id="data">(.*?)</script>', (folder / "found.html").read_text(), re.S)[1])
    assert (found["names"], found["missed"]) == (data["names"], data["missed"])

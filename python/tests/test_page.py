"""The page of hits: what it holds, and that what a file says stays text. What a browser makes of it is checks/hits_page."""
from __future__ import annotations

import base64
import hashlib
import io
import json
import os
import pathlib
import re
from types import SimpleNamespace
from typing import Any, Dict, List, Tuple

import pytest

from markush import Claim
from markush.drawing import hit_svg, plain_smiles
from markush.errors import Refused
from markush.hits import Hit
from markush.library import Record
from markush.page import Made, Source, range_words, write_page
from markush.rgfile import Atom, Bond, Group, Link, Logic, Query, Site, read_query, template

TOP = pathlib.Path(__file__).resolve().parents[2]
EXAMPLES = TOP / "examples"
DATA = TOP / "crates" / "markush" / "data"
NAMES = ("amino_chains", "beta_blockers", "local_anaesthetics", "phenoxy_acids")


def record(number: int, text: str, **data: str) -> Any:
    return SimpleNamespace(number=number, name=text.split("\n", 1)[0].strip(), data=data, text=text)


def hit(record: int, choice: Tuple[int, ...], *found: int) -> Any:
    return SimpleNamespace(record=record, choice=choice, map=found)


def claim_of(name: str) -> Any:
    text = (EXAMPLES / name / "claim.rgf").read_text()
    return SimpleNamespace(query=read_query(text), text=text, names={})


def records_of(name: str) -> List[Any]:
    found = []
    for number, text in enumerate((EXAMPLES / name / "compounds.sdf").read_text().split("$$$$\n")[:-1], 1):
        found.append(record(number, text, formula=text.split("<formula>\n")[1].split("\n")[0]))
    return found


def hits_of(name: str) -> List[Any]:
    found = []
    for line in (EXAMPLES / name / "answer").read_text().splitlines():
        words = line.split()
        if words[0] == "hit":
            at = words.index("map")
            found.append(hit(int(words[1]), tuple(map(int, words[3:at])), *map(int, words[at + 1 :])))
    return found


def page_of(claim: Any, hits: Any, records: Any, **words: Any) -> str:
    out = io.StringIO()
    write_page(out, claim, hits, records, **words)
    return out.getvalue()


def data_of(page: str) -> Dict[str, Any]:
    found = re.search(r'<script type="application/json" id="data">(.*?)</script>', page, re.S)
    assert found
    data: Dict[str, Any] = json.loads(found[1])
    return data


def lines_of(page: str) -> List[Any]:
    """What the shelves hold, a line a compound."""
    shelves = re.findall(r'<script type="application/json" class="shelf" id="shelf(\d+)">\n(.*?)\n</script>', page, re.S)
    assert [int(number) for number, _ in shelves] == list(range(len(shelves)))
    return [json.loads(line) for _, lines in shelves for line in lines.split("\n") if line]


# ---- the examples


@pytest.mark.parametrize("name", NAMES)
def test_the_page_holds_the_stored_answer(name: str) -> None:
    hits, records = hits_of(name), records_of(name)
    page = page_of(claim_of(name), hits, records, data=("formula",))
    data, lines = data_of(page), lines_of(page)
    hit_records = list(dict.fromkeys(each.record for each in hits))
    assert data["records"] == hit_records
    assert data["names"] == [records[number - 1].name for number in hit_records]
    assert data["values"] == [[records[number - 1].data["formula"]] for number in hit_records]
    assert [row[0] for row in data["missed"]] == [each.number for each in records if each.number not in hit_records]
    # each hit stands there once, by its choice and its map
    again = [
        (number, data["choices"][choice]["n"], tuple(found))
        for number, held, line in zip(data["records"], data["hits"], lines)
        for choice, maps in zip(held[::2], line["h"])
        for found in maps
    ]
    assert sorted(again) == sorted((each.record, " ".join(map(str, each.choice)), each.map) for each in hits)
    assert [sum(held[1::2]) for held in data["hits"]] == [sum(each.record == number for each in hits) for number in hit_records]


def test_the_page_takes_claims_hits_and_records_of_the_package() -> None:
    claim = Claim.read(EXAMPLES / "phenoxy_acids" / "claim.rgf")
    records = [Record(each.number, each.text.encode()) for each in records_of("phenoxy_acids")]
    hits = [Hit(each.record, each.choice, each.map, claim, records[each.record - 1].raw) for each in hits_of("phenoxy_acids")]
    got = page_of(claim, hits, records, data=("formula",))
    want = page_of(claim_of("phenoxy_acids"), hits_of("phenoxy_acids"), records_of("phenoxy_acids"), data=("formula",))
    for key in ("title", "sum", "names", "records", "values", "hits", "choices", "facets", "missed"):
        assert data_of(got)[key] == data_of(want)[key], key
    assert lines_of(got) == lines_of(want)
    # a hit and a claim draw themselves
    assert hits[0].svg() == hit_svg(hits[0], width=420) and hits[0].name in hits[0].svg()


TITLES = {
    "phenoxy_acids": ["R1: 12 and 13; else H", "R2: 14; else H"],
    "beta_blockers": ["R1: 7", "R2 in R1", "R3 in R1; else H"],
    "local_anaesthetics": ["R1: 1; else H", "R2 in R1; else H", "R3 in R1; else H", "R4: 12", "R5 in R4", "(CH2)n: 11"],
    "amino_chains": ["R1: 1", "R2: 3", "(CH2)n: 2"],
}


@pytest.mark.parametrize("name", NAMES)
def test_sites_of_one_group_in_one_place_are_one_facet_in_the_order_of_labels(name: str) -> None:
    data = data_of(page_of(claim_of(name), hits_of(name), records_of(name)))
    titles = [facet["t"] for facet in data["facets"]]
    assert sorted(titles) == sorted(TITLES[name])
    labels = [facet["l"] for facet in data["facets"] if facet["l"]]
    assert labels == sorted(labels)
    assert [group["l"] for group in data["groups"]] == sorted(group["l"] for group in data["groups"])


def said(data: Dict[str, Any], choice: Dict[str, Any]) -> List[Tuple[str, str]]:
    return [(name, data["facets"][facet]["v"][value]["n"]) for facet, value, _, name in choice["p"]]


def test_a_choice_is_said_in_words() -> None:
    data = data_of(page_of(claim_of("local_anaesthetics"), hits_of("local_anaesthetics"), records_of("local_anaesthetics")))
    choice = next(each for each in data["choices"] if each["n"] == "2 21 2 1 2")
    assert said(data, choice) == [
        ("R1 at 1", "*N[R3]"), ("R3", "H"), ("link at 11", "(CH2)2"), ("R4 at 12", "*N[R5]"), ("R5", "*CC"),
    ]


def test_members_have_the_names_that_the_claim_gives() -> None:
    claim = claim_of("local_anaesthetics")
    claim.names = {(1, 11): "trifluoromethyl"}
    data = data_of(page_of(claim, [], []))
    members = [data["tables"][n]["t"] for n in data["groups"][0]["m"]]
    assert members[10] == "trifluoromethyl" and members[12] == "*[N+](=O)[O-]"
    assert data["facets"][0]["v"][10]["n"] == "trifluoromethyl"
    assert not [name for name in members if "-C(-" in name]


def test_smiles_lose_only_the_brackets_that_ask_for_hydrogens() -> None:
    rows = {
        "*[CH2][CH]([CH3])[OH]": "*CC(C)O", "*[N+]([CH3])([CH3])[CH3]": "*[N+](C)(C)C", "c1[nH]cc[cH]1": "c1[nH]ccc1", "*[F,Cl]": "*[F,Cl]",
        "*[CH2][Cl,Br;D1]": "*C[Cl,Br;D1]", "*[O;Ds][CH3;Ds]": "*OC", "*[F,Cl;Ds]": "*[F,Cl]", "*[O-;Ds]": "*[O-]", "[R1][CH2:4][R2]": "[R1][CH2:4][R2]",
    }
    assert {smiles: plain_smiles(smiles) for smiles in rows} == rows


def test_ranges_are_said_in_words() -> None:
    rows = {"1": "once", "0": "nowhere", ">1": "more often than once", "<3": "less often than 3 times", "2-4,6": "2 to 4 times or 6 times"}
    assert {text: range_words(text) for text in rows} == rows


# ---- claims of our own


def chain_claim() -> Any:
    """N-C(1 to 3 times)-R1, with R1 a halogen's list; rest hydrogens."""
    atoms = [Atom(1, "N"), Atom(2, "C", hydrogens=2, x=1.4), Atom(3, "R#", x=2.8)]
    root = template("", atoms, [Bond(1, 2, 1), Bond(2, 3, 1)], [Site(3, (1,), (2,))], [Link(2, 3, 1, 3)])
    halogen = template("", [Atom(1, "L", elements=("F", "Cl", "Br"), point=1)], [])
    return SimpleNamespace(query=Query("chain", root, (Group(1, (halogen,), Logic("0-1", True, 0)),)), text="", names={})


CHAIN = """chloropropylamine


  5  4  0     0  0            999 V2000
    0.0000    0.0000    0.0000 N   0  0
    1.4000    0.0000    0.0000 C   0  0
    2.8000    0.0000    0.0000 C   0  0
    4.2000    0.0000    0.0000 C   0  0
    5.6000    0.0000    0.0000 Cl  0  0
  1  2  1  0
  2  3  1  0
  3  4  1  0
  4  5  1  0
M  END
"""


def test_of_a_list_the_atom_that_stands_there_can_be_told() -> None:
    page = page_of(chain_claim(), [hit(1, (3, 1), 1, 2, 3, 4, 5)], [record(1, CHAIN)])
    data, (line,) = data_of(page), lines_of(page)
    choice = data["choices"][0]
    ((number, part, label),) = choice["l"]
    assert (choice["p"][part][3], label) == ("R1 at 3", "F,Cl,Br at 1")
    assert line["m"]["s"].split(" ")[line["h"][0][0][number - 1] - 1] == "Cl"
    assert data["facets"][0]["v"][0]["x"] == 1
    assert said(data, choice)[0] == ("link at 2", "(CH2)3")


def test_a_link_of_several_atoms_repeats_its_block() -> None:
    atoms = [Atom(1, "N"), Atom(2, "C"), Atom(3, "O"), Atom(4, "N")]
    root = template("", atoms, [Bond(1, 2, 1), Bond(2, 3, 2), Bond(2, 4, 1)], [], [Link(2, 2, 1, 4)])
    data = data_of(page_of(SimpleNamespace(query=Query("", root), text="", names={}), [], []))
    assert [value["n"] for value in data["facets"][0]["v"]] == ["C=O", "(C=O)2"]


# ---- text is text


NASTY = "</script><img src=x onerror=\"document.title='taken'\"><b>&amp; \u2028 \u2029 <!-- <script>"


def nasty_page() -> str:
    root = template("", [Atom(1, "C"), Atom(2, "R#", x=1.4)], [Bond(1, 2, 1)], [Site(2, (1,), (1,))])
    group = Group(1, (template("", [Atom(1, "O", point=1)], [], name=NASTY),))
    text = CHAIN.replace("chloropropylamine", NASTY).replace(" Cl ", " O  ")
    return page_of(
        SimpleNamespace(query=Query(NASTY, root, (group,)), text=NASTY, names={(1, 1): NASTY}),
        [hit(1, (1,), 4, 5)],
        [record(1, text, note=NASTY), record(2, text)],
        title=NASTY,
        data=("note", NASTY),
        refused=[SimpleNamespace(record=3, line=9, name=NASTY, why=NASTY), NASTY],
        unsearched=[NASTY],
        limits=[NASTY],
        reasons={2: NASTY},
        made=Made(program=NASTY, package=NASTY, date=NASTY, claim=Source(NASTY, NASTY), compounds=(Source(NASTY, NASTY),)),
    )


def test_what_users_and_files_wrote_is_text_alone() -> None:
    page = nasty_page()
    template_text = (TOP / "python" / "src" / "markush" / "page.html").read_text(encoding="utf-8")
    for sign in ("<img", "<b>", "onerror=\"document", "<!--", "\u2028", "\u2029"):
        assert page.count(sign) == template_text.count(sign), sign
    assert page.count("<script") == page.count("</script") == 3
    data = data_of(page)
    assert data["title"] == NASTY and data["names"] == [NASTY] and data["missed"] == [[2, NASTY, NASTY]]
    assert data["values"] == [[" ".join(NASTY.split()), ""]] and data["refused"] == [[3, 9, NASTY, NASTY, ""], ["", "", "", NASTY, ""]]


def test_the_policy_allows_the_script_of_the_page_alone() -> None:
    page = nasty_page()
    policy = re.search(r'http-equiv="Content-Security-Policy" content="([^"]*)"', page)
    script = re.search(r"<script>(.*?)</script>", page, re.S)
    assert policy and script
    digest = base64.b64encode(hashlib.sha256(script[1].encode()).digest()).decode()
    assert policy[1] == f"default-src 'none'; style-src 'unsafe-inline'; script-src 'sha256-{digest}'"
    # no attribute that would be a handler, and nothing from elsewhere
    assert not re.search(r"\son[a-z]+=", page.split("<script")[0]) and "http://" not in page.replace("http://www.w3.org/2000/svg", "")
    assert "https://" not in page


def test_a_lone_surrogate_is_written() -> None:
    page = page_of(chain_claim(), [hit(1, (3, 1), 1, 2, 3, 4, 5)], [record(1, CHAIN.replace("chloro", "\udcff"))])
    assert page.encode("utf-8") and data_of(page)["names"] == ["?propylamine"]


# ---- what the page says of itself


def test_the_page_states_how_it_was_made() -> None:
    file = EXAMPLES / "phenoxy_acids" / "compounds.sdf"
    made = Made(program="markush 9", package="markush 0.1", date="2026-12-01", compounds=(Source.of(file), Source("more.sdf", "00")))
    claim = claim_of("phenoxy_acids")
    data = data_of(
        page_of(
            claim, hits_of("phenoxy_acids"), records_of("phenoxy_acids"), made=made, refused=["record 9: no atoms"], unsearched=[40, 41],
            limits=["the list was cut after 10,000 hits"],
        )
    )
    digest = hashlib.sha256(file.read_bytes()).hexdigest()
    assert data["origin"] == [
        ["program", "markush 9"],
        ["package", "markush 0.1"],
        ["date", "2026-12-01"],
        ["claim", claim.query.title, hashlib.sha256(claim.text.encode()).hexdigest()],
        ["compounds", "compounds.sdf", digest],
        ["compounds", "more.sdf", "00"],
        ["records searched", "33"],
        ["records refused", "1"],
        ["records not searched", "2"],
        ["limit met", "the list was cut after 10,000 hits"],
    ]
    assert data["limits"] == ["the list was cut after 10,000 hits"] and data["unsearched"] == ["40", "41"]
    assert data["sum"] == "8 of 33 compounds are hit: 16 hits by 7 choices. 1 record refused. 2 records not searched."


def test_names_may_come_from_a_data_item() -> None:
    records = records_of("phenoxy_acids")
    data = data_of(page_of(claim_of("phenoxy_acids"), hits_of("phenoxy_acids"), records, name="formula"))
    assert data["names"][0] == "C8H8O3" and data["missed"][0][1] == records[data["missed"][0][0] - 1].data["formula"]
    bare = [record(it.number, it.text) if it.number == 1 else it for it in records]
    again = data_of(page_of(claim_of("phenoxy_acids"), hits_of("phenoxy_acids"), bare, name="formula"))
    assert again["names"] == [records[0].name, *data["names"][1:]]


def test_reasons_stand_beside_what_is_no_hit() -> None:
    data = data_of(page_of(chain_claim(), [], [record(7, CHAIN)], reasons={7: "R1 is none of its members"}))
    assert data["missed"] == [[7, "chloropropylamine", "R1 is none of its members"]]


def test_many_compounds_stand_on_shelves() -> None:
    hits = [hit(number, (3, 1), 1, 2, 3, 4, 5) for number in range(1, 451)]
    page = page_of(chain_claim(), hits, [record(number, CHAIN) for number in range(1, 451)])
    assert page.count('class="shelf"') == 3 and data_of(page)["shelf"] == 200
    assert len(lines_of(page)) == 450 == len(data_of(page)["names"])
    # the script stands behind the first shelf, so that the first cards are there before the others have come
    assert page.index('id="shelf0"') < page.index("<script>\n") < page.index('id="shelf1"')


def test_of_many_ways_round_the_first_are_kept_and_all_are_counted() -> None:
    methyl = "m\n\n\n  1  0  0     0  0            999 V2000\n    0.0000    0.0000    0.0000 C   0  0\nM  END\n"
    query = Query("", template("", [Atom(1, "C")], []))
    page = page_of(SimpleNamespace(query=query, text="", names={}), [hit(1, (), 1)] * 130, [record(1, methyl)])
    assert data_of(page)["hits"] == [[0, 130]] and len(lines_of(page)[0]["h"][0]) == 100


# ---- what doesn't go together


UNFIT = [
    ("a record that isn't there", hit(2, (3, 1), 1, 2, 3, 4, 5), "names record 2, which isn't among"),
    ("a hit of other length", hit(1, (3, 1), 1, 2, 3, 4), "has 4 atoms, and the claim 5"),
    ("a choice that isn't there", hit(1, (4, 1), 1, 2, 3, 4, 5), "no choice 4 1"),
    ("a choice that is longer", hit(1, (3, 1, 1), 1, 2, 3, 4, 5), "no choice 3 1 1"),
    ("an atom that isn't there", hit(1, (3, 1), 1, 2, 3, 4, 99), "doesn't lie in record 1"),
    ("atoms that aren't bonded", hit(1, (3, 1), 1, 3, 2, 4, 5), "doesn't lie in record 1"),
]


@pytest.mark.parametrize(("what", "found", "why"), UNFIT, ids=[row[0] for row in UNFIT])
def test_hits_that_do_not_fit_are_refused_and_the_old_page_stays(tmp_path: pathlib.Path, what: str, found: Any, why: str) -> None:
    path = tmp_path / "hits.html"
    path.write_text("the old page")
    with pytest.raises(Refused, match=why):
        write_page(path, chain_claim(), [found], [record(1, CHAIN)])
    assert path.read_text() == "the old page" and os.listdir(tmp_path) == ["hits.html"]


def test_a_record_without_a_table_is_refused_by_its_number() -> None:
    with pytest.raises(Refused, match="record 1: 'no table here' has no table that can be drawn") as raised:
        page_of(chain_claim(), [hit(1, (3, 1), 1, 2, 3, 4, 5)], [record(1, "no table here\n")])
    assert raised.value.record == 1


def test_a_page_is_written_whole_in_its_place(tmp_path: pathlib.Path) -> None:
    path = tmp_path / "hits & <more>.html"
    write_page(path, chain_claim(), [hit(1, (3, 1), 1, 2, 3, 4, 5)], [record(1, CHAIN)])
    assert os.listdir(tmp_path) == [path.name] and path.read_text(encoding="utf-8").endswith("</html>\n")
    write_page(os.fspath(path), chain_claim(), [], [record(1, CHAIN)])
    assert data_of(path.read_text(encoding="utf-8"))["names"] == []


def test_a_page_that_can_not_be_written_leaves_nothing(tmp_path: pathlib.Path) -> None:
    with pytest.raises(FileNotFoundError):
        write_page(tmp_path / "none" / "hits.html", chain_claim(), [], [])
    (tmp_path / "folder").mkdir()
    with pytest.raises(OSError):
        write_page(tmp_path / "folder", chain_claim(), [], [])
    assert os.listdir(tmp_path) == ["folder"] and os.listdir(tmp_path / "folder") == []


def test_without_rdkit_it_is_said_how_many_are_not_drawn(monkeypatch: pytest.MonkeyPatch) -> None:
    import sys

    monkeypatch.setitem(sys.modules, "rdkit", None)
    flat = re.sub(r"(?m)^ +\d\.\d{4}", "    0.0000", CHAIN)
    page = page_of(chain_claim(), [hit(1, (3, 1), 1, 2, 3, 4, 5)], [record(1, flat)])
    assert "xy" not in lines_of(page)[0]["m"]
    assert ["not drawn", "1 compound: without coordinates, and no RDKit here"] in data_of(page)["origin"]

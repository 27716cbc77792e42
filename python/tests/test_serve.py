"""The bench behind the page: what it answers, and what it keeps over a restart."""
from __future__ import annotations

import contextlib
import csv
import gzip
import http.client
import io
import json
import lzma
import os
import re
import signal
import sqlite3
import subprocess
import threading
import time
from pathlib import Path
from types import SimpleNamespace
from typing import Any, Dict, Iterator, List, Optional
from urllib.parse import quote

import pytest

from markush import Claim, Library
from markush.page import _choice_data
from markush.serve.choices import Choices, numbers
from markush.serve.gate import TOKEN_HEADER
from markush.serve.hits import Hits
from markush.serve.opening import Serving
from markush.serve.places import Place
from markush.serve.searches import Search
from markush.session import Session

TOP = Path(__file__).resolve().parents[2]
ACIDS = TOP / "examples" / "phenoxy_acids"
LIST = "title acids\nroot OC(=O)[CH2]Oc1ccc([R1])cc1\nR1 *Cl chlorine\nR1 *[CH3]\n"


class Client:
    """A page, as far as it asks."""

    def __init__(self, serving: Any) -> None:
        self.serving = serving

    def raw(self, path: str, body: bytes = b"", **headers: str) -> "tuple[int, bytes]":
        link = http.client.HTTPConnection("127.0.0.1", self.serving.server.port, timeout=60)
        try:
            link.request("POST", f"/api/{path}", body, {TOKEN_HEADER: self.serving.server.gate.token, **headers})
            answer = link.getresponse()
            return answer.status, answer.read()
        finally:
            link.close()

    def ask(self, path: str, **words: Any) -> Any:
        status, data = self.raw(path, json.dumps(words).encode())
        assert status == 200, (path, status)
        found = json.loads(data)
        end = time.monotonic() + 120
        while isinstance(found, dict) and "ticket" in found and len(found) == 1:
            status, data = self.raw("ticket", json.dumps(found).encode())
            try:
                told = json.loads(data)
            except ValueError:
                return data
            if not told.get("waits"):
                return told.get("found", told)
            assert time.monotonic() < end
            time.sleep(0.02)
        return found

    def export(self, **words: Any) -> bytes:
        status, data = self.raw("export", json.dumps(words).encode())
        number = json.loads(data)["ticket"]
        while True:
            status, data = self.raw("ticket", json.dumps({"ticket": number}).encode())
            if not data.startswith(b'{"waits":true'):
                return data
            time.sleep(0.02)

    def until(self, holds: Any, seconds: float = 120) -> Dict[str, Any]:
        end = time.monotonic() + seconds
        while True:
            state: Dict[str, Any] = self.ask("state")
            if holds(state):
                return state
            assert time.monotonic() < end, state
            time.sleep(0.02)

    def load(self, body: bytes, name: str, **words: Any) -> Dict[str, Any]:
        how = quote(json.dumps({"name": name, "how": "add", **words}))
        status, data = self.raw("load", body, **{"X-Markush-Words": how})
        assert status == 200
        number = json.loads(data)["id"]
        self.until(lambda state: all(job["state"] in ("done", "failed") for job in state["loads"] if job["id"] == number))
        found: Dict[str, Any] = self.ask("loads", id=number)
        return found

    def search(self, name: str, version: int = 1) -> Dict[str, Any]:
        number = self.ask("search", name=name, version=version)["id"]
        return self.ended(number)

    def ended(self, number: int) -> Dict[str, Any]:
        def of(state: Dict[str, Any]) -> Dict[str, Any]:
            found: Dict[str, Any] = next(search for search in state["searches"] if search["id"] == number)
            return found

        return of(self.until(lambda state: of(state)["state"] not in ("waiting", "running")))


def open_bench(program: Path, store: Optional[Path]) -> Serving:
    serving = Serving(store, program=program)
    end = time.monotonic() + 60
    while not serving.bench.is_ready:
        assert time.monotonic() < end and not serving.bench.driver.fault, serving.bench.driver.fault
        time.sleep(0.01)
    return serving


@pytest.fixture
def client(program: Path) -> Iterator[Client]:
    with open_bench(program, None) as serving:
        yield Client(serving)


@pytest.fixture
def acids(client: Client) -> Client:
    """A bench with the 33 acids, and their claim under the name `acids`."""
    assert client.load((ACIDS / "compounds.sdf").read_bytes(), "compounds.sdf")["kept"] == 33
    kept = client.ask("claim/keep", name="acids", text=(ACIDS / "claim.rgf").read_text())
    assert kept == {"name": "acids", "version": 1}
    return client


def test_a_claim_is_read(client: Client) -> None:
    found = client.ask("claim/read", text=LIST)
    assert (found["title"], found["codes"]) == ("acids", "3")
    assert [group["l"] for group in found["groups"]] == [1] and len(found["tables"]) == 3


@pytest.mark.parametrize(
    "text, line, words",
    [
        ("root c1ccccc1[R1]\nR1 *Cl\nR1 *Q(\n", 3, "Q"),
        ("root C[R1]\nrot C\n", 2, "rot"),
        ("root C[R1]\ninclude /etc/passwd\n", 2, "include"),
        ("$MDL  REV  1\nnonsense\n", 2, ""),
        ("", None, "paste a claim"),
    ],
)
def test_a_fault_is_told_at_its_line(client: Client, text: str, line: Optional[int], words: str) -> None:
    found = client.ask("claim/read", text=text)
    assert found["line"] == line and words in found["fault"] and "root:" not in found["fault"]


def test_a_fault_that_the_program_finds_is_told_at_its_line_too(client: Client) -> None:
    lines = (ACIDS / "claim.rgf").read_text().split("\n")
    at = next(at for at, line in enumerate(lines) if " R# " in line)
    lines[at] = lines[at].replace(" R# ", " Xx ")
    for path in ("claim/read", "claim/keep"):
        found = client.ask(path, name="a", text="\n".join(lines))
        assert found["line"] == at + 1 and "unknown symbol" in found["fault"], path
    assert not client.ask("state")["claims"]


def test_a_claim_is_read_while_a_command_takes_long(acids: Client) -> None:
    goes_on = threading.Event()
    acids.serving.bench.driver.do("something else is done", lambda library: goes_on.wait(60))
    assert acids.ask("claim/read", text=LIST)["codes"] == "3" and acids.ask("claim/keep", name="b", text=LIST)["version"] == 1
    goes_on.set()


def test_what_the_program_refuses_isnt_kept(client: Client) -> None:
    many = "root C" + "".join(f"C([R{n}])" for n in range(1, 3)) + "\n" + "".join(f"R{n} *{'C' * 300}\n" for n in range(1, 3))
    found = client.ask("claim/keep", name="large", text=many)
    assert "fault" in found and not client.ask("state")["claims"]


def test_hits_are_those_of_the_example(acids: Client) -> None:
    told = acids.search("acids")
    answer = [line.split() for line in (ACIDS / "answer").read_text().splitlines() if line.startswith("hit")]
    assert told["state"] == "ended" and told["hits"] == len(answer) and (told["done"], told["of"]) == (33, 33)
    found = acids.ask("hits", id=told["id"], **{"from": 0}, choices=0)
    assert found["records"] == sorted({int(words[1]) for words in answer})
    assert sum(sum(held[1::2]) for held in found["hits"]) == len(answer)
    assert {choice["n"] for choice in found["choices"]} == {" ".join(words[3 : words.index("map")]) for words in answer}
    cards = acids.ask("cards", id=told["id"], places=[0, 1])["cards"]
    assert cards[0]["m"]["xy"] and cards[0]["h"][0] and cards[0]["d"]["formula"] == "C8H8O3"
    assert acids.ask("items", id=told["id"])["items"] == ["formula"]
    assert acids.ask("values", id=told["id"], item="formula")["values"][0] == "C8H8O3"


def test_verdicts_are_kept_by_the_text(acids: Client) -> None:
    told = acids.search("acids")
    sha = acids.ask("hits", id=told["id"], **{"from": 0}, choices=0)["shas"][1]
    assert acids.ask("verdict", id=told["id"], place=1, sha=sha, verdict="relevant", note="=look\nagain") == {}
    assert "fault" in acids.ask("verdict", id=told["id"], place=0, sha=sha, verdict="relevant", note="")
    assert "fault" in acids.ask("verdict", id=told["id"], place=1, sha=sha, verdict="perhaps", note="")
    assert acids.ask("verdicts", id=told["id"])["verdicts"] == [[1, "relevant", "=look\nagain"]]
    table = acids.export(id=told["id"], kind="csv").decode()
    assert ",relevant,\"'=look\nagain\"," in table
    assert "'-" in acids.export(id=told["id"], kind="csv").decode() or "*Cl" in table
    sdfile = acids.export(id=told["id"], kind="sdf", places=[1]).decode()
    assert "> <markush verdict>\nrelevant\n" in sdfile and "=look again" in sdfile and sdfile.count("$$$$\n") == 1


def test_no_cell_of_a_table_is_a_formula(client: Client) -> None:
    def record(text: str) -> str:
        return f"{text}\n\n\n  2  1  0     0  0            999 V2000\n    0.0000    0.0000    0.0000 C   0  0\n    1.4000    0.0000    0.0000 F   0  0\n  1  2  1  0\nM  END\n>  <{text}>\n{text}\n\n$$$$\n"

    signs = ["=1+1", "+1", "-1", "@SUM(A1)", "plain"]
    assert client.load("".join(map(record, signs)).encode(), "a.sdf")["kept"] == 5
    client.ask("claim/keep", name="a", text="root C[R1]\nR1 *F =2+2\n")
    told = client.search("a")
    client.ask("verdict", id=told["id"], place=0, sha=client.ask("hits", id=told["id"], **{"from": 0}, choices=0)["shas"][0], verdict="not", note="@note")
    head, *rows = list(csv.reader(io.StringIO(client.export(id=told["id"], kind="csv").decode())))
    assert len(rows) == 5 and head[-5:] == [*("'" + sign for sign in signs[:4]), "plain"]
    assert [row[1] for row in rows] == head[-5:] and rows[0][3] == "'@note"
    assert not [cell for row in [head, *rows] for cell in row if cell[:1] in ("=", "+", "-", "@")]


def test_items_of_an_sdfile_stay_apart(client: Client) -> None:
    """A last item that no empty line ends doesn't take in those that are written behind it, of which RDKit is asked."""
    from rdkit import Chem

    atoms = "\n\n\n  2  1  0     0  0            999 V2000\n    0.0000    0.0000    0.0000 C   0  0\n    1.4000    0.0000    0.0000 F   0  0\n  1  2  1  0\nM  END\n"
    tails = ["", "> <ID>\nseven\n\n", "> <ID>\nseven\n", "> <ID>\nseven"]
    assert client.load("".join(f"r{atoms}{tail}{'' if tail[-1:] in ('', chr(10)) else chr(10)}$$$$\n" for tail in tails).encode(), "a.sdf")["kept"] == 4
    client.ask("claim/keep", name="a", text="root C[R1]\nR1 *F\n")
    written = client.export(id=client.search("a")["id"], kind="sdf")
    supplier = Chem.SDMolSupplier()
    supplier.SetData(written.decode())
    data = [mol.GetPropsAsDict() for mol in supplier]
    assert [(held.get("ID"), held["markush record"], held["markush verdict"]) for held in data] == [(None if n == 1 else "seven", n, "open") for n in (1, 2, 3, 4)]


@pytest.mark.parametrize("source", ["store", "file"])
def test_report_makes_the_json_and_the_page_anew(program: Path, tmp_path: Path, source: str) -> None:
    compounds = tmp_path / "compounds.sdf"
    compounds.write_bytes((ACIDS / "compounds.sdf").read_bytes())
    with open_bench(program, tmp_path / "acids.db" if source == "store" else None) as serving:
        client = Client(serving)
        if source == "store":
            client.load(compounds.read_bytes(), "compounds.sdf")
        else:
            serving.bench.compounds.load_file("compounds.sdf", compounds.read_bytes())
            client.until(lambda state: [job["state"] for job in state["loads"]] == ["done"])
        client.ask("claim/keep", name="acids", text=LIST)
        told = client.search("acids")
        for kind, ending in (("json", "json"), ("page", "html"), ("source", "txt")):
            (tmp_path / f"acids.{ending}").write_bytes(client.export(id=told["id"], kind=kind))
        if source == "file":
            client.ask("remove", numbers=[33])
            assert b"the records" in client.export(id=told["id"], kind="json")
    held = len(json.loads((tmp_path / "acids.json").read_text())["hits"])
    for name in ("acids.json", "acids.html"):
        ran = subprocess.run(
            [TOP / "bin" / "markush-tools", "report", name], cwd=tmp_path, capture_output=True, text=True, env={**os.environ, "PATH": f"/usr/bin:{os.environ['PATH']}"}
        )
        assert ran.returncode == 0 and ran.stdout == f"the same: {held} hits in 33 records\n", ran


def test_a_page_and_an_account_are_handed_on(acids: Client) -> None:
    told = acids.search("acids")
    page = acids.export(id=told["id"], kind="page").decode()
    assert "acids, version 1" in page and "2,4-D" in page and 'id="account"' in page
    held = json.loads(acids.export(id=told["id"], kind="json"))
    assert held["account"]["hits"] == len(held["hits"]) == 11
    for kind in ("claim", "source"):
        assert acids.export(id=told["id"], kind=kind).decode() == (ACIDS / "claim.rgf").read_text()


def test_why_not(acids: Client) -> None:
    found = acids.ask("why", name="acids", version=1, record="4-fluorophenoxyacetic acid")
    assert found["kind"] in ("group", "several") and found["picture"]["xy"] and found["words"]
    assert acids.ask("why", name="acids", version=1, record="1")["kind"] == "hit"
    assert "no record" in acids.ask("why", name="acids", version=1, record="nothing")["fault"]


def test_one_smiles_against_the_claims(acids: Client) -> None:
    acids.ask("claim/keep", name="others", text="root c1ccccc1[R1]\nR1 *Br\n")
    rows = acids.ask("covers", smiles="OC(=O)COc1ccc(Cl)cc1Cl 2,4-D")["rows"]
    assert [(row["name"], row["hit"]) for row in rows] == [("acids", True), ("others", False)]
    assert all(row["words"] for row in rows)
    assert "fault" in acids.ask("covers", smiles="C(")


def test_two_versions_side_by_side(client: Client) -> None:
    client.load((ACIDS / "compounds.sdf").read_bytes(), "compounds.sdf")
    client.ask("claim/keep", name="a", text=LIST)
    assert client.ask("claim/keep", name="a", text=LIST)["version"] == 1
    assert client.ask("claim/keep", name="a", text=LIST.replace("*Cl chlorine", "*F"))["version"] == 2
    assert "fault" in client.ask("compare", name="a", before=1, after=2)
    client.search("a", 1)
    client.search("a", 2)
    found = client.ask("compare", name="a", before=1, after=2)
    assert found["gained"] and found["lost"] and all(row[2] for row in found["gained"] + found["lost"])
    # what both versions hit isn't told as gained by the one that was searched after it came
    client.load((ACIDS / "compounds.sdf").read_bytes(), "again.sdf")
    client.until(lambda state: all(search["stale"] for search in state["searches"]))
    client.ask("search/again", id=2)
    client.ended(2)
    assert "compounds changed since version 1 was searched" in client.ask("compare", name="a", before=1, after=2)["fault"]
    client.ask("search/again", id=1)
    client.ended(1)
    twice = client.ask("compare", name="a", before=1, after=2)
    assert [len(twice[kind]) for kind in ("gained", "lost")] == [2 * len(found[kind]) for kind in ("gained", "lost")]
    assert twice["both"] == 2 * found["both"]


def test_what_is_refused_is_named(client: Client) -> None:
    job = client.load((TOP / "examples" / "vendor" / "vendor.sdf").read_bytes(), "vendor.sdf")
    assert (job["kept"], job["refused"]) == (5, 4) and len(job["words"]) == 4
    job = client.load(b"CCO ethanol\nC( broken\n", "two.smi")
    assert (job["kept"], job["refused"]) == (1, 1) and "line 2" in job["words"][0]


def test_packed_files(client: Client) -> None:
    data = (ACIDS / "compounds.sdf").read_bytes()
    assert client.load(gzip.compress(data), "a.sdf.gz")["kept"] == 33
    assert client.load(lzma.compress(data), "a.sdf.xz")["kept"] == 33
    assert "twice" in client.load(gzip.compress(gzip.compress(data)), "a.sdf.gz.gz")["fault"]


def test_update_remove_and_replace(client: Client) -> None:
    def record(number: int, symbol: str) -> str:
        return f"r{number}\n\n\n  1  0  0     0  0            999 V2000\n    0.0000    0.0000    0.0000 {symbol:3} 0  0\nM  END\n> <ID>\n{number}\n\n$$$$\n"

    client.load("".join(record(number, "C") for number in (1, 2, 3)).encode(), "a.sdf")
    job = client.load((record(1, "C") + record(2, "N") + record(4, "O")).encode(), "b.sdf", how="update", key="ID", missing="remove")
    assert (job["kept"], job["replaced"], job["same"], job["missing"], job["fault"]) == (1, 1, 1, 1, "")
    rows = client.ask("compounds", **{"from": 0}, text="")["rows"]
    assert [(number, name) for number, name, _ in rows] == [(1, "r1"), (2, "r2"), (4, "r4")]
    assert client.load(record(9, "S").encode(), "c.sdf", how="replace", number=4)["replaced"] == 1
    assert client.ask("remove", numbers=[1]) == {"removed": 1}
    assert client.ask("compounds", **{"from": 0}, text="R9")["rows"][0][0] == 4
    assert client.ask("compound", number=2)["data"] == {"ID": "2"}


def test_a_restart_finds_all(program: Path, tmp_path: Path) -> None:
    store = tmp_path / "acids.db"
    with open_bench(program, store) as serving:
        client = Client(serving)
        client.load((ACIDS / "compounds.sdf").read_bytes(), "compounds.sdf")
        client.ask("claim/keep", name="acids", text=(ACIDS / "claim.rgf").read_text())
        told = client.search("acids")
        sha = client.ask("hits", id=told["id"], **{"from": 0}, choices=0)["shas"][0]
        client.ask("verdict", id=told["id"], place=0, sha=sha, verdict="not", note="")
    assert (tmp_path / "acids.db-bench").stat().st_mode & 0o777 == 0o600
    with open_bench(program, store) as serving:
        client = Client(serving)
        state = client.ask("state")
        assert state["library"]["records"] == 33 and [claim["name"] for claim in state["claims"]] == ["acids"]
        again = state["searches"][0]
        assert (again["hits"], again["state"], again["stale"]) == (told["hits"], "ended", False)
        assert client.ask("verdicts", id=again["id"])["verdicts"] == [[0, "not", ""]]
        records = (ACIDS / "compounds.sdf").read_bytes().split(b"$$$$\n")
        client.ask("remove", numbers=[2])
        client.load(records[2] + b"$$$$\n", "one.sdf")
        assert client.load(records[2].replace(b"2,4-D", b"other") + b"$$$$\n", "other.sdf", how="replace", number=3)["replaced"] == 1
        assert client.until(lambda state: state["searches"][0]["stale"])
        client.ask("search/again", id=again["id"])
        again = client.ended(again["id"])
        assert again["changes"] == {"new": 1, "lost": 1, "changed": 1}
        found = client.ask("search/changes", id=again["id"])["changes"]
        assert found == {"new": [[34, "2,4-D"]], "lost": [[2, "4-chlorophenoxyacetic acid"]], "changed": [[3, "other"]]}
    with open_bench(program, store) as serving:
        # and what was told is there after another restart
        assert Client(serving).ask("search/changes", id=again["id"])["changes"] == found


def test_what_was_answered_is_there_after_a_kill(program: Path, tmp_path: Path) -> None:
    store = tmp_path / "acids.db"
    words = [TOP / "bin" / "markush-tools", "serve", "--no-browser", "--store", store]
    ran = subprocess.Popen(words, stdout=subprocess.PIPE, text=True, env={**os.environ, "MARKUSH_SESSION": str(program), "PATH": f"/usr/bin:{os.environ['PATH']}"})
    assert ran.stdout is not None
    found = re.search(r":(\d+)/#(\w+)", ran.stdout.readline())
    assert found is not None
    client = Client(SimpleNamespace(server=SimpleNamespace(port=int(found[1]), gate=SimpleNamespace(token=found[2]))))
    try:
        client.until(lambda state: state["library"]["isOpen"])
        client.load((ACIDS / "compounds.sdf").read_bytes(), "compounds.sdf")
        client.ask("claim/keep", name="acids", text=LIST)
        told = client.search("acids")
        sha = client.ask("hits", id=told["id"], **{"from": 0}, choices=0)["shas"][0]
        assert client.ask("verdict", id=told["id"], place=0, sha=sha, verdict="relevant", note="kept") == {}
    finally:
        ran.kill()
        ran.wait()
        ran.stdout.close()
    with open_bench(program, store) as serving:
        client = Client(serving)
        assert [(search["hits"], search["state"]) for search in client.ask("state")["searches"]] == [(told["hits"], "ended")]
        assert client.ask("verdicts", id=told["id"])["verdicts"] == [[0, "relevant", "kept"]]


def test_a_port_that_is_taken(client: Client) -> None:
    words = [TOP / "bin" / "markush-tools", "serve", "--no-browser", "--port", str(client.serving.server.port)]
    ran = subprocess.run(words, capture_output=True, text=True, env={**os.environ, "PATH": f"/usr/bin:{os.environ['PATH']}"}, timeout=60)
    assert ran.returncode == 2 and f"port {client.serving.server.port} is another program's" in ran.stderr and not ran.stdout


@pytest.mark.parametrize(
    "words, told",
    [
        (["--port", "80"], "name another port"),
        (["--host", "bench.example:80"], "name another port"),
        (["--host", "bench.example"], "written as NAME:PORT"),
        (["--port", "70000"], "from 0 to 65535"),
    ],
)
def test_ports_and_hosts_that_no_page_is_reached_by(words: List[str], told: str) -> None:
    ran = subprocess.run(
        [TOP / "bin" / "markush-tools", "serve", "--no-browser", *words], capture_output=True, text=True, env={**os.environ, "PATH": f"/usr/bin:{os.environ['PATH']}"}, timeout=60
    )
    assert ran.returncode == 2 and told in ran.stderr and not ran.stdout


def test_where_there_is_no_rdkit(client: Client, monkeypatch: pytest.MonkeyPatch, tmp_path: Path) -> None:
    """What is drawn is taken, and of the rest it is said what to install."""
    (tmp_path / "rdkit").mkdir()
    (tmp_path / "rdkit" / "__init__.py").write_text("raise ImportError('none')")
    monkeypatch.setenv("PYTHONPATH", str(tmp_path))
    assert client.load((ACIDS / "compounds.sdf").read_bytes(), "compounds.sdf")["kept"] == 33
    client.ask("claim/keep", name="acids", text=(ACIDS / "claim.rgf").read_text())
    assert client.search("acids")["hits"]
    for fault in (client.load(b"CCO ethanol\n", "list.smi"), client.ask("claim/read", text=LIST), client.ask("covers", smiles="CCO")):
        assert "takes RDKit, which this Python doesn't have: install" in fault["fault"]


def test_a_store_that_was_changed_in_between_is_seen(program: Path, tmp_path: Path) -> None:
    store = tmp_path / "acids.db"
    with open_bench(program, store) as serving:
        client = Client(serving)
        client.load((ACIDS / "compounds.sdf").read_bytes(), "compounds.sdf")
        client.ask("claim/keep", name="acids", text=LIST)
        client.search("acids")
        client.until(lambda state: state["library"]["read"] is None and serving.bench.desk.kept.fact("digest"))
    with Library(store, program=program) as library:
        library.remove(1)
    with open_bench(program, store) as serving:
        Client(serving).until(lambda state: state["searches"][0]["stale"])


def test_stop_and_go_on(acids: Client) -> None:
    whole = acids.search("acids")
    acids.ask("claim/keep", name="b", text=(ACIDS / "claim.rgf").read_text())
    number = acids.ask("search", name="b", version=1)["id"]
    acids.ask("search/stop", id=number)
    assert acids.ended(number)["state"] in ("stopped", "ended")
    acids.ask("search/on", id=number)
    assert acids.ended(number)["hits"] == whole["hits"]
    acids.ask("search/drop", id=number)
    assert number not in [search["id"] for search in acids.ask("state")["searches"]]


def test_a_search_is_stopped_while_it_waits(acids: Client) -> None:
    whole, goes_on = acids.search("acids"), threading.Event()
    acids.ask("claim/keep", name="b", text=(ACIDS / "claim.rgf").read_text())
    acids.serving.bench.driver.do("something else is done", lambda library: goes_on.wait(60))
    number = acids.ask("search", name="b", version=1)["id"]
    acids.ask("search/again", id=whole["id"])
    for each in (number, whole["id"]):
        acids.ask("search/stop", id=each)
    goes_on.set()
    told = [acids.ended(each) for each in (number, whole["id"])]
    # what was to be searched anew has its hits until it goes on
    assert [(each["state"], each["hits"], each["run"]) for each in told] == [("stopped", 0, 0), ("stopped", whole["hits"], 0)]
    for each in (number, whole["id"]):
        acids.ask("search/on", id=each)
    told = [acids.ended(each) for each in (number, whole["id"])]
    assert [(each["state"], each["hits"], each["run"]) for each in told] == [("ended", whole["hits"], 0), ("ended", whole["hits"], 1)]
    assert told[1]["changes"] == {"new": 0, "lost": 0, "changed": 0}


def test_hits_go_while_they_are_asked_for(acids: Client, monkeypatch: pytest.MonkeyPatch) -> None:
    """A search begins anew within a request of another tab."""
    told = acids.search("acids")
    search, card, choices = acids.serving.bench.desk.searches[told["id"]], Hits._card, Choices.told
    monkeypatch.setattr(Hits, "_card", lambda self, search, at, end: (search._begin() if at == 1 else None, card(self, search, at, end))[1])
    assert acids.ask("cards", id=told["id"], places=[0, 1, 2]) == {"run": 1, "cards": []}
    acids.ask("search/again", id=told["id"])
    assert acids.ended(told["id"])["hits"] == told["hits"]
    run = search.run
    monkeypatch.setattr(Choices, "told", lambda self, start, most: (search._begin(), choices(self, start, most))[1])
    found = acids.ask("hits", id=told["id"], **{"from": 0}, choices=0)
    assert (found["run"], found["records"], found["hits"], found["choices"], found["isMore"]) == (run, [], [], [], False)


def test_a_search_goes_on_within_a_record(program: Path, tmp_path: Path, monkeypatch: pytest.MonkeyPatch) -> None:
    """It is stopped after each of the first hits, of which two are of one record, once with a restart."""
    page = Search._page

    def paged(self: Search, library: Library) -> bool:
        before, is_end = self.count, page(self, library)
        self.wants_stop = self.wants_stop or before != self.count < 7
        return is_end

    store, told = tmp_path / "acids.db", {"state": "", "hits": 0, "id": 1}
    with open_bench(program, store) as serving:
        client = Client(serving)
        client.load((ACIDS / "compounds.sdf").read_bytes(), "compounds.sdf")
        client.ask("claim/keep", name="whole", text=(ACIDS / "claim.rgf").read_text())
        client.ask("claim/keep", name="parts", text=(ACIDS / "claim.rgf").read_text())
        whole = client.search("whole")
        wanted = client.ask("hits", id=whole["id"], **{"from": 0}, choices=0)
        monkeypatch.setattr("markush.serve.searches.PAGES", (1,))
        monkeypatch.setattr(Search, "_page", paged)
        told = client.search("parts")
        for count in (1, 2, 3):
            assert (told["state"], told["hits"]) == ("stopped", count)
            client.ask("search/on", id=told["id"])
            told = client.ended(told["id"])
    with open_bench(program, store) as serving:
        client = Client(serving)
        for count in (4, 5, 6):
            assert (told["state"], told["hits"]) == ("stopped", count)
            client.ask("search/on", id=told["id"])
            told = client.ended(told["id"])
        assert told["state"] == "ended"
        found = client.ask("hits", id=told["id"], **{"from": 0}, choices=0)
        for word in ("records", "names", "shas", "hits", "choices"):
            assert found[word] == wanted[word], word
        cards = [client.ask("cards", id=number, places=list(range(8)))["cards"] for number in (whole["id"], told["id"])]
        assert [card["h"] for card in cards[0]] == [card["h"] for card in cards[1]]
        # nothing that Python's collector would look through is left of each record
        for search in serving.bench.desk.searches.values():
            assert all(type(each) is tuple for each in [*search.held, *search.maps, *(maps for held in search.maps for maps in held)])


def test_files_are_loaded_in_turn(client: Client) -> None:
    numbers = []
    for name, body in (("a.smi", b"".join(b"C%s a%d\n" % (b"C" * (n % 30), n) for n in range(1_500))), ("b.sdf", (ACIDS / "compounds.sdf").read_bytes())):
        data = client.raw("load", body, **{"X-Markush-Words": quote(json.dumps({"name": name, "how": "add"}))})[1]
        numbers.append(json.loads(data)["id"])
    client.until(lambda state: [job["state"] for job in state["loads"]] == ["done", "done"])
    rows = client.ask("compounds", **{"from": 1_499}, text="")["rows"]
    assert numbers == [1, 2] and [row[1] for row in rows[:2]] == ["a1499", "phenoxyacetic acid"] and len(rows) == 34


def test_a_command_that_takes_long_is_shown_and_ended(acids: Client, monkeypatch: pytest.MonkeyPatch) -> None:
    monkeypatch.setattr("markush.serve.bench.LONG", 0.3)
    whole = acids.search("acids")
    library = acids.serving.bench.driver.library
    assert library is not None and library._session.process_id is not None
    # the program is halted, as one that works for long would be
    os.kill(library._session.process_id, signal.SIGSTOP)
    acids.ask("search/again", id=whole["id"])
    busy = acids.until(lambda state: state["busy"] is not None)["busy"]
    assert busy["what"] == "the search of 'acids'"
    assert acids.ask("end") == {}
    ended = acids.ended(whole["id"])
    assert ended["state"] == "failed" and ended["fault"].startswith("the command was ended, and the store is opened again")
    acids.until(lambda state: state["busy"] is None)
    acids.ask("search/on", id=whole["id"])
    again = acids.ended(whole["id"])
    assert (again["state"], again["hits"], again["records"]) == ("ended", whole["hits"], whole["records"])


def test_what_the_session_is_asked(client: Client, monkeypatch: pytest.MonkeyPatch) -> None:
    asked: List[str] = []
    ask, at_once = Session.ask, Session.ask_each
    monkeypatch.setattr(Session, "ask", lambda self, command, deadline=None: (asked.append(command), ask(self, command, deadline))[1])
    monkeypatch.setattr(Session, "ask_each", lambda self, commands: (asked.extend(commands), at_once(self, commands))[1])
    data = (ACIDS / "compounds.sdf").read_bytes()
    client.load(data * 50, "many.sdf")
    client.ask("claim/keep", name="a", text=(ACIDS / "claim.rgf").read_text())
    told = client.search("a")
    assert told["hits"] == 50 * 16 and told["records"] == 50 * 8
    words = [command.split() for command in asked]
    limits = [(int(word[2]), int(word[3])) for word in words if word[0] in ("search", "resume")]
    assert [limit for limit, _ in limits[:3]] == [24, 100, 400] and {turns for _, turns in limits} == {2_048}
    assert sum(word[0] == "load" for word in words) == 2 and not [word for word in words if word[0] == "table"]


def test_requests_are_answered_soon(acids: Client) -> None:
    acids.ask("search", name="acids", version=1)
    took = []
    for _ in range(30):
        began = time.monotonic()
        acids.ask("state")
        took.append(time.monotonic() - began)
    assert sorted(took)[15] < 0.05


def test_no_name_of_the_page_is_given_twice() -> None:
    here = TOP / "python" / "src" / "markush"
    names = []
    for file in ("hits.js", "serve/bench.js"):
        names += re.findall(r"(?m)^(?:(?:async )?function|const|let) (\w+)", (here / file).read_text())
    assert len(names) == len(set(names)) > 100


def test_the_page_makes_no_markup_of_text() -> None:
    here = TOP / "python" / "src" / "markush"
    for file in ("hits.js", "serve/bench.js"):
        text = (here / file).read_text()
        assert not re.search(r"innerHTML|outerHTML|insertAdjacentHTML|document\.write|eval\(|new Function|srcdoc|DOMParser|\.on[a-z]+ =", text), file
    html = (here / "serve" / "bench.html").read_text()
    assert not re.search(r"<style|\sstyle=|\son[a-z]+=|https?://|<script>", html)


def test_the_place_of_a_search_is_read_of_the_log(tmp_path: Path) -> None:
    path = tmp_path / "store.db"
    with contextlib.closing(sqlite3.connect(path, isolation_level=None)) as base:
        base.execute("PRAGMA journal_mode = WAL")
        base.execute("CREATE TABLE cursors(number INTEGER PRIMARY KEY, name TEXT NOT NULL, place BLOB NOT NULL) STRICT")
        place = Place(path)
        assert place.record(1) is None
        for number, record, rest in ((1, 70_000, [5, 2]), (2, 3, list(range(300))), (1, 99_999, [])):
            blob = b"".join(each.to_bytes(4, "big") for each in [record, *rest])
            base.execute("INSERT OR REPLACE INTO cursors VALUES(?, ?, ?)", (number, f"markush.py.0123abcd.{number}", blob))
            assert place.record(number) == record
        base.execute("INSERT INTO cursors VALUES(7, 'mine', x'00000009')")
        assert place.record(7) is None and place.record(2) == 3
        # what stood in the log before isn't gone through
        later = Place(path)
        assert later.record(2) is None
        base.execute("UPDATE cursors SET place = x'00000004' WHERE number = 2")
        assert later.record(2) == place.record(2) == 4
        base.execute("PRAGMA wal_checkpoint(RESTART)")
        base.execute("UPDATE cursors SET place = x'00000005' WHERE number = 2")
        assert place.record(2) == 5
    (tmp_path / "store.db-wal").write_bytes(b"7\x7f\x06" + bytes(5_000))
    assert Place(path).record(1) is None


@pytest.mark.parametrize("name", sorted(path.parent.name for path in (TOP / "examples").glob("*/answer")))
def test_parts_are_those_of_the_expansion(name: str) -> None:
    """A choice's parts are told without its graph; they are those that the page of hits makes of the whole expansion."""
    folder = TOP / "examples" / name
    claim = Claim.read(folder / "claim.rgf")
    choices = Choices(claim)
    lines = [line for line in (folder / "answer").read_text().splitlines() if line.startswith("hit")]
    for line in lines:
        written = line[line.index("choice") + 6 : line.index(" map")].strip()
        place = choices.place(written)
        whole, _ = _choice_data(claim.query, choices.facets, numbers(written))
        assert {**json.loads(choices.told(place, 1)[0]), **choices.graph(place)} == whole
    assert lines and len(choices.written) == len(set(choices.written)) == len(choices.told(0, 10_000))

"""Searches: which hits come, what is left behind, what time and interrupts do, and what saved searches tell."""
from __future__ import annotations

import gc
import pickle
import random
import sys
import threading
import warnings
from pathlib import Path
from typing import Any, Callable, List, Optional

import pytest

from markush import Claim, Hit, Library, SearchTimeout, StoreReopened, to_frame
from markush.answers import RawHit, read_page
from markush.session import CutOff


def answer(examples: Path, name: str) -> "List[RawHit]":
    """The hits that the example's stored answer lists."""
    lines = [line for line in (examples / name / "answer").read_text().splitlines() if line.startswith("hit ")]
    return list(read_page(("\n".join(lines) + "\nend\n").encode()).hits)


def raw(hits: Any) -> "List[RawHit]":
    return [RawHit(hit.record, hit.choice, hit.map) for hit in hits]


def going_on(hits: Any, most: int = 100_000) -> "List[Hit]":
    """All hits of a search that stops again and again."""
    found: List[Hit] = []
    for _ in range(most):
        try:
            found.extend(hits)
            return found
        except SearchTimeout as stop:
            assert stop.hits is hits
    raise AssertionError("the search comes to no end")


class Ticking:
    """A clock that goes on by so much whenever it is looked at."""

    def __init__(self, by: float) -> None:
        self.by, self.now = by, 0.0

    def __call__(self) -> float:
        self.now += self.by
        return self.now


# ---- which hits


@pytest.mark.parametrize("name", ["phenoxy_acids", "beta_blockers", "amino_chains", "local_anaesthetics"])
def test_hits_are_those_of_the_examples(library: Library, examples: Path, name: str) -> None:
    library.load(examples / name / "compounds.sdf")
    claim = Claim.read(examples / name / "claim.rgf")
    wanted = answer(examples, name)
    assert wanted and raw(library.search(claim, per="map")) == wanted
    by_choice = list(dict.fromkeys((hit.record, hit.choice) for hit in wanted))
    assert [(hit.record, hit.choice) for hit in library.search(claim)] == by_choice
    by_record = list(dict.fromkeys(hit.record for hit in wanted))
    assert [hit.record for hit in library.search(claim, per="record")] == by_record
    frame = library.table(claim)
    assert list(frame["record"]) == by_record


@pytest.mark.parametrize("per", ["choice", "record", "map"])
def test_limit_counts_what_per_says(loaded: Library, acids: Claim, per: str) -> None:
    whole = raw(loaded.search(acids, per=per))
    for limit in (0, 1, 2, 3, len(whole) - 1, len(whole), len(whole) + 1):
        assert raw(loaded.search(acids, per=per, limit=limit)) == whole[:limit]
    assert loaded.queries() == () and loaded.cursors() == ()


def test_words_that_are_none(loaded: Library, acids: Claim) -> None:
    with pytest.raises(ValueError, match="per is"):
        loaded.search(acids, per="atom")
    with pytest.raises(ValueError, match="limit is"):
        loaded.search(acids, limit=-1)


def test_small_pages_list_the_same(loaded: Library, acids: Claim, examples: Path, monkeypatch: pytest.MonkeyPatch) -> None:
    for size in (1, 2, 3, 7):
        monkeypatch.setattr("markush.hits._PAGE", size)
        monkeypatch.setattr("markush.hits._FIRST_PAGE", size)
        assert raw(loaded.search(acids, per="map")) == answer(examples, "phenoxy_acids")


def test_a_bar_changes_no_hit(loaded: Library, acids: Claim, capsys: pytest.CaptureFixture[str]) -> None:
    assert raw(loaded.search(acids, progress=True)) == raw(loaded.search(acids))
    assert "records" in capsys.readouterr().err


def test_a_hit_is_pickled_and_back(loaded: Library, acids: Claim) -> None:
    hit = next(loaded.search(acids))
    back = pickle.loads(pickle.dumps(hit))
    assert back == hit and back.parts == hit.parts and pickle.loads(pickle.dumps(acids)) == acids


# ---- atoms and parts


def assert_lies(hit: Hit) -> None:
    """Each atom of the expansion lies on an atom of its element, or on a hydrogen that isn't drawn."""
    mol = hit.mol
    assert len(hit.atoms) == len(hit.map) == len(hit.expansion.atoms)
    for atom, place, number in zip(hit.expansion.atoms, hit.atoms, hit.map):
        if place is None:
            assert number > mol.GetNumAtoms() and atom.asks.symbol in ("H", "A", "*")
        elif atom.asks.symbol not in ("L", "A", "Q", "*"):
            assert mol.GetAtomWithIdx(place).GetSymbol() == atom.asks.symbol


def symbols(hit: Hit, atoms: "tuple[Optional[int], ...]") -> "list[str]":
    return ["" if atom is None else hit.mol.GetAtomWithIdx(atom).GetSymbol() for atom in atoms]


def test_atoms_on_hydrogens_that_are_added(loaded: Library, acids: Claim) -> None:
    hits = list(loaded.search(acids))
    assert [hit.record for hit in hits] == [1, 2, 3, 3, 4, 4, 5, 5, 6, 7, 8]
    for hit in hits:
        assert_lies(hit)
    # the hydrogens in the place of R1 twice and of R2 once
    assert hits[0].atoms.count(None) == 3 and hits[0].parts["R2"].atoms == (None,) and hits[0].parts["R2"].smiles == "[H]"
    assert hits[1].parts["R2"].name == "*Cl" and symbols(hits[1], hits[1].parts["R2"].atoms) == ["Cl"]


def test_atoms_on_hydrogens_that_are_drawn(library: Library, acids: Claim, acids_sdf: Path) -> None:
    from rdkit import Chem

    library.load([Chem.AddHs(mol) for mol in Chem.SDMolSupplier(str(acids_sdf))][:8])
    hits = list(library.search(acids, per="record"))
    assert [hit.record for hit in hits] == [1, 2, 3, 4, 5, 6, 7, 8]
    for hit in hits:
        assert_lies(hit)
        assert None not in hit.atoms
    assert symbols(hits[0], hits[0].parts["R2"].atoms) == ["H"] and symbols(hits[1], hits[1].parts["R2"].atoms) == ["Cl"]


def test_atoms_of_a_v3000_record(library: Library, acids: Claim, acids_sdf: Path, tmp_path: Path) -> None:
    from rdkit import Chem

    mols = [mol for mol in Chem.SDMolSupplier(str(acids_sdf), removeHs=False)][:8]
    path = tmp_path / "v3000.sdf"
    path.write_text("".join(Chem.MolToV3KMolBlock(mol) + "$$$$\n" for mol in mols))
    library.load(path)
    hits = list(library.search(acids, per="record"))
    assert [hit.record for hit in hits] == [1, 2, 3, 4, 5, 6, 7, 8]
    for hit in hits:
        assert_lies(hit)


def test_parts_of_nested_groups_and_links(library: Library, examples: Path) -> None:
    claim = Claim.from_list("root c1ccccc1[1*]\nR1 *Cl\nR1 *O[2*]\nR2 *[CH3] methyl\nR2 *[CH2][CH3]\nlogic R2 0-1 rest")
    library.load(examples.parent / "crates" / "markush" / "data" / "chloroanisole.mol")
    hits = list(library.search(claim))
    assert [hit.choice for hit in hits] == [(1,), (2, 1)]
    assert [(name, part.label, part.member) for name, part in hits[1].parts.items()] == [("R1", 1, 2), ("R2", 2, 1)]
    assert hits[1].parts["R1"].atoms == (7, 8) and hits[1].parts["R2"].atoms == (8,)
    assert hits[1].words == "R1 = *O[R2], R2 = methyl"


def test_the_frame_says_the_hits(loaded: Library, acids: Claim) -> None:
    hits = list(loaded.search(acids))
    frame = to_frame(hits)
    assert list(frame["record"]) == [hit.record for hit in hits] and list(frame["name"]) == [hit.name for hit in hits]
    assert list(frame["R2"]) == [hit.parts["R2"].name for hit in hits]
    assert loaded.search(acids).to_frame().equals(frame)
    assert list(loaded.search(Claim.from_list("root [Xe][1*]\nR1 *F")).to_frame().columns) == ["record", "name", "choice", "R1"]
    table = loaded.table(acids)
    assert list(table["formula"])[:2] == ["C8H8O3", "C8H7ClO3"] and list(table["R2"])[:3] == [None, "*Cl", "*Cl"]


# ---- what is left behind


# a store keeps 1,000 claims and 1,000 saved searches at most
many = pytest.mark.parametrize("count", [20, pytest.param(3000, marks=pytest.mark.long)])


@many
def test_many_searches_leave_nothing(loaded: Library, acids: Claim, count: int) -> None:
    loaded.remove(range(4, 34))
    for _ in range(count):
        assert [hit.record for hit in loaded.search(acids, limit=1)] == [1]
    assert loaded.queries() == () and loaded.cursors() == ()


@many
def test_many_abandoned_searches_leave_nothing(loaded: Library, acids: Claim, count: int) -> None:
    loaded.remove(range(4, 34))
    for _ in range(count):
        assert next(loaded.search(acids, limit=2)).record == 1
    gc.collect()
    assert loaded.queries() == () and loaded.cursors() == ()


def test_a_closed_search_and_one_that_failed_leave_nothing(loaded: Library, acids: Claim) -> None:
    hits = loaded.search(acids, limit=2)
    next(hits)
    assert len(loaded.queries()) == 1
    hits.close()
    assert loaded.queries() == () and list(hits) == []
    with pytest.raises(ValueError):
        list(loaded.search(Claim("no claim\n\n\n\n")))
    assert loaded.queries() == () and loaded.cursors() == ()


def test_two_threads_with_an_iterator_each(loaded: Library, acids: Claim, examples: Path, monkeypatch: pytest.MonkeyPatch) -> None:
    monkeypatch.setattr("markush.hits._PAGE", 2)
    monkeypatch.setattr("markush.hits._FIRST_PAGE", 2)
    found: "dict[int, list[RawHit]]" = {}

    def searches(who: int) -> None:
        found[who] = [hit for _ in range(5) for hit in raw(loaded.search(acids, per="map"))]

    threads = [threading.Thread(target=searches, args=(who,)) for who in (1, 2)]
    for thread in threads:
        thread.start()
    for thread in threads:
        thread.join()
    wanted = answer(examples, "phenoxy_acids") * 5
    assert found == {1: wanted, 2: wanted} and loaded.queries() == ()


def test_records_that_come_and_go_while_a_search_goes_on(
    loaded: Library, acids: Claim, acids_sdf: Path, monkeypatch: pytest.MonkeyPatch
) -> None:
    monkeypatch.setattr("markush.hits._FIRST_PAGE", 1)
    monkeypatch.setattr("markush.hits._PAGE", 1)
    hits = loaded.search(acids, per="record")
    assert next(hits).record == 1
    loaded.remove(2)
    loaded.load(acids_sdf)
    assert [hit.record for hit in hits] == [3, 4, 5, 6, 7, 8, 34, 35, 36, 37, 38, 39, 40, 41]


# ---- time


@pytest.mark.filterwarnings("ignore::markush.errors.StoreReopened")
def test_a_search_that_stops_for_time_goes_on(
    program: Path, acids_sdf: Path, acids: Claim, examples: Path, monkeypatch: pytest.MonkeyPatch
) -> None:
    # four hits are a page, and to hand out three of them takes more than the time: no page is whole in it, however fast
    monkeypatch.setattr("markush.hits._FIRST_PAGE", 4)
    monkeypatch.setattr("markush.hits._PAGE", 4)
    clock = Ticking(0)
    with Library(program=program, clock=clock) as lib:
        lib.load(acids_sdf)
        hits = lib.search(acids, per="map", timeout=5)
        clock.by = 2
        given: List[Hit] = []
        with pytest.raises(SearchTimeout, match="no further hit within 5 s") as stop:
            while True:
                given.append(next(hits))
        assert stop.value.hits is hits and len(given) <= 4
        clock.by = 0.5
        rest = going_on(hits)
        assert rest and raw(given + rest) == answer(examples, "phenoxy_acids")
        clock.by = 0
        assert lib.queries() == () and lib.cursors() == ()


Cut = Callable[[Library, str, Optional[float], Any], Any]


def cut_before(lib: Library, command: str, deadline: Optional[float], ask: Any) -> Any:
    """The process is ended before it does the command."""
    lib._session.end()
    lib._session.let_go("the time was over")
    raise CutOff("the time was over", False)


def cut_behind(lib: Library, command: str, deadline: Optional[float], ask: Any) -> Any:
    """The command is done and kept, and its frame is lost."""
    ask(command, deadline)
    lib._session.end()
    lib._session.let_go("the time was over")
    raise CutOff("the time was over", False)


def cut_within(lib: Library, command: str, deadline: Optional[float], ask: Any) -> Any:
    """The command is done and kept, and a part of its frame has come."""
    try:
        cut_behind(lib, command, deadline, ask)
    except CutOff:
        raise CutOff("the time was over", True) from None


def interrupted_before(lib: Library, command: str, deadline: Optional[float], ask: Any) -> Any:
    lib._session.end()
    lib._session.let_go("it was interrupted")
    raise KeyboardInterrupt


def interrupted_behind(lib: Library, command: str, deadline: Optional[float], ask: Any) -> Any:
    ask(command, deadline)
    lib._session.end()
    lib._session.let_go("it was interrupted")
    raise KeyboardInterrupt


CUTS = [cut_before, cut_behind, cut_within, interrupted_before, interrupted_behind]


@pytest.mark.filterwarnings("ignore::markush.errors.StoreReopened")
@pytest.mark.parametrize("cut", CUTS, ids=[cut.__name__ for cut in CUTS])
def test_nothing_is_lost_or_said_twice_where_a_page_is_cut_off(
    loaded: Library, acids: Claim, examples: Path, monkeypatch: pytest.MonkeyPatch, cut: Cut
) -> None:
    monkeypatch.setattr("markush.hits._FIRST_PAGE", 3)
    monkeypatch.setattr("markush.hits._PAGE", 3)
    wanted = answer(examples, "phenoxy_acids")
    ask = loaded._session.ask
    for at in range(1, 7):
        asked = 0

        def some(command: str, deadline: Optional[float] = None) -> Any:
            nonlocal asked
            if command.split()[0] in ("search", "resume"):
                asked += 1
                if asked == at:
                    return cut(loaded, command, deadline, ask)
            return ask(command, deadline)

        hits = loaded.search(acids, per="map", timeout=1e9)
        found: List[Hit] = []
        stops = 0
        with monkeypatch.context() as patched:
            patched.setattr(loaded._session, "ask", some)
            while True:
                try:
                    found.extend(hits)
                    break
                except (SearchTimeout, KeyboardInterrupt):
                    stops += 1
        assert stops == 1 and raw(found) == wanted
    assert loaded.queries() == () and loaded.cursors() == ()


class Interrupts:
    """Raises KeyboardInterrupt at one of the lines of this package that are run, as a signal might."""

    def __init__(self, at: int) -> None:
        self.left, self.raised = at, False

    def __call__(self, frame: Any, event: str, _: Any) -> Any:
        name = frame.f_code.co_filename
        if "/markush/" not in name or frame.f_code.co_name in ("__del__", "_after_fork_in_child"):
            return None
        if event == "line" and not self.raised:
            self.left -= 1
            if self.left < 0:
                self.raised = True
                raise KeyboardInterrupt
        return self


@pytest.mark.filterwarnings("ignore")
@pytest.mark.parametrize("count", [8, pytest.param(200, marks=pytest.mark.long)])
def test_interrupts_at_random_moments(loaded: Library, acids: Claim, examples: Path, count: int) -> None:
    draw = random.Random(2026)
    loaded.remove(range(6, 34))
    wanted = [hit for hit in answer(examples, "phenoxy_acids") if hit.record < 6]
    raised = 0
    while raised < count:
        interrupts = Interrupts(draw.randint(0, 1200))
        sys.settrace(interrupts)
        try:
            list(loaded.search(acids, per="map", limit=draw.choice((None, 1, 4))))
        except KeyboardInterrupt:
            pass
        finally:
            sys.settrace(None)
        raised += interrupts.raised
        if interrupts.raised:
            assert raw(loaded.search(acids, per="map")) == wanted
    gc.collect()
    assert loaded.queries() == () and loaded.cursors() == () and len(loaded) == 5


# ---- saved searches


def one(path: Path, acids_sdf: Path, number: int) -> Path:
    path.write_bytes(acids_sdf.read_bytes().split(b"$$$$\n")[number - 1] + b"$$$$\n")
    return path


def test_a_search_at_its_end_tells_what_was_added(loaded: Library, acids: Claim, acids_sdf: Path, tmp_path: Path) -> None:
    hits = loaded.search(acids)
    whole = list(hits)
    hits.save("acids")
    saved = loaded.saved("acids")
    assert saved.ended and saved.claim == acids and len(saved.hits) == len(whole)
    assert not saved.again()
    loaded.load(one(tmp_path / "one.sdf", acids_sdf, 3))
    changes = loaded.saved("acids").again()
    assert [(hit.record, hit.choice) for hit in changes.new] == [(34, (1, 3, 1)), (34, (3, 1, 1))]
    assert changes.lost == () and changes.changed == ()
    assert not loaded.saved("acids").again() and loaded.queries() == ()


def test_records_replaced_and_removed_are_told(loaded: Library, acids: Claim, acids_sdf: Path, tmp_path: Path) -> None:
    hits = loaded.search(acids)
    for _ in range(20):
        next(hits, None)
    hits.save("acids")
    loaded.replace(9, one(tmp_path / "9.sdf", acids_sdf, 2))  # into a hit
    loaded.replace(1, one(tmp_path / "1.sdf", acids_sdf, 33))  # out of one
    loaded.replace(8, one(tmp_path / "8.sdf", acids_sdf, 2))  # another hit
    loaded.replace(7, one(tmp_path / "7.sdf", acids_sdf, 1))  # the same choice, another text
    loaded.remove(6)
    changes = loaded.saved("acids").again()
    assert [(hit.record, hit.choice) for hit in changes.new] == [(8, (3, 3, 1)), (9, (3, 3, 1))]
    assert [(hit.record, hit.choice) for hit in changes.lost] == [(1, (3, 3, 3)), (6, (3, 3, 1)), (8, (3, 3, 2))]
    assert [(hit.record, hit.choice) for hit in changes.changed] == [(7, (3, 3, 3))]


def test_by_record_a_hit_by_another_choice_is_changed_and_not_new(
    loaded: Library, acids: Claim, acids_sdf: Path, tmp_path: Path
) -> None:
    hits = loaded.search(acids, per="record")
    choices = {hit.record: hit.choice for hit in hits}
    hits.save("acids")
    loaded.replace(8, one(tmp_path / "8.sdf", acids_sdf, 2))  # a hit by another choice
    loaded.replace(9, one(tmp_path / "9.sdf", acids_sdf, 2))  # into a hit
    changes = loaded.saved("acids").again()
    assert [hit.record for hit in changes.new] == [9] and changes.lost == ()
    assert [hit.record for hit in changes.changed] == [8] and changes.changed[0].choice != choices[8]
    assert not loaded.saved("acids").again()


@pytest.mark.parametrize("per", ["choice", "record"])
@pytest.mark.parametrize("given", [1, 2, 3, 5])
def test_a_search_that_is_not_at_its_end_goes_on_from_its_place(
    loaded: Library, acids: Claim, monkeypatch: pytest.MonkeyPatch, per: str, given: int
) -> None:
    monkeypatch.setattr("markush.hits._FIRST_PAGE", 2)
    monkeypatch.setattr("markush.hits._PAGE", 2)
    whole = raw(loaded.search(acids, per=per))
    hits = loaded.search(acids, per=per)
    first = [next(hits) for _ in range(given)]
    hits.save("acids")
    saved = loaded.saved("acids")
    assert not saved.ended and saved.query in loaded.queries()
    monkeypatch.setattr(loaded, "_keep", lambda *_: pytest.fail("it was searched anew"))
    changes = saved.again()
    assert raw(first) + raw(changes.new) == whole and changes.lost == () and changes.changed == ()
    assert [(found.record, found.choice) for found in loaded.saved("acids").hits] == [(hit.record, hit.choice) for hit in whole]
    assert loaded.queries() == ()


def test_one_whose_records_before_the_place_were_replaced_is_searched_anew(
    loaded: Library, acids: Claim, acids_sdf: Path, tmp_path: Path, monkeypatch: pytest.MonkeyPatch
) -> None:
    monkeypatch.setattr("markush.hits._FIRST_PAGE", 6)
    monkeypatch.setattr("markush.hits._PAGE", 6)
    hits = loaded.search(acids)
    given = [next(hits).record for _ in range(4)]
    hits.save("acids")
    rest = [hit.record for hit in hits]
    assert given + rest == [1, 2, 3, 3, 4, 4, 5, 5, 6, 7, 8]
    loaded.replace(1, one(tmp_path / "1.sdf", acids_sdf, 33))
    changes = loaded.saved("acids").again()
    assert [hit.record for hit in changes.new] == rest and [hit.record for hit in changes.lost] == [1]


def test_before_the_place_a_record_that_became_a_hit_and_one_that_is_none_any_more_are_told(
    loaded: Library, acids: Claim, acids_sdf: Path, tmp_path: Path, monkeypatch: pytest.MonkeyPatch
) -> None:
    monkeypatch.setattr("markush.hits._FIRST_PAGE", 3)
    monkeypatch.setattr("markush.hits._PAGE", 3)
    loaded.replace(2, one(tmp_path / "2.sdf", acids_sdf, 33))
    hits = loaded.search(acids, per="record")
    given = [next(hits).record for _ in range(4)]
    hits.save("acids")
    rest = [hit.record for hit in hits]
    assert given == [1, 3, 4, 5] and rest == [6, 7, 8]
    saved = loaded.saved("acids")
    assert not saved.ended and saved.query in loaded.queries()
    loaded.replace(2, one(tmp_path / "2.sdf", acids_sdf, 2))  # into a hit
    loaded.replace(4, one(tmp_path / "4.sdf", acids_sdf, 33))  # out of one
    loaded.remove(3)
    changes = saved.again()
    assert [hit.record for hit in changes.new] == [2, *rest]
    assert [lost.record for lost in changes.lost] == [3, 4] and changes.changed == ()
    assert not loaded.saved("acids").again() and loaded.queries() == () and loaded.cursors() == ()


def test_saved_searches_stay_with_the_store(program: Path, acids: Claim, acids_sdf: Path, tmp_path: Path) -> None:
    path = tmp_path / "x.db"
    with Library(path, program=program) as lib:
        lib.load(acids_sdf)
        hits = lib.search(acids, per="map", limit=3)
        assert len(list(hits)) == 3
        hits.save("three")
        half = lib.search(acids, limit=2)
        next(half)
        half.save("half")
        assert lib.saved_searches() == ("half", "three")
    with Library(path, program=program) as lib:
        assert lib.saved_searches() == ("half", "three") and lib.queries() == (lib.saved("half").query,)
        assert len(lib.saved("half").again().new) == 10
        lib.saved("three").forget()
        assert lib.saved_searches() == ("half",) and lib.queries() == ()
        with pytest.raises(KeyError, match="three"):
            lib.saved("three")
        with pytest.raises(ValueError, match="a saved search is called by"):
            hits.save("../x")


def test_watch_tells_only_what_is_new(loaded: Library, acids: Claim, acids_sdf: Path, tmp_path: Path) -> None:
    from markush import keep, watch

    assert keep(loaded, "acids", acids) == 11 and keep(loaded, "xenon", Claim.from_list("root [Xe]")) == 0
    assert watch(loaded) == {}
    loaded.load(one(tmp_path / "one.sdf", acids_sdf, 1))
    found = watch(loaded)
    assert list(found) == ["acids"] and [hit.record for hit in found["acids"].new] == [34]


def test_a_reopened_store_says_so_once(loaded: Library, acids: Claim) -> None:
    loaded._session.end()
    with pytest.warns(StoreReopened, match="was opened again"):
        assert len(loaded) == 33
    with warnings.catch_warnings():
        warnings.simplefilter("error")
        assert len(list(loaded.search(acids, per="record"))) == 8

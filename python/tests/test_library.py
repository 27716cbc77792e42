"""Libraries: what goes in, what comes out, and what becomes of them when something ends."""
from __future__ import annotations

import gzip
import lzma
import os
import signal
import tempfile
import threading
from pathlib import Path
from typing import Any, List

import pytest

from markush import Claim, Library, MarkushError, Refused, StoreBad, StoreBusy, StoreReopened, Updated


def records_of(path: Path) -> List[bytes]:
    return [piece + b"$$$$\n" for piece in path.read_bytes().split(b"$$$$\n")[:-1]]


def item(text: bytes, key: str, value: str) -> bytes:
    """A record with one more data item."""
    return text.replace(b"$$$$\n", f"> <{key}>\n{value}\n\n$$$$\n".encode())


def with_ids(path: Path, numbers: "List[int]") -> "List[bytes]":
    records = records_of(path)
    return [item(records[number - 1], "ID", f"A{number}") for number in numbers]


# ---- in and out


def test_records_go_in_and_come_out_as_they_were(loaded: Library, acids_sdf: Path) -> None:
    assert len(loaded) == 33 and loaded.numbers == tuple(range(1, 34))
    for record, text in zip(loaded, records_of(acids_sdf)):
        assert record.raw + b"$$$$\n" == text
    assert loaded[3].name == "2,4-D" and loaded[3].data == {"formula": "C8H6Cl2O3"}
    assert loaded[3].mol.GetNumAtoms() == 13 and loaded[3].mol.GetProp("formula") == "C8H6Cl2O3"


def test_a_missing_record_is_a_key_error(loaded: Library) -> None:
    assert 33 in loaded and 34 not in loaded and "33" not in loaded
    for what in (lambda: loaded[34], lambda: loaded.remove(34), lambda: loaded.replace(34, [loaded[1].mol])):
        with pytest.raises(KeyError, match="34"):
            what()


@pytest.mark.parametrize("pack, ending", [(gzip.compress, ".sdf.gz"), (lzma.compress, ".sdf.xz"), (gzip.compress, ".sdf")])
def test_packed_files(library: Library, acids_sdf: Path, tmp_path: Path, pack: Any, ending: str) -> None:
    path = tmp_path / f"packed{ending}"
    path.write_bytes(pack(acids_sdf.read_bytes()))
    assert library.load(path).count == 33
    assert library[33].raw + b"$$$$\n" == records_of(acids_sdf)[32]


def test_a_pipe_is_read_once(library: Library, acids_sdf: Path, tmp_path: Path) -> None:
    pipe = tmp_path / "pipe"
    os.mkfifo(pipe)

    def fills() -> None:
        pipe.write_bytes(acids_sdf.read_bytes())

    thread = threading.Thread(target=fills)
    thread.start()
    try:
        assert library.load(pipe).count == 33
    finally:
        thread.join()


def test_molecules_of_rdkit_with_their_properties(loaded: Library) -> None:
    mols = [loaded[2].mol, None, loaded[3].mol]
    with pytest.raises(Refused, match="molecule 2 of the list is None"):
        loaded.load(mols)
    assert len(loaded) == 33
    kept = loaded.load(mols, bad="skip")
    assert (kept.count, kept.first, [fault.record for fault in kept.refused]) == (2, 34, [2])
    assert loaded[35].name == "2,4-D" and loaded[35].data["formula"] == "C8H6Cl2O3"
    with pytest.raises(TypeError, match="item 1 of the list is a int"):
        loaded.load([7])


NAMES = [
    b"a b.sdf",
    b"a'b\".sdf",
    b"a\nremove 1\n.sdf",
    b"\xe4\xff.sdf",
    b"-",
    b"--store",
    b"$HOME;ls.sdf",
]


@pytest.mark.parametrize("name", NAMES, ids=[repr(name) for name in NAMES])
def test_names_of_files_never_reach_the_program(library: Library, acids_sdf: Path, tmp_path: Path, name: bytes) -> None:
    path = os.fsencode(tmp_path) + b"/" + name
    with open(path, "wb") as out:
        out.write(records_of(acids_sdf)[0])
    library.load(acids_sdf)
    assert library.load(os.fsdecode(path)).first == 34
    assert 1 in library and len(library) == 34
    with open(path, "wb") as out:
        out.write(b"no SDfile\n")
    with pytest.raises(Refused) as fault:
        library.load(os.fsdecode(path))
    assert name.decode("utf-8", "replace") in str(fault.value) and fault.value.command.split()[1].endswith(".sdf")


@pytest.mark.parametrize("name", [b"a b.db", b"a\nremove 1.db", "\u00e4.db".encode(), b"-"], ids=repr)
def test_names_of_stores(program: Path, acids_sdf: Path, tmp_path: Path, name: bytes) -> None:
    path = os.fsdecode(os.fsencode(tmp_path) + b"/" + name)
    with Library(path, program=program) as lib:
        lib.load(acids_sdf)
    with Library(path, program=program) as lib:
        assert len(lib) == 33
    assert os.path.exists(path)


def test_a_store_whose_path_is_not_utf8_is_refused_and_not_made(program: Path, tmp_path: Path) -> None:
    folder = os.fsencode(tmp_path) + b"/\xe4"
    os.mkdir(folder)
    os.symlink(folder, tmp_path / "link")
    for path in (os.fsencode(tmp_path) + b"/\xe4.db", folder + b"/x.db", os.fsencode(tmp_path) + b"/link/x.db"):
        with pytest.raises(StoreBad, match="has to be UTF-8; rename"):
            Library(os.fsdecode(path), program=program)
    assert os.listdir(folder) == [] and sorted(os.listdir(os.fsencode(tmp_path))) == [b"link", b"\xe4"]


def test_a_temporary_folder_with_blanks(
    program: Path, acids_sdf: Path, acids: Claim, tmp_path: Path, monkeypatch: pytest.MonkeyPatch
) -> None:
    odd = tmp_path / "a b"
    odd.mkdir()
    monkeypatch.setattr(tempfile, "tempdir", str(odd))
    with Library(program=program) as lib:
        lib.load(acids_sdf)
        assert [hit.record for hit in lib.search(acids, per="record")] == [1, 2, 3, 4, 5, 6, 7, 8]
    assert list(odd.iterdir()) == []


# ---- refusals


def test_one_bad_record_refuses_a_file_and_is_named(library: Library, examples: Path) -> None:
    vendor = examples / "vendor" / "vendor.sdf"
    with pytest.raises(Refused) as fault:
        library.load(vendor)
    assert (fault.value.code, fault.value.record, fault.value.line) == (2, 6, 215)
    assert fault.value.name == "4-chlorophenoxyacetic acid" and str(vendor) in str(fault.value)
    assert len(library) == 0


def test_bad_records_are_left_out_and_named(library: Library, examples: Path) -> None:
    kept = library.load(examples / "vendor" / "vendor.sdf", bad="skip")
    assert (kept.count, kept.first, list(kept.numbers)) == (5, 1, [1, 2, 3, 4, 5])
    assert [(fault.record, fault.code, fault.name) for fault in kept.refused] == [
        (4, 3, "chloromethyl resin"),
        (6, 2, "4-chlorophenoxyacetic acid"),
        (7, 3, "2-chlorophenoxyacetic acid"),
        (8, 2, "discontinued"),
    ]
    assert "atom 1 has the symbol R" in str(kept.refused[0]) and "which is no element" in str(kept.refused[0])
    assert "record 4 'chloromethyl resin'" in str(kept.refused[0])


def test_a_symbol_that_is_no_element_is_said_with_its_line(library: Library, acids_sdf: Path, tmp_path: Path) -> None:
    one, two, three = records_of(acids_sdf)[:3]
    lines = three.split(b"\n")
    lines[0], lines[14] = b"resin", lines[14][:31] + b"R1 " + lines[14][34:]
    path = tmp_path / "resin.sdf"
    path.write_bytes(one + two + b"\n".join(lines))
    line = one.count(b"\n") + two.count(b"\n") + 15
    with pytest.raises(Refused) as fault:
        library.load(path)
    assert (fault.value.record, fault.value.atom, fault.value.line) == (3, 11, line)
    assert "atom 11 has the symbol R1, which is no element" in str(fault.value)
    assert "record 3 'resin'" in str(fault.value) and f"line {line}" in str(fault.value)


def test_words_that_are_none(library: Library, acids_sdf: Path) -> None:
    with pytest.raises(ValueError, match="'refuse' or 'skip'"):
        library.load(acids_sdf, bad="ignore")
    with pytest.raises(ValueError, match="'keep' or 'remove'"):
        library.update(acids_sdf, missing="drop")
    with pytest.raises(FileNotFoundError):
        library.load("/no/such/file.sdf")


# ---- replace and remove


def test_a_name_is_never_an_old_one(loaded: Library, acids_sdf: Path, tmp_path: Path, acids: Claim) -> None:
    assert loaded[1].name == "phenoxyacetic acid"
    path = tmp_path / "one.sdf"
    path.write_bytes(records_of(acids_sdf)[3])
    loaded.replace(1, path)
    assert loaded[1].name == "MCPA" and next(iter(loaded)).name == "MCPA"
    assert next(loaded.search(acids)).name == "MCPA" and loaded.find(name="MCPA")[0].number == 1


def test_a_file_of_several_records_replaces_none(loaded: Library, acids_sdf: Path) -> None:
    with pytest.raises(Refused, match="33 records, and one is wanted") as fault:
        loaded.replace(1, acids_sdf)
    assert fault.value.code == 11 and loaded[1].name == "phenoxyacetic acid"


def test_removing_a_range_with_a_gap_removes_none(loaded: Library) -> None:
    loaded.remove(5)
    with pytest.raises(KeyError, match="5"):
        loaded.remove(range(4, 7))
    assert 4 in loaded and 6 in loaded
    loaded.remove([4, 6])
    assert loaded.numbers == (1, 2, 3, *range(7, 34))


# ---- update


def updated_file(acids_sdf: Path, path: Path, numbers: "List[int]", changed: int = 0) -> Path:
    records = with_ids(acids_sdf, numbers)
    path.write_bytes(b"".join(item(text, "changed", "yes") if number == changed else text for number, text in zip(numbers, records)))
    return path


def test_update_adds_replaces_and_removes(library: Library, acids_sdf: Path, tmp_path: Path) -> None:
    first = library.update(updated_file(acids_sdf, tmp_path / "1.sdf", [1, 2, 3, 4]))
    assert first == Updated((1, 2, 3, 4), (), (), (), ())
    second = updated_file(acids_sdf, tmp_path / "2.sdf", [5, 2, 3], changed=3)
    assert library.update(second) == Updated((5,), (3,), (2,), (1, 4), ())
    assert library[3].data["changed"] == "yes" and library[5].data["ID"] == "A5"
    assert library.update(second, missing="remove") == Updated((), (), (2, 3, 5), (1, 4), ())
    assert [record.data["ID"] for record in library] == ["A2", "A3", "A5"]
    assert library.update(second) == Updated((), (), (2, 3, 5), (), ())


def test_update_leaves_bad_records_out_and_what_they_would_replace_as_it_is(
    library: Library, acids_sdf: Path, tmp_path: Path
) -> None:
    library.update(updated_file(acids_sdf, tmp_path / "1.sdf", [1, 2]))
    records = with_ids(acids_sdf, [1, 2, 3])
    lines = records[1].split(b"\n")
    lines[4] = lines[4][:31] + b"Xx " + lines[4][34:]
    (tmp_path / "2.sdf").write_bytes(records[0] + b"\n".join(lines) + records[2])
    done = library.update(tmp_path / "2.sdf", missing="remove")
    assert (done.added, done.replaced, done.same, done.missing) == ((3,), (), (1,), ())
    assert [(fault.record, fault.atom) for fault in done.refused] == [(2, 1)]
    assert library[2].name == "4-chlorophenoxyacetic acid"


def test_a_key_twice_is_refused_before_anything_changes(library: Library, acids_sdf: Path, tmp_path: Path) -> None:
    library.update(updated_file(acids_sdf, tmp_path / "1.sdf", [1, 2]))
    before = [record.raw for record in library]
    twice = tmp_path / "twice.sdf"
    twice.write_bytes(b"".join(with_ids(acids_sdf, [3, 1, 3])))
    with pytest.raises(Refused, match="two records have the ID 'A3'") as fault:
        library.update(twice)
    assert fault.value.record == 3 and [record.raw for record in library] == before
    with pytest.raises(Refused, match="record 1 'phenoxyacetic acid' has no data item ID"):
        library.update(acids_sdf)
    library.load(tmp_path / "1.sdf")
    with pytest.raises(Refused, match="two records have the ID 'A1'.*keep one"):
        library.update(updated_file(acids_sdf, tmp_path / "2.sdf", [1, 3]))
    assert len(library) == 4


def test_records_are_told_apart_by_their_names(library: Library, acids_sdf: Path, tmp_path: Path) -> None:
    assert len(library.update(updated_file(acids_sdf, tmp_path / "1.sdf", [1, 2]), key=None).added) == 2
    changed = updated_file(acids_sdf, tmp_path / "2.sdf", [2, 3], changed=2)
    assert library.update(changed, key=None) == Updated((3,), (2,), (), (1,), ())
    (tmp_path / "3.sdf").write_bytes(b"\n" + with_ids(acids_sdf, [1])[0].split(b"\n", 1)[1])
    with pytest.raises(Refused, match="record 1 has no name"):
        library.update(tmp_path / "3.sdf", key=None)
    (tmp_path / "4.sdf").write_bytes(b"".join(with_ids(acids_sdf, [3, 3])))
    with pytest.raises(Refused, match="two records have the name '2,4-D'"):
        library.update(tmp_path / "4.sdf", key=None)
    assert len(library) == 3


def test_an_update_that_is_cut_off_and_done_again_ends_the_same(
    program: Path, acids_sdf: Path, tmp_path: Path, monkeypatch: pytest.MonkeyPatch
) -> None:
    first = updated_file(acids_sdf, tmp_path / "1.sdf", [1, 2, 3, 4])
    records = with_ids(acids_sdf, [5, 1, 2, 3, 6])
    second = tmp_path / "2.sdf"
    second.write_bytes(b"".join(item(text, "changed", "yes") if place in (1, 3) else text for place, text in enumerate(records)))

    def ends(cut: int) -> "tuple[bool, list[bytes]]":
        """What is held where the command with this number was cut off, and the update done again."""
        with Library(program=program) as lib:
            lib.update(first)
            asked = 0
            ask = lib._session.ask

            def some(command: str, deadline: Any = None) -> Any:
                nonlocal asked
                if command.split()[0] in ("load", "replace", "remove"):
                    asked += 1
                    if asked == cut:
                        lib._session.end()
                        lib._session.let_go("it was cut off")
                        raise KeyboardInterrupt
                return ask(command, deadline)

            was_cut = False
            with monkeypatch.context() as patched:
                patched.setattr(lib._session, "ask", some)
                try:
                    lib.update(second, missing="remove")
                except KeyboardInterrupt:
                    was_cut = True
            if was_cut:
                with pytest.warns(StoreReopened):
                    lib.update(second, missing="remove")
            return was_cut, sorted(record.raw for record in lib)

    whole = ends(0)[1]
    cuts = 0
    while True:
        was_cut, held = ends(cuts + 1)
        assert held == whole
        if not was_cut:
            break
        cuts += 1
    assert cuts == 4  # two replaced, two added by one load, one removed


# ---- found, twice, copied


def test_find_and_duplicates(loaded: Library, acids_sdf: Path) -> None:
    assert [record.number for record in loaded.find(name="MCPA")] == [4]
    assert [record.number for record in loaded.find(formula="C9H9ClO3")] == [
        number for number, text in enumerate(records_of(acids_sdf), 1) if b"C9H9ClO3" in text
    ]
    assert [record.name for record in loaded.find(inchikey="LCPDWSOZIOUXRV-UHFFFAOYSA-N")] == ["phenoxyacetic acid"]
    assert [record.name for record in loaded.find(inchikey="LCPDWSOZIOUXRV")] == ["phenoxyacetic acid"]
    assert loaded.find(name="none") == [] and loaded.find(name="MCPA", formula="C8H8O3") == []
    assert loaded.duplicates() == []
    loaded.load([loaded[4].mol])
    loaded.load(acids_sdf)
    assert (4, 38) in loaded.duplicates() and len(loaded.duplicates()) == 33
    assert (4, 34, 38) in loaded.duplicates(by="inchikey")


def test_a_snapshot_stands_alone_and_the_library_goes_on(loaded: Library, program: Path, tmp_path: Path) -> None:
    copy = tmp_path / "copy.db"
    loaded.snapshot(copy)
    loaded.remove(1)
    with Library(copy, program=program) as other:
        assert len(other) == 33 and other[1].name == "phenoxyacetic acid"
    with pytest.raises(FileExistsError):
        loaded.snapshot(copy)
    assert len(loaded) == 32


# ---- stores


def test_a_second_library_over_a_store_is_refused_until_the_first_is_closed(program: Path, acids_sdf: Path, tmp_path: Path) -> None:
    path = tmp_path / "x.db"
    with Library(path, program=program) as lib:
        lib.load(acids_sdf)
        with pytest.raises(StoreBusy, match="close that first"):
            Library(path, program=program)
        assert len(lib) == 33
    with Library(path, program=program) as lib:
        assert len(lib) == 33 and lib[4].name == "MCPA"


def test_what_is_no_store(program: Path, tmp_path: Path) -> None:
    (tmp_path / "text").write_text("no database, but a text of some lines\n" * 100)
    for path, said in ((tmp_path, "is a folder"), (tmp_path / "text", "isn't a SQLite database"), (tmp_path / "a" / "b", "no folder")):
        with pytest.raises(StoreBad, match=said):
            Library(path, program=program)


def test_what_was_answered_is_kept_when_the_program_is_killed(program: Path, acids_sdf: Path, tmp_path: Path) -> None:
    with Library(tmp_path / "x.db", program=program) as lib:
        lib.load(acids_sdf)
        lib.remove(3)
        process = lib._session.process_id
        assert process is not None
        os.kill(process, signal.SIGKILL)
        os.waitid(os.P_PID, process, os.WEXITED | os.WNOWAIT)
        with pytest.warns(StoreReopened):
            assert len(lib) == 32
        assert 3 not in lib and lib[4].name == "MCPA"


def test_numbers_of_a_frame_name_records(loaded: Library, acids: Claim, acids_sdf: Path) -> None:
    numbers = loaded.search(acids, per="record").to_frame()["record"]
    assert loaded[numbers[2]].name == "2,4-D" and type(loaded[numbers[2]].number) is int
    loaded.remove(numbers[0])
    loaded.remove(numbers[1:])
    assert len(loaded) == 25 and 1 not in loaded and 2 not in loaded
    for deed in (lambda: loaded["9"], lambda: loaded[9:11], lambda: loaded.remove("9"), lambda: loaded.replace("9", acids_sdf)):  # type: ignore[index, arg-type]
        with pytest.raises(TypeError, match="a record is named by its number, and not by"):
            deed()
    assert len(loaded) == 25


def test_a_closed_library_says_so(program: Path, acids_sdf: Path) -> None:
    lib = Library(program=program)
    lib.close()
    for deed in (lambda: lib.load(acids_sdf), lambda: len(lib), lambda: lib.update(acids_sdf), lambda: lib.remove(1), lambda: lib.queries()):
        with pytest.raises(MarkushError, match="this was closed; open it anew"):
            deed()


def test_what_is_no_store_stays_alone(program: Path, tmp_path: Path) -> None:
    (tmp_path / "notes.txt").write_text("these are notes, and no database\n")
    with pytest.raises(StoreBad, match="is no store: it isn't a SQLite database"):
        Library(tmp_path / "notes.txt", program=program)
    assert [file.name for file in tmp_path.iterdir()] == ["notes.txt"]


def test_one_molecule_is_loaded_and_what_is_none_is_said(library: Library) -> None:
    from rdkit import Chem

    assert library.load(Chem.MolFromSmiles("CCO")).count == 1
    for given in (3, None):
        with pytest.raises(TypeError, match="a file's path, or molecules of RDKit, are wanted"):
            library.load(given)  # type: ignore[arg-type]


@pytest.mark.parametrize("name, value", [("_Name", "a\n$$$$\nb"), ("_Name", "a\rb"), ("_Name", "$$$$"), ("ID", "x\n\n$$$$\n{}")])
def test_a_property_never_makes_a_further_record(library: Library, name: str, value: str) -> None:
    from rdkit import Chem

    mol = Chem.MolFromSmiles("CCO")
    mol.SetProp(name, value.format(Chem.MolToMolBlock(mol)))
    with pytest.raises(Refused, match="molecule 2 of the list has"):
        library.load([Chem.MolFromSmiles("CCO"), mol])
    assert len(library) == 0


def test_a_forked_child_raises(loaded: Library) -> None:
    out, into = os.pipe()
    child = os.fork()
    if child == 0:
        try:
            said = f"it answered {len(loaded)}"
        except MarkushError as fault:
            said = str(fault)
        os.write(into, said.encode())
        os._exit(0)
    os.close(into)
    with os.fdopen(out, "rb") as pipe:
        said = pipe.read().decode()
    os.waitpid(child, 0)
    assert "a forked child can't use it" in said
    assert len(loaded) == 33


def test_a_store_that_goes_leaves_nothing(program: Path, acids_sdf: Path) -> None:
    lib = Library(program=program)
    lib.load(acids_sdf)
    folder = lib._session.folder
    lib.close()
    lib.close()
    assert not folder.exists()
    with pytest.raises(MarkushError, match="closed"):
        len(lib)


def test_claims_that_a_library_left_are_forgotten_by_the_next(program: Path, acids_sdf: Path, acids: Claim, tmp_path: Path) -> None:
    path = tmp_path / "x.db"
    lib = Library(path, program=program)
    lib.load(acids_sdf)
    hits = lib.search(acids, limit=2)
    next(hits)
    assert len(lib.queries()) == 1
    lib._session.end()
    lib._session.close()
    with Library(path, program=program) as other:
        assert other.queries() == () and other.cursors() == ()

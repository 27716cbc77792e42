"""What becomes of a library where the real program ends: each of its statuses, brought about by what a machine may do to it."""
from __future__ import annotations

import os
import shlex
import sqlite3
import subprocess
import sys
from contextlib import closing
from pathlib import Path
from typing import Callable, Optional

import pytest

from markush import Claim, Library, MarkushError, OutOfMemory, ProgramEnded, StoreBad, StoreBusy, StoreReopened
from markush.answers import BadAnswer

TOP = Path(__file__).resolve().parents[2]
Wrap = Callable[[str], Path]


@pytest.fixture
def wrap(program: Path, tmp_path: Path) -> Wrap:
    """Makes a program that does something, and then becomes the real one: `exec "$program" "$@"` stands in what is given."""

    def made(lines: str) -> Path:
        path = tmp_path / "wrapped"
        path.write_text(f"#!/bin/sh\nprogram={shlex.quote(str(program))}\n{lines}\n")
        path.chmod(0o755)
        return path

    return made


def sqlite(store: Path, change: str) -> None:
    with closing(sqlite3.connect(store)) as base, base:
        base.execute(change)


# ---- 2, 3, 4: words, input and output that it can't do with

STARTS = [
    (2, 'exec "$program" --stoer x', BadAnswer, "words not understood"),
    (3, 'exec "$program" "$@" </', ProgramEnded, "the status 3"),
    (4, 'exec "$program" "$@" >/dev/full', ProgramEnded, "the status 4"),
]


@pytest.mark.parametrize("status, lines, kind, said", STARTS, ids=[str(row[0]) for row in STARTS])
def test_a_program_that_ends_at_once(wrap: Wrap, tmp_path: Path, status: int, lines: str, kind: type, said: str) -> None:
    with pytest.raises(kind, match=said) as fault:
        Library(tmp_path / "x.db", program=wrap(lines))
    assert getattr(fault.value, "status", status) == status


def test_a_file_that_can_not_be_read_changes_nothing(loaded: Library) -> None:
    """The command is answered, and the session goes on."""
    with pytest.raises(MarkushError, match="couldn't read the file"):
        loaded._ask("load nothing.sdf")
    assert len(loaded) == 33


# ---- 5: the store


def test_a_busy_store(program: Path, acids_sdf: Path, tmp_path: Path) -> None:
    path = tmp_path / "x.db"
    with Library(path, program=program) as lib:
        lib.load(acids_sdf)
        with pytest.raises(StoreBusy, match=r"x\.db: another run has this store.*close that first, or copy the store by snapshot"):
            Library(path, program=program)
        lib.snapshot(tmp_path / "copy.db")
        with Library(tmp_path / "copy.db", program=program) as copy:
            assert len(copy) == 33
    # sqlite3, which writes in it
    with closing(sqlite3.connect(path, isolation_level=None)) as base:
        base.execute("BEGIN EXCLUSIVE")
        with pytest.raises(StoreBusy, match="or sqlite3"):
            Library(path, program=program)
    with Library(path, program=program) as lib:
        assert len(lib) == 33


def test_a_full_disk_loses_nothing_that_was_answered(wrap: Wrap, program: Path, acids_sdf: Path, tmp_path: Path) -> None:
    """The program can't let a file grow above a limit, as on a disk without room."""
    path = tmp_path / "x.db"
    count = 0
    with Library(path, program=wrap("trap '' XFSZ\nulimit -f 1000\nexec \"$program\" \"$@\"")) as lib:
        with pytest.raises(StoreBad, match=r"x\.db: the store couldn't be read or written at 'load .*what was answered is kept"):
            for _ in range(1000):
                count += lib.load(acids_sdf).count
        assert count and count % 33 == 0
        with pytest.warns(StoreReopened, match="had ended with the status 5"):
            assert len(lib) == count
    with Library(path, program=program) as lib:
        assert len(lib) == count and lib.load(acids_sdf).first == count + 1


def test_a_folder_in_which_no_file_can_be_made(program: Path) -> None:
    with pytest.raises(StoreBad, match="this user can't make a file in /proc, or its disk is full"):
        Library("/proc/x.db", program=program)


# ---- 6: memory


def test_memory_that_runs_out_changes_nothing(wrap: Wrap, program: Path, acids_sdf: Path, tmp_path: Path) -> None:
    path, large = tmp_path / "x.db", tmp_path / "large.sdf"
    large.write_bytes(acids_sdf.read_bytes() * 600)
    with Library(path, program=program) as lib:
        lib.load(acids_sdf)
    with Library(path, program=wrap('ulimit -v 60000\nexec "$program" "$@"')) as lib:
        with pytest.raises(OutOfMemory, match="memory ran out"):
            lib.load(large)
    with Library(path, program=program) as lib:
        assert len(lib) == 33


# ---- 7: rows that no run writes

ROWS = [
    ("record", "UPDATE records SET text = x'0a' WHERE number = 7", 7),
    ("record", "UPDATE records SET number = 1000000001 WHERE number = 33", None),
    ("query", "UPDATE queries SET text = x'0a'", None),
]


@pytest.mark.parametrize("kind, change, number", ROWS, ids=[row[1][:40] for row in ROWS])
def test_a_bad_row_is_named(
    program: Path, acids_sdf: Path, acids: Claim, tmp_path: Path, kind: str, change: str, number: Optional[int]
) -> None:
    path = tmp_path / "x.db"
    with Library(path, program=program) as lib:
        lib.load(acids_sdf)
        half = lib.search(acids, limit=2)
        next(half)
        half.save("half")
    sqlite(path, change)
    with pytest.raises(StoreBad, match=rf"x\.db: {kind} \d+ of this store isn't one.*sqlite3, or take it out") as fault:
        Library(path, program=program)
    assert fault.value.kind == kind and (number is None or fault.value.number == number)


# ---- stores of the program of the command line


def test_a_store_that_the_program_wrote(command_program: Path, program: Path, acids_sdf: Path, acids: Claim, tmp_path: Path) -> None:
    store, claim = tmp_path / "x.db", tmp_path / "claim.rgf"
    claim.write_text(acids.text)
    script = f"load {acids_sdf}\nquery mine {claim}\nsearch mine 3\nremove 2\n".encode()
    ran = subprocess.run([str(command_program), "--store", str(store)], input=script, capture_output=True, check=False)
    assert ran.returncode == 0
    with Library(store, program=program) as lib:
        assert len(lib) == 32 and 2 not in lib and lib.queries() == ("mine",) and lib.cursors() == ((1, "mine"),)
        assert [hit.record for hit in lib.search(acids, per="record")] == [1, 3, 4, 5, 6, 7, 8]
    # what others kept in it stays, and the program goes on from it
    ran = subprocess.run([str(command_program), "--store", str(store), "resume", "1", "1"], capture_output=True, check=False)
    assert ran.returncode == 0 and ran.stdout.startswith(b"hit ")


# ---- 8 and 9: a script that is too long, and words that aren't UTF-8, which `run` meets


def run_script(script: bytes, *words: "str | bytes", cwd: Path) -> "subprocess.CompletedProcess[bytes]":
    environment = {**os.environ, "PYTHONPATH": str(TOP / "python" / "src")}
    return subprocess.run(
        [sys.executable, "-m", "markush.tools", "run", "-", *words], input=script, capture_output=True, env=environment, cwd=cwd, check=False
    )


def test_a_script_that_is_too_long(command_program: Path, tmp_path: Path) -> None:
    ran = run_script(b"\n" * 16_777_217, cwd=tmp_path)
    assert ran.returncode == 8 and b"standard input: the script is too long: no command was done" in ran.stderr


def test_a_store_whose_name_is_not_utf8(command_program: Path, tmp_path: Path) -> None:
    ran = run_script(b"list\n", "--store", b"\xff.db", cwd=tmp_path)
    assert ran.returncode == 9 and b"standard input:1: list: the name of the store isn't UTF-8" in ran.stderr
    assert os.listdir(os.fsencode(tmp_path)) == []

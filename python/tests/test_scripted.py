"""A session over the program of the command line: its frames, its ends, its lock."""
from __future__ import annotations

import subprocess
import sys
from pathlib import Path

import pytest

import markush
from markush import programs
from markush.answers import read_head

SCRIPTED = Path(markush.__file__).parent / "scripted.py"


def started(program: Path, folder: Path, *words: str) -> "subprocess.Popen[bytes]":
    command = [sys.executable, "-I", str(SCRIPTED), str(program), *words]
    return subprocess.Popen(command, stdin=subprocess.PIPE, stdout=subprocess.PIPE, cwd=folder)


def frames_of(said: bytes) -> "list[tuple[str, bytes]]":
    """The first line, and then each frame's word and bytes."""
    first, said = said.split(b"\n", 1)
    found = [(first.decode(), b"")]
    while said:
        line, said = said.split(b"\n", 1)
        head = read_head(line + b"\n")
        found.append((head.how, said[: head.size]))
        said = said[head.size :]
    return found


def test_each_line_has_one_frame(command_program: Path, acids_sdf: Path, tmp_path: Path) -> None:
    (tmp_path / "a.sdf").write_bytes(acids_sdf.read_bytes())
    with started(command_program, tmp_path, "--store", "s.db") as session:
        said, _ = session.communicate(b"load a.sdf\n\n  \nnonsense\nload none.sdf\n" + b"x" * 70000 + b"\nlist", timeout=600)
    assert session.returncode == 0
    records = acids_sdf.read_bytes().count(b"$$$$")
    assert frames_of(said) == [
        ("ready records 0 queries 0 cursors 0 next 1 1", b""),
        ("done", b"loaded %d first 1\n" % records),
        ("refused", b"refused 1 command\n"),
        ("unread", b""),
        ("refused", b"refused 1 command\n"),
        ("done", subprocess.run([command_program, "--store", tmp_path / "s.db", "list"], stdout=subprocess.PIPE).stdout),
    ]


def test_a_line_is_answered_before_the_next_is_sent(command_program: Path, tmp_path: Path) -> None:
    with started(command_program, tmp_path) as session:
        assert session.stdin is not None and session.stdout is not None
        assert session.stdout.readline().startswith(b"ready records 0")
        for _ in range(3):
            session.stdin.write(b"remove 1\n")
            session.stdin.flush()
            head = read_head(session.stdout.readline())
            assert (head.how, len(session.stdout.read(head.size))) == ("refused", head.size)
    assert session.returncode == 0
    assert list(tmp_path.iterdir()) == []


def test_a_second_session_over_a_store_ends_at_once(command_program: Path, tmp_path: Path) -> None:
    with started(command_program, tmp_path, "--store", "s.db") as first:
        assert first.stdout is not None and first.stdout.readline().startswith(b"ready")
        with started(command_program, tmp_path, "--store", "./s.db") as second:
            assert second.communicate(b"", timeout=600)[0] == b""
        assert second.returncode == 5
    with started(command_program, tmp_path, "--store", "s.db") as third:
        third.communicate(b"", timeout=600)
    assert third.returncode == 0


def test_nothing_is_left_of_a_lock(command_program: Path, tmp_path: Path, monkeypatch: pytest.MonkeyPatch) -> None:
    spare = tmp_path / "spare"
    spare.mkdir()
    monkeypatch.setenv("TMPDIR", str(spare))
    with started(command_program, tmp_path, "--store", "s.db") as first:
        assert first.stdout is not None and first.stdout.readline().startswith(b"ready")
        assert len(list(spare.glob("markush-*/*"))) == 1
        with started(command_program, tmp_path, "--store", "t.db") as other:
            assert other.stdout is not None and other.stdout.readline().startswith(b"ready")
            assert len(list(spare.glob("markush-*/*"))) == 2
        assert len(list(spare.glob("markush-*/*"))) == 1
        with started(command_program, tmp_path, "--store", "s.db") as second:
            second.communicate(b"", timeout=600)
        assert second.returncode == 5 and len(list(spare.glob("markush-*/*"))) == 1
    assert first.returncode == 0 and list(spare.iterdir()) == []


def test_sessions_that_come_and_go_leave_no_lock(command_program: Path, tmp_path: Path, monkeypatch: pytest.MonkeyPatch) -> None:
    """Each that gets the store is answered, the others end at once, and no lock is left."""
    monkeypatch.setenv("TMPDIR", str(tmp_path))
    (tmp_path / "m.mol").write_bytes((Path(__file__).resolve().parents[2] / "crates/markush/data/m.mol").read_bytes())
    for _ in range(4):
        sessions = [started(command_program, tmp_path, "--store", "s.db") for _ in range(6)]
        said = [session.communicate(b"load m.mol\n", timeout=600)[0] for session in sessions]
        assert {session.returncode for session in sessions} <= {0, 5}
        assert [b"loaded 1" in each for each in said] == [session.returncode == 0 for session in sessions]
    assert not list(tmp_path.glob("markush-*"))


def test_a_folder_is_no_store(command_program: Path, tmp_path: Path) -> None:
    with started(command_program, tmp_path, "--store", ".") as session:
        assert session.communicate(b"list\n", timeout=600)[0] == b""
    assert session.returncode == 5


def test_it_serves_where_there_is_no_session_program(
    command_program: Path, tmp_path: Path, monkeypatch: pytest.MonkeyPatch
) -> None:
    monkeypatch.delenv("MARKUSH_SESSION", raising=False)
    monkeypatch.setenv("MARKUSH_PROGRAM", str(command_program))
    monkeypatch.setenv("PATH", str(tmp_path))
    monkeypatch.setattr(programs, "_INSTALLED", ())
    monkeypatch.setattr(programs, "_checkouts", lambda on_path: iter(()))
    monkeypatch.chdir(tmp_path)
    assert programs.engine() == command_program
    assert programs.session_command()[-2].endswith("scripted.py")

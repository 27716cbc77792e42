"""Where the programs are looked for, and in which order."""
from __future__ import annotations

import os
from pathlib import Path

import pytest

from markush import MarkushError, programs


def made(path: Path) -> Path:
    path.parent.mkdir(parents=True, exist_ok=True)
    path.write_text("#!/bin/sh\n")
    path.chmod(0o755)
    return path


@pytest.fixture
def nowhere(tmp_path: Path, monkeypatch: pytest.MonkeyPatch) -> Path:
    """No program is anywhere."""
    for name in ("MARKUSH_SESSION", "MARKUSH_PROGRAM", "MARKUSH"):
        monkeypatch.delenv(name, raising=False)
    monkeypatch.setenv("PATH", str(tmp_path / "bin"))
    monkeypatch.setattr(programs, "_INSTALLED", (tmp_path / "installed",))
    monkeypatch.setattr(programs, "_HERE", tmp_path / "package")
    monkeypatch.chdir(tmp_path)
    return tmp_path


def test_one_that_is_nowhere_is_said_in_a_sentence(nowhere: Path) -> None:
    with pytest.raises(MarkushError, match="the program markush-session wasn't found.*MARKUSH_SESSION.*bin/markush-session"):
        programs.session_program()
    with pytest.raises(MarkushError, match="the program markush wasn't found.*MARKUSH_PROGRAM"):
        programs.program()


def test_the_order(nowhere: Path, monkeypatch: pytest.MonkeyPatch) -> None:
    (nowhere / "crates.txt").write_text("")
    built = made(nowhere / "crates" / "markush_session" / "out" / "markush_session")
    assert programs.session_program() == built
    on_path = made(nowhere / "bin" / "markush-session")
    # the door of the same checkout gives way to what it would run
    assert programs.session_program() == built
    built.unlink()
    assert programs.session_program() == on_path
    installed = made(nowhere / "installed" / "markush-session")
    assert programs.session_program() == installed
    named = made(nowhere / "named")
    monkeypatch.setenv("MARKUSH_SESSION", str(named))
    assert programs.session_program() == named
    given = made(nowhere / "given")
    assert programs.session_program(given) == given


def test_a_path_that_runs_nothing_is_refused(nowhere: Path, monkeypatch: pytest.MonkeyPatch) -> None:
    text = nowhere / "text"
    text.write_text("no program")
    for path in (text, nowhere, nowhere / "none"):
        with pytest.raises(MarkushError, match="no program that this user may run"):
            programs.session_program(path)
    monkeypatch.setenv("MARKUSH_SESSION", os.fspath(text))
    with pytest.raises(MarkushError, match="the environment variable MARKUSH_SESSION"):
        programs.session_program()

"""The blocks of README.md and of python/README.md run as they are, at the top, and say what is known of the examples."""
from __future__ import annotations

import os
import re
import subprocess
import sys
from pathlib import Path


def said_by(path: Path, top: Path, program: Path, most: int) -> list[str]:
    """What the one block of Python on a page prints."""
    (block,) = re.findall(r"```python\n(.*?)```", path.read_text("utf-8"), re.DOTALL)
    assert len([line for line in block.splitlines() if line.strip()]) <= most
    ran = subprocess.run(
        [sys.executable, "-c", block],
        cwd=top,
        capture_output=True,
        text=True,
        env={**os.environ, "PYTHONPATH": str(top / "python" / "src"), "MARKUSH_SESSION": str(program)},
    )
    assert ran.returncode == 0, ran.stderr
    return ran.stdout.splitlines()


def test_the_lines_of_readme_run(top: Path, program: Path) -> None:
    *hits, missed = said_by(top / "README.md", top, program, 10)
    assert [line.split()[:2] for line in hits] == [["1", "phenoxyacetic"], ["2", "4-chlorophenoxyacetic"], ["3", "2,4-D"]]
    assert all("R2 = " in line for line in hits)
    assert missed == "the numbers of the logic for R2 aren't met"


def test_the_twenty_lines_run(top: Path, program: Path) -> None:
    lines = said_by(top / "python" / "README.md", top, program, 20)
    assert lines[0] == "phenoxyacetic acid 27 [12, 13, 14]"
    assert lines[1].startswith("5 kept; ") and "atom 1 has the symbol R" in lines[1] and "'chloromethyl resin'" in lines[1]
    assert all("R2 = " in line for line in lines[2:5])
    assert lines[5] == "4-fluorophenoxyacetic acid is no hit: R2 is none of its members"
    assert re.fullmatch(r"\d+ hits", lines[6]) and int(lines[6].split()[0]) >= 11
    assert lines[7] == "[1, 2, 3, 3, 4, 4, 5, 5, 6, 7, 8] 33"

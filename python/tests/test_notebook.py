"""The notebook of the examples is executed, by nbconvert, and its cells give what is known."""
from __future__ import annotations

import json
import os
import subprocess
from pathlib import Path
from typing import Any, List


def outputs(notebook: Any) -> "List[str]":
    """What each code cell printed or gave, as text."""
    said = []
    for cell in notebook["cells"]:
        if cell["cell_type"] == "code":
            texts = ["".join(out.get("text", out.get("data", {}).get("text/plain", ""))) for out in cell["outputs"]]
            said.append("".join(texts))
    return said


def test_the_notebook_runs(top: Path, program: Path, tmp_path: Path) -> None:
    ran = subprocess.run(
        ["/usr/bin/python3", "-m", "nbconvert", "--to", "notebook", "--execute", "--output-dir", str(tmp_path)]
        + ["--ExecutePreprocessor.timeout=-1", str(top / "examples" / "search.ipynb")],
        cwd=top,
        capture_output=True,
        text=True,
        env={**os.environ, "PYTHONPATH": str(top / "python" / "src"), "MARKUSH_SESSION": str(program)},
    )
    assert ran.returncode == 0, ran.stderr[-3000:]
    said = outputs(json.loads((tmp_path / "search.ipynb").read_text("utf-8")))
    assert said[0].strip() == "phenoxyacetic acid: 27 choices"
    assert "8 of 33 compounds fall under the claim" in said[1]
    assert "4-chlorophenoxyacetic acid" in said[2] and "*Cl" in said[2]
    assert "R2 is none of its members" in said[4]
    assert "new: ['2,4-D']" in said[5]

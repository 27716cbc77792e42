"""What the sources may say: they are Python 3.9, whatever Python runs the tests."""
from __future__ import annotations

import ast
from pathlib import Path

import pytest

PYTHON = Path(__file__).resolve().parents[1]
SOURCES = sorted((PYTHON / "src").rglob("*.py"))


@pytest.mark.parametrize("path", SOURCES, ids=[str(path.relative_to(PYTHON / "src" / "markush")) for path in SOURCES])
def test_sources_are_python_3_9(path: Path) -> None:
    tree = ast.parse(path.read_text(), feature_version=(3, 9))
    for node in ast.walk(tree):
        # the parser passes this over, which came with 3.11
        starred = isinstance(node, ast.Subscript) and isinstance(node.slice, ast.Tuple) and any(isinstance(each, ast.Starred) for each in node.slice.elts)
        assert not starred, f"{path}:{getattr(node, 'lineno', 0)}: a subscript with a star takes Python 3.11"


def test_no_source_is_left_out() -> None:
    assert len(SOURCES) > 50

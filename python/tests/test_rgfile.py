"""The reader and writer of query files, on the examples and on files that aren't queries."""
from pathlib import Path

import pytest

from markush.errors import Refused
from markush.rgfile import code_count, is_in_range, is_range, members_at, read_query, valid_code_count, write_query

TOP = Path(__file__).resolve().parents[2]

# name, codes before logic, valid ones: docs of the examples and docs/MEANING.md, "A claim by hand"
COUNTS = [
    ("examples/amino_chains", 24, 8),
    ("examples/beta_blockers", 13, 8),
    ("examples/local_anaesthetics", 7749, 7311),
    ("examples/phenoxy_acids", 27, 11),
    ("crates/markush/data", 5, 3),
]


@pytest.mark.parametrize("name, codes, valid", COUNTS)
def test_codes_are_counted(name: str, codes: int, valid: int) -> None:
    query = read_query((TOP / name / "claim.rgf").read_text())
    assert (code_count(query), valid_code_count(query)) == (codes, valid)


@pytest.mark.parametrize("name", [name for name, *_ in COUNTS])
def test_a_query_written_and_read_again_is_the_same(name: str) -> None:
    query = read_query((TOP / name / "claim.rgf").read_text())
    assert read_query(write_query(query)) == query


def test_members_are_spelt() -> None:
    query = read_query((TOP / "examples/amino_chains/claim.rgf").read_text())
    assert query.root.smiles == "[R1][CH2:4][R2]"
    assert [(label, number, member.smiles) for label, number, member in members_at(query, [2, 1])] == [
        (1, 1, "*[CH2][N,S;D1]"), (1, 2, "*[CH2][NH][CH3]"), (2, 1, "*[C,S,P](=O)[OH]"),
    ]


def test_atom_lists_are_written_in_columns_of_four() -> None:
    query = read_query((TOP / "examples/amino_chains/claim.rgf").read_text())
    written = write_query(query)
    lists = [line for line in written.splitlines() if line.startswith("M  ALS")]
    assert [len(line) for line in lists] == [24, 28] and lists[1] == "M  ALS   1  3 F C   S   P   "


# what is wrong, the line that is named, the text
BAD = [
    ("empty", 1, ""),
    ("blank lines", 4, "\n\n\n\n\n"),
    ("MDL alone", 2, "$MDL\n"),
    ("V3000", 4, "\n\n\n  0  0  0     0  0            999 V3000\n"),
    ("cut behind its counts", 5, "\n\n\n  1  0\n"),
    ("a bond to nothing", 6, "\n\n\n  1  1\n" + " " * 31 + "C\n  1  2  1\nM  END\n"),
    ("text behind the end", 6, "\n\n\n  0  0\nM  END\n$$$$\n"),
    ("an empty property line", 5, "\n\n\n  0  0\n\nM  END\n"),
    ("a group of 33", 13, "$MDL\n$MOL\n$HDR\n\n\n\n$END HDR\n$CTAB\n  0  0\nM  END\n$END CTAB\n$RGP\n33\n"),
    ("a group without members", 14, "$MDL\n$MOL\n$HDR\n\n\n\n$END HDR\n$CTAB\n  0  0\nM  END\n$END CTAB\n$RGP\n1\n$END RGP\n"),
    ("a range of words", 5, "\n\n\n  0  0\nM  LOG  1   1   0   0 one\nM  END\n"),
]


@pytest.mark.parametrize("name, line, text", BAD, ids=[name for name, *_ in BAD])
def test_the_bad_line_is_named(name: str, line: int, text: str) -> None:
    with pytest.raises(Refused) as told:
        read_query(text)
    assert told.value.line == line


def test_a_member_in_itself_has_no_count() -> None:
    member = "$CTAB\n  2  1\n" + " " * 31 + "O\n" + " " * 31 + "R#\n  1  2  1\nM  APO  1   1   1\nM  RGP  1   2   1\nM  END\n$END CTAB\n"
    root = "  2  1\n" + " " * 31 + "C\n" + " " * 31 + "R#\n  1  2  1\nM  RGP  1   2   1\nM  END\n"
    query = read_query(f"$MDL\n$MOL\n$HDR\n\n\n\n$END HDR\n$CTAB\n{root}$END CTAB\n$RGP\n1\n{member}$END RGP\n$END MOL\n")
    with pytest.raises(Refused, match="stands in itself"):
        code_count(query)


RANGES = [("", [1, 2, 3, 4]), ("0", [0]), ("0-1,3", [0, 1, 3]), (" > 2 , 0 - 0", [0, 3, 4]), ("<0", []), ("<2", [0, 1])]


@pytest.mark.parametrize("text, numbers", RANGES)
def test_ranges(text: str, numbers: list) -> None:
    assert is_range(text) and [number for number in range(5) if is_in_range(text, number)] == numbers


@pytest.mark.parametrize("text", ["1 2", "0001", "1-", ",", "3-2", "a", ">1-2"])
def test_texts_that_are_no_ranges(text: str) -> None:
    assert not is_range(text)

"""Make a result anew by its account, and compare.

FILE is what `find`, `table`, `scan`, `covers` or `why` wrote of a claim and compounds. These have to be where they were,
since they are named as they were given; where one of them is another file by now this is said. The status is 0 where the
same came out, 1 where something else did, and 2 where it can't be made, as from answers on standard input.
"""
from __future__ import annotations

import argparse
import contextlib
import difflib
import io
import os
import tempfile
from pathlib import Path
from typing import List, Tuple

from .account import Account, read_account
from .common import HITS, NONE, Fault, is_store, sha256_of

MOST_LINES = 20
# what has a claim and compounds among its words
MADE_ANEW = ("find", "table", "scan", "covers", "why")


def add_words(parser: argparse.ArgumentParser) -> None:
    """The words of the tool."""
    parser.add_argument("file", metavar="FILE", help="a page, a table, an SDfile or JSON with its account")


def changed_files(account: Account) -> List[str]:
    """What there is to say of the files that a result was made of.

    Examples
    --------
    >>> changed_files(Account("0.1.0", "ab", "2020", ["find"], [], [], 33, 0, 0, 8))
    []
    """
    said = []
    for file in (*account.claims, *account.compounds):
        if file.name == "standard input":
            raise Fault("the compounds came from standard input, and can't be read again")
        if not os.path.isfile(file.name):
            raise Fault(f"{file.name} isn't there any more; go to the folder in which it was made")
        if not is_store(file.name) and sha256_of(file.name) != file.sha256:
            said.append(f"{file.name} is another file by now: its sha256 was {file.sha256}")
    return said


def ending_of(path: str) -> str:
    """The ending of a result whose words name no file, by how it begins; a table that went to standard output has tabs.

    Examples
    --------
    >>> ending_of("/dev/null")
    '.tsv'
    """
    with open(path, encoding="utf-8") as file:
        first = file.read(1)
    return {"{": ".json", "<": ".html"}.get(first, ".tsv")


def takes_rdkit(args: argparse.Namespace) -> bool:
    """Whether what made the file draws something, so that the Python that has RDKit does the whole of `report`."""
    try:
        made = _made_by(read_account(args.file)[0], args.file)
    except (Fault, OSError, ValueError):
        return False  # which `run` says
    return bool(made.takes_rdkit(made))


def _made_by(account: Account, file: str) -> argparse.Namespace:
    """The words by which a file was made, as the tool's parser has them."""
    from . import make_parser

    words = account.words
    if not words or words[0] not in MADE_ANEW:
        raise Fault(
            f"{file} was made by '{' '.join(words[:1])}' of answers on standard input; what {', '.join(MADE_ANEW)} made of "
            f"a claim and compounds can be made anew"
        )
    said = io.StringIO()
    try:
        with contextlib.redirect_stderr(said), contextlib.redirect_stdout(io.StringIO()):
            return make_parser().parse_args(words)
    except SystemExit:
        why = said.getvalue().strip().rpartition("error: ")[2] or "they ask for help"
        raise Fault(f"{file} says that it was made by words that are none: {why}") from None


def run(args: argparse.Namespace) -> int:
    """Make it anew, and say what differs."""
    account, before = read_account(args.file)
    _made_by(account, args.file)
    said = changed_files(account)
    from . import main

    with tempfile.TemporaryDirectory(prefix="markush-tools-") as folder:
        given, out = _without_out(account.words)
        anew = str(Path(folder) / f"anew{Path(out).suffix if out else ending_of(args.file)}")
        with contextlib.redirect_stdout(io.StringIO()), contextlib.redirect_stderr(io.StringIO()) as errors:
            status = main([*given, "--out", anew])
        if not os.path.isfile(anew):
            raise Fault(f"it can't be made anew (status {status}): {errors.getvalue().strip()}")
        now, after = read_account(anew)
    for what in ("package", "program"):
        if getattr(account, what) != getattr(now, what):
            said.append(f"the {what} was {getattr(account, what)} and is {getattr(now, what)}")
    for then, file in zip(account.compounds, now.compounds):
        if is_store(file.name) and then.sha256 != file.sha256:
            said.append(f"{file.name} holds other records by now")
    for line in said:
        print(line)
    counts = ("searched", "refused", "unsearched", "hits", "limits")
    other = [f"{what}: {getattr(account, what)} then, {getattr(now, what)} now" for what in counts if getattr(account, what) != getattr(now, what)]
    if before == after and not other:
        print(f"the same: {now.hits} hits in {now.searched} records")
        return HITS
    for line in other:
        print(line)
    differs = list(difflib.unified_diff(before.splitlines(), after.splitlines(), "then", "now", lineterm="", n=0))
    for line in differs[:MOST_LINES]:
        print(line[:200])
    if len(differs) > MOST_LINES:
        print(f"and {len(differs) - MOST_LINES} lines more")
    return NONE


def _without_out(words: List[str]) -> Tuple[List[str], str]:
    """The words without those that name the file that is written, and that file, if they do."""
    kept: List[str] = []
    out, is_next = "", False
    for word in words:
        if is_next:
            out, is_next = word, False
        elif word == "--out":
            is_next = True
        elif word.startswith("--out="):
            out = word[len("--out=") :]
        else:
            kept.append(word)
    return kept, out

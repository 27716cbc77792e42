"""Write hits and members as a table for a spreadsheet.

    table CLAIM COMPOUNDS..             the members at each site of each compound that is hit, with its name and data, as CSV
    table FILE.sdf <answers             the rows that `table` answered, with names and data items beside them, as CSV
    table --hits FILE.sdf <answers      a line for each hit among the answers: record, name, choice, map, with tabs

In the last two the answers are lines of the program, of which others are passed over, and FILE.sdf is the file whose
first record has the number 1. The first table begins with its account, in lines that begin with `# `: by what, when and
of which files it was made, and how many records were searched and refused.
"""
from __future__ import annotations

import argparse
import csv
import re
import sys
from typing import Dict, Iterable, List, Tuple

from .account import account_of, named
from .common import HITS, NONE, SOME_REFUSED, Fault, needs_folder, open_bytes, takes_rdkit_for, tell, text_of, written
from .held import held

ITEM = re.compile(r">.*<(.*)>")
HIT = re.compile(r"hit ([0-9]+) choice((?: [0-9]+)*) map((?: [0-9]+)*)")


def add_words(parser: argparse.ArgumentParser) -> None:
    """The words of the tool."""
    parser.add_argument("files", nargs="+", metavar="FILE", help="the claim and the compounds, or the SDfile of the answers")
    parser.add_argument("--hits", action="store_true", help="of answers the hits, and not the table")
    parser.add_argument("--out", metavar="FILE", help="of a claim: the file that is written; standard output without it")


def takes_rdkit(args: argparse.Namespace) -> bool:
    """Whether something has to be drawn."""
    from .find import _is_list

    return takes_rdkit_for(args.files[1:]) or (len(args.files) > 1 and _is_list(args.files[0]))


def records_of(path: str) -> List[Tuple[str, Dict[str, str]]]:
    """The name and the data items of each record of an SDfile; of a value of several lines the first.

    Examples
    --------
    >>> records_of("/dev/null")
    []
    """
    with open_bytes(path) as file:
        lines = [line.rstrip("\r") for line in text_of(file.read()).split("\n")]
    if lines and not lines[-1]:
        lines.pop()
    records, front = [], 0
    for end, line in enumerate(lines):
        if line.startswith("$$$$"):
            records.append(lines[front:end])
            front = end + 1
    if front < len(lines):
        records.append(lines[front:])
    return [(record[0].strip() if record else "", items_of(record)) for record in records]


def items_of(lines: List[str]) -> Dict[str, str]:
    """The first line of each data item, by its name.

    Examples
    --------
    >>> items_of([">  <ID>", "7", ""])
    {'ID': '7'}
    """
    items = {}
    for line, value in zip(lines, lines[1:]):
        head = ITEM.match(line)
        if head:
            items[head[1]] = value
    return items


def _record(records: List[Tuple[str, Dict[str, str]]], number: str, path: str) -> Tuple[str, Dict[str, str]]:
    if not re.fullmatch(r"[0-9]{1,9}", number) or not 1 <= int(number) <= len(records):
        raise Fault(f"the answers have record {number}, and {path} has {len(records)}: is it the file that was loaded?")
    return records[int(number) - 1]


def hits_of_answers(lines: Iterable[str], path: str) -> int:
    """Write a line for each hit, and give how many there are."""
    records, count = records_of(path), 0
    print("record", "name", "choice", "map", sep="\t")
    for line in lines:
        if line.startswith("hit "):
            found = HIT.fullmatch(line)
            if not found:
                raise Fault(f"the answers have the line {line[:60]!r}, which is no whole hit: were they cut off?")
            number, choice, atoms = found.groups()
            print(number, _record(records, number, path)[0], choice.strip(), atoms.strip(), sep="\t")
            count += 1
    return count


def table_of_answers(lines: Iterable[str], path: str) -> int:
    """Write the rows of a table with names and data items, and give how many there are."""
    records, count, inside = records_of(path), 0, False
    names = list(dict.fromkeys(name for _, items in records for name in items))
    table = csv.writer(sys.stdout, lineterminator="\n")
    for line in lines:
        cells = line.split("\t")
        if cells[0] == "record" and all(re.fullmatch(r"site \d+", cell) for cell in cells[1:]):
            table.writerow(["record", "name", *cells[1:], *names])
            inside = True
        elif cells == ["end"]:
            inside = False
        elif inside:
            name, items = _record(records, cells[0], path)
            table.writerow([cells[0], name, *cells[1:], *(items.get(item, "") for item in names)])
            count += 1
    return count


def run(args: argparse.Namespace) -> int:
    """Write the table."""
    if len(args.files) == 1:
        if args.out:
            raise Fault("--out goes with a claim and its compounds; a table of answers goes to standard output")
        with open_bytes("-") as answers:
            lines = text_of(answers.read()).splitlines()
        make = hits_of_answers if args.hits else table_of_answers
        return HITS if make(lines, args.files[0]) else NONE
    if args.hits:
        raise Fault("--hits goes with one SDfile and answers on standard input; 'find' writes the hits of a claim")
    from ..claim import Claim
    from ..frames import table_columns_rows

    if args.out:
        needs_folder(args.out)
    claim = Claim.read(args.files[0])
    with held(args.files[1:]) as found:
        columns, rows = table_columns_rows(found.library, claim)
        account = account_of(
            args.words,
            [named(args.files[0])],
            found.named,
            searched=len(found.library),
            refused=len(found.left),
            hits=len(rows),
        )
    with written(args.out) as out:
        out.write(account.lines())
        table = csv.DictWriter(out, columns, lineterminator="\n")
        table.writeheader()
        table.writerows(rows)
    tell(found.left)
    return SOME_REFUSED if found.left else HITS if rows else NONE

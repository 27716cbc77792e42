"""What a refusal of the program means, in words, with the line, the record and the atom themselves.

The program answers with numbers (docs/COMMANDS.md, "Refusals by number"). Here they become a `Refused` whose message
says what is wrong, where, and how to mend it, by looking into the file that was refused: `record_fault` into a record,
`explained` into whatever the command named.
"""
from __future__ import annotations

import re
from dataclasses import replace
from typing import TYPE_CHECKING, Iterable, List, Optional, Tuple

from .answers import Refusal, decode
from .errors import Refused
from .rgfile import ELEMENTS

if TYPE_CHECKING:
    from .records import RecordText

__all__ = ["explained", "record_fault"]

NUMBER = re.compile(r" *[+-]?[0-9]{1,9} *")

_QUERY = {
    "Q1": "atom {item} has an unknown symbol, charge column or hydrogen column",
    "Q2": "bond {item} joins an atom to itself, to none of its table or two atoms twice, has a type that is none of 1 to 8 or "
    "a topology that is none of 0 to 2, or is an atom's 21st",
    "Q3": "property {item} names an atom that its table doesn't have, or has a value that it may not have",
    "Q4": "the list at atom {item} has a member that is no element, or the atom has a list and isn't an L, or is an L and has "
    "no list",
    "Q5": "atom {item} is an R# without a label, or has a label and isn't an R#, or one label twice, or its group has no member",
    "Q6": "atom {item} is a site, which has one neighbour or two, none of them a site",
    "Q7": "property {item} doesn't order the neighbours of one site, each once, from 1 on",
    "Q8": "atom {item} bears an attachment point that may not be there: points stand in members, one atom each, not at sites "
    "and links, and point 2 beside point 1",
    "Q9": "atom {item} isn't a link between two of its neighbours, or two links share a part",
    "Q10": "property {item} is logic that isn't in the root, or a second line of one group, or has numbers or a range that are "
    "unknown",
    "Q11": "a member holds a site of its own group, so the claim would go on for ever",
    "Q12": "the members of the site at atom {item} have other numbers of attachment points than it has neighbours; give each "
    "member as many points",
    "Q13": "the root may become more than 512 atoms; make members or links smaller",
    "Q14": "the root has no atom, a group stands twice, or there are more than 4,096 members",
}
_ABOUT = {
    (4, "query"): "the claim has more than 4,194,304 bytes",
    (4, "molecules"): "the file has more than 67,108,864 bytes; cut it behind some $$$$ line",
    (5, "library full"): "the library would hold more than 100,000 records or 134,217,728 bytes of text, or a number above "
    "999,999,999; remove some records, or scan the file in place of loading it",
    (10, "queries"): "the store holds 1,000 claims, or 33,554,432 bytes of them; forget some",
    (10, "cursors"): "the store holds 1,000 saved searches; end some of them, or forget their claims",
}


def explained(
    refusal: Refusal,
    command: str,
    *,
    file: Optional[str] = None,
    data: Optional[bytes] = None,
    records: Optional[Iterable[RecordText]] = None,
) -> Refused:
    """A refusal as an error, in words.

    Parameters
    ----------
    refusal : Refusal
        The program's answer.
    command : str
        The command that it answers.
    file : str or None
        The name of the file, as the caller gave it.
    data : bytes or None
        The claim's text, so that the line and the atom can be said themselves.
    records : iterable of RecordText or None
        The records of the file that was refused, for the same.

    Examples
    --------
    >>> from markush.answers import read_refusal
    >>> print(explained(read_refusal(b"refused 6 record 9\\n"), "show 9"))
    no record has the number 9
    """
    if refusal.about == "molecules" and records is not None:
        fault = _of_record(refusal, records, file)
        if fault is not None:
            fault.command = command
            return fault
    said, line = _said(refusal, data)
    atom = refusal.item if refusal.check in ("Q1", "Q4", "Q5", "Q6", "Q8", "Q9", "Q12") else None
    where = f"; line {line}" if line is not None else ""
    return Refused(
        (f"{file}: " if file else "") + said + where,
        code=refusal.code,
        answer=refusal.answer,
        command=command,
        file=file,
        line=line,
        record=refusal.record,
        atom=atom,
    )


def _of_record(refusal: Refusal, records: Iterable[RecordText], file: Optional[str]) -> Optional[Refused]:
    """The fault of the one record of a file that a refusal is about, or None where that can't be told."""
    last = None
    for record in records:
        if refusal.record is not None and record.number == refusal.record:
            return record_fault(replace(refusal, record=1), record, file)
        if refusal.line is not None:
            lines = record.raw.count(b"\n") + (not record.raw.endswith(b"\n"))
            last = record
            if refusal.line < record.line + lines:
                break
    if last is None or refusal.line is None:
        return None
    return record_fault(replace(refusal, line=max(1, refusal.line - last.line + 1)), last, file)


_Said = Tuple[str, Optional[int]]


def _said(refusal: Refusal, data: Optional[bytes]) -> _Said:
    """What is wrong, and the line."""
    if refusal.code == 2:
        return _bad_line(refusal, data)
    if refusal.code == 3 and refusal.about == "query":
        return _bad_query(refusal, data)
    simple = {
        1: "the program doesn't know this command",
        3: f"the check {refusal.check} fails at {refusal.item} in record {refusal.record}",
        6: f"no record has the number {refusal.number}",
        7: f"a claim has the name {refusal.name} already",
        8: f"no claim has the name {refusal.name}",
        9: f"no saved search has the number {refusal.number}",
        11: f"the file holds {refusal.number} records, and one is wanted",
    }
    return simple.get(refusal.code) or _ABOUT[refusal.code, refusal.about], None


def _bad_line(refusal: Refusal, data: Optional[bytes]) -> _Said:
    assert refusal.line is not None
    kind = "SDfile" if refusal.about == "molecules" else "claim"
    if refusal.v3000:
        return "the claim is in V3000, which is read of molecules alone; write it as V2000", refusal.line
    if data is None:
        return f"no {kind} can go on with this line, so look at its columns", refusal.line
    lines = data.split(b"\n")
    if lines[-1] == b"":
        lines.pop()
    if refusal.line > len(lines):
        return f"the {kind} ends too early: it was cut, or a count asks for more lines", refusal.line
    line = lines[refusal.line - 1].rstrip(b"\r")
    return f"no {kind} can go on with this line, so look at its columns: {decode(line)[:80]!r}", refusal.line


def _bad_query(refusal: Refusal, data: Optional[bytes]) -> _Said:
    assert refusal.check is not None and refusal.table is not None and refusal.item is not None
    said = _QUERY[refusal.check].format(item=refusal.item)
    line, text = None, ""
    which = "the root" if refusal.table == 0 else f"member {refusal.table} of the file"
    if data is not None:
        lines = data.split(b"\n")
        heads = [at + 1 for at, found in enumerate(lines) if found.rstrip() == b"$CTAB"] or [3]
        if refusal.table < len(heads):
            at = _line_of_item(lines, heads[refusal.table], refusal.check, refusal.item)
            if at is not None:
                line, text = at + 1, f": {decode(lines[at])[:80].strip()!r}"
            if refusal.table > 0:
                which = _member(lines, heads[refusal.table], refusal.table)
    return f"{said}{text}; in {which}", line


def _member(lines: List[bytes], head: int, table: int) -> str:
    """The member whose table begins at a place of the lines, as its group counts it."""
    number, label = 0, b""
    for at in range(head):
        if lines[at].startswith(b"$RGP"):
            label, number = lines[at + 1].strip(), 0
        elif lines[at].rstrip() == b"$CTAB":
            number += 1
    return f"member {number} of R{decode(label)}" if label else f"member {table} of the file"


def _line_of_item(lines: List[bytes], counts: int, check: str, item: int) -> Optional[int]:
    """The place in the lines, from 0, of the atom, bond or property that a check names; the counts line's is given."""
    if len(lines) <= counts or item == 0:
        return None
    try:
        atoms, bonds = int(lines[counts][:3]), int(lines[counts][3:6] or 0)
    except ValueError:
        return None
    if check in ("Q1", "Q4", "Q5", "Q6", "Q8", "Q9", "Q12"):
        at = counts + item
    elif check == "Q2":
        at = counts + atoms + item
    elif check in ("Q3", "Q7", "Q10"):
        found = [
            place
            for place in range(counts + atoms + bonds + 1, len(lines))
            if re.match(rb"M  (CHG|RAD|ISO|RBC|SUB|UNS|LIN|ALS|APO|AAL|RGP|LOG)", lines[place])
        ]
        end = next((place for place in range(counts, len(lines)) if lines[place].startswith(b"M  END")), len(lines))
        found = [place for place in found if place < end]
        at = found[item - 1] if item <= len(found) else len(lines)
    else:
        return None
    return at if at < len(lines) else None


# ---- a record



def record_fault(refusal: Refusal, record: RecordText, file: str | None = None) -> Refused:
    r"""The error that says why the program doesn't take a record.

    Parameters
    ----------
    refusal : the program's answer to `load` of a file of this record alone.
    record : the record.
    file : the name of the file that it comes from.

    >>> from markush.answers import read_refusal
    >>> from markush.records import RecordText
    >>> text = b"resin\n\n\n  1  0\n" + b" " * 31 + b"R1  0  0\nM  END\n$$$$\n"
    >>> fault = record_fault(read_refusal(b"refused 3 molecules record 1 check V1 item 1\n"), RecordText(3, text, 120))
    >>> print(fault)
    atom 1 has the symbol R1, which is no element; record 3 'resin', line 124
    """
    lines = record.lines
    atom = None
    if refusal.code == 3:
        why, line, atom = _check_fault(refusal, lines)
    elif refusal.code == 2:
        line = refusal.line
        why = _line_fault(refusal, lines)
    elif refusal.code == 4:
        why, line = "the record has over 67,108,864 bytes; leave it out", None
    elif refusal.code == 11 or refusal.about == "records":
        why, line = f"these lines hold {refusal.number} records; a record begins behind the line $$$$ of the one before it", None
    else:
        why, line = f"the program answers `{refusal.answer}`", None
    at = record.line if line is None else record.line + min(line, max(1, len(lines))) - 1
    where = f"{file}, " if file else ""
    said = f" {record.name!r}" if record.name else ""
    return Refused(
        f"{why}; {where}record {record.number}{said}, line {at}", code=refusal.code, answer=refusal.answer, command="load", file=file, line=at,
        record=record.number, atom=atom, name=record.name, why=why,
    )


def _count(line: str, at: int) -> int:
    columns = line[3 * at : 3 * at + 3].strip(" ")
    return int(columns) if re.fullmatch(r"[0-9]{1,3}", columns) else 0


def _line_fault(refusal: Refusal, lines: list[str]) -> str:
    """What is wrong with a line with which no record can go on."""
    number = refusal.line or 0
    if number > len(lines):
        return "the record ends too early; its lines were cut, or a counts line asks for more lines than there are"
    line = lines[number - 1]
    counts = lines[3] if len(lines) > 3 else ""
    if counts[33:39].strip(" ") == "V3000":
        due = "the V3000 table can't go on with this line"
    elif number <= 4:
        due = "a counts line is due, as `  9  9  0  0  0  0            999 V2000`"
    elif number <= 4 + _count(counts, 0):
        due = f"the line of atom {number - 4} is due, with its symbol in the columns 32 to 34 and numbers in those behind them"
    elif number <= 4 + _count(counts, 0) + _count(counts, 1):
        due = f"the line of bond {number - 4 - _count(counts, 0)} is due, as `  1  2  1  0`"
    else:
        due = "a property line or `M  END` is due; see that the counts line counts all atoms and bonds"
    shown = line if len(line) <= 60 else line[:57] + "..."
    return f"{due}, and here stands {shown!r}"


def _check_fault(refusal: Refusal, lines: list[str]) -> tuple[str, int | None, int | None]:
    """Why a check fails, with the record's line and the atom, where there is one."""
    item, check = refusal.item or 0, refusal.check
    counts = lines[3] if len(lines) > 3 else ""
    is_v3000 = counts[33:39].strip(" ") == "V3000"
    if is_v3000:
        return _v3000_fault(check, item, lines)
    atoms = _count(counts, 0)
    if check in ("V1", "V4"):
        line = lines[3 + item] if 3 + item < len(lines) else ""
        if check == "V4":
            return f"atom {item} has more than 20 bonds; leave the record out", 4 + item, item
        return _atom_fault(item, line[31:34].strip(" "), line[36:39], line[48:51]), 4 + item, item
    if check in ("V2", "V3"):
        at = 3 + atoms + item
        line = lines[at] if at < len(lines) else ""
        first, second, kind = (line[n : n + 3].strip(" ") for n in (0, 3, 6))
        earlier = [it[:6] for it in lines[4 + atoms : at]]
        return _bond_fault(check, item, first, second, kind, atoms, earlier), at + 1, None
    if item == 0:
        return "the table has atom-list lines, which are those of queries; leave them out", 4, None
    place = _property_place(lines, atoms, item)
    line = lines[place] if place is not None else ""
    why = {
        "V5": f"the line {line!r} names an atom that the table hasn't ({atoms} atoms); give it the atom's number, or leave it out",
        "V6": f"the line {line!r} has a charge beyond -15 to 15, or a radical beyond 0 to 3",
        "V7": f"the line {line!r} asks something, as queries do; leave it out of a compound",
    }.get(check or "", f"the check {check} fails at {item}")
    return why, None if place is None else place + 1, None


def _atom_fault(item: int, symbol: str, charge: str, valence: str) -> str:
    if symbol not in ELEMENTS and symbol not in ("D", "T"):
        fixed = symbol.capitalize()
        mend = f"; write {fixed}" if fixed in ELEMENTS and fixed != symbol else ""
        return f"atom {item} has {'the symbol ' + symbol if symbol else 'no symbol'}, which is no element{mend}"
    for columns, most, what in ((charge, 7, "charge"), (valence, 15, "valence")):
        if NUMBER.fullmatch(columns) and not 0 <= int(columns) <= most:
            return f"atom {item} ({symbol}) has {int(columns)} in its {what} column, where 0 to {most} may stand"
    return f"atom {item} ({symbol}) has an unknown number in its charge or valence column"


def _bond_fault(check: str, item: int, first: str, second: str, kind: str, atoms: int, earlier: list[str]) -> str:
    if check == "V3":
        mend = "; a dative bond is drawn with type 1" if kind == "9" else "; types 5 to 8 are those of queries" if kind in "5678" and kind else ""
        return f"bond {item}, of the atoms {first} and {second}, has the type {kind or 0}, where 1 to 4 may stand{mend}"
    pair = {first, second}
    again = next((n for n, it in enumerate(earlier, 1) if {it[:3].strip(" "), it[3:].strip(" ")} == pair), None)
    if first == second:
        return f"bond {item} joins atom {first} to itself; leave it out"
    if again is not None:
        return f"bond {item} joins the atoms {first} and {second}, as bond {again} does; leave one of them out"
    return f"bond {item} names the atoms {first or 0} and {second or 0}, and the table has {atoms} atoms"


def _v3000_fault(check: str | None, item: int, lines: list[str]) -> tuple[str, int | None, int | None]:
    """The fault of a V3000 table: the atom or bond is counted among the logical lines of its part."""
    begin = "M  V30 BEGIN ATOM" if check in ("V1", "V4") else "M  V30 BEGIN BOND"
    start = next((at for at, line in enumerate(lines) if line.rstrip() == begin), None)
    if start is None or check not in ("V1", "V2", "V3", "V4"):
        return f"the V3000 table fails the check {check} at {item}: a charge beyond -15 to 15, or a radical beyond 0 to 3", None, None
    at, seen = start, 0
    while at + 1 < len(lines) and seen < item:
        at += 1
        seen += not lines[at - 1].endswith("-") or at == start + 1
    words = lines[at][7:].split() if at < len(lines) else []
    if check == "V1":
        return _atom_fault(item, words[1] if len(words) > 1 else "", "", ""), at + 1, item
    if check == "V4":
        return f"atom {item} has more than 20 bonds; leave the record out", at + 1, item
    kind, first, second = (words[1:4] + ["", "", ""])[:3]
    if check == "V3":
        return _bond_fault("V3", item, first, second, kind, 0, []), at + 1, None
    return f"bond {item}, of the atoms {first} and {second}, joins an atom to itself, a pair a second time, or an atom that isn't there", at + 1, None


def _property_place(lines: list[str], atoms: int, item: int) -> int | None:
    """The place, from 0, of the property that a number counts; lines passed over are no properties."""
    counts = lines[3]
    at = 4 + atoms + _count(counts, 1) + _count(counts, 2) + 2 * _count(counts, 5)
    seen = 0
    while at < len(lines) and not lines[at].startswith("M  END"):
        line = lines[at]
        if line.startswith(("A  ", "G  ")):
            at += 1
        elif line.startswith("S  SKP"):
            at += int(line[6:9]) if NUMBER.fullmatch(line[6:9]) else 0
        elif line.startswith("M  ") and line[3:6] in ("CHG", "RAD", "ISO", "RBC", "SUB", "UNS", "RGP", "APO", "LIN", "ALS", "AAL", "LOG"):
            seen += 1
            if seen == item:
                return at
        at += 1
    return None

"""The grammar of what the session program writes: its first line, its frames, and the answer to each command.

Nothing else in this package cuts the program's text. Each reader takes bytes and gives a frozen value, or raises
`BadAnswer` where the bytes aren't what the grammar says; then the program isn't the one that this package knows.

```text
first  = "ready records R queries Q cursors C next N M" LF | "bad store KIND NUMBER" LF | "words not understood" LF
frame  = "answer BYTES HOW" LF, and exactly BYTES bytes         HOW = done | refused | unread | memory
```
"""
from __future__ import annotations

import re
from dataclasses import dataclass
from typing import Optional, Tuple, Union

from .errors import MarkushError

__all__ = [
    "BadAnswer",
    "Ready",
    "BadRow",
    "Head",
    "Refusal",
    "KeptRecords",
    "Shown",
    "Listing",
    "RawHit",
    "Page",
    "HitLines",
    "TableAnswer",
    "StructurePage",
    "read_first",
    "read_head",
    "read_refusal",
    "read_loaded",
    "read_word",
    "read_shown",
    "read_listing",
    "read_page",
    "read_hit_lines",
    "read_table",
    "read_structures",
    "decode",
    "encode",
]


class BadAnswer(MarkushError):
    """The program wrote what its grammar has no place for.

    Examples
    --------
    >>> isinstance(BadAnswer("not a frame"), MarkushError)
    True
    """


@dataclass(frozen=True)
class Ready:
    """The program's first line: how much the store holds, and the next numbers.

    Examples
    --------
    >>> Ready(3, 1, 0, 4, 1).records
    3
    """

    records: int
    queries: int
    cursors: int
    next_record: int
    next_cursor: int


@dataclass(frozen=True)
class BadRow:
    """The first line over a store that has a bad row, with its kind and number.

    Examples
    --------
    >>> BadRow("record", 7).kind
    'record'
    """

    kind: str
    number: int


@dataclass(frozen=True)
class Head:
    """The head of a frame: how many bytes follow, and how the command went.

    Examples
    --------
    >>> Head(18, "refused").how
    'refused'
    """

    size: int
    how: str


@dataclass(frozen=True)
class Refusal:
    """A refusal, by its number, what it is about, and where.

    Attributes
    ----------
    code : int
        1 to 11.
    about : str
        `command`, `query`, `molecules`, `library full`, `record`, `name`, `cursor`, `queries`, `cursors`, `records`.
    answer : str
        The line as it stands.
    v3000 : bool
        Whether the bad line is a counts line that says V3000.
    line, record, table, item, number : int or None
        The bad line; the record, the table and the item of a check; the number that isn't held, or of records.
    check : str or None
        `V1` to `V7` or `Q1` to `Q14`.
    name : str or None
        The name of a query.

    Examples
    --------
    >>> read_refusal(b"refused 2 molecules line 4\\n").line
    4
    """

    code: int
    about: str
    answer: str
    v3000: bool = False
    line: Optional[int] = None
    record: Optional[int] = None
    check: Optional[str] = None
    table: Optional[int] = None
    item: Optional[int] = None
    number: Optional[int] = None
    name: Optional[str] = None


@dataclass(frozen=True)
class KeptRecords:
    """The answer to `load`: how many records were kept, and the number of the first, if any.

    Examples
    --------
    >>> read_loaded(b"loaded 2 first 5\\n")
    KeptRecords(count=2, first=5)
    """

    count: int
    first: Optional[int]


@dataclass(frozen=True)
class Shown:
    """The answer to `show`: the record's number and its text.

    Examples
    --------
    >>> read_shown(b"record 1 2\\na\\nb\\n").text
    b'a\\nb\\n'
    """

    number: int
    text: bytes


@dataclass(frozen=True)
class Listing:
    """The answer to `list`: the numbers of the records, the names of the queries, the saved searches, the next numbers.

    Examples
    --------
    >>> read_listing(b"records 1\\nrecord 3\\nqueries 0\\ncursors 0\\nnext 4 1\\n").records
    (3,)
    """

    records: Tuple[int, ...]
    queries: Tuple[str, ...]
    cursors: Tuple[Tuple[int, str], ...]
    next_record: int
    next_cursor: int


@dataclass(frozen=True, order=True)
class RawHit:
    """One line of hits: the record's number, the choice, and the map, whose atoms count from 1.

    They order as the program lists them: by record, by choice, by map.

    Examples
    --------
    >>> RawHit(1, (2, 1), (4, 3)) < RawHit(2, (1,), (1, 2))
    True
    """

    record: int
    choice: Tuple[int, ...]
    map: Tuple[int, ...]


@dataclass(frozen=True)
class Page:
    """The answer to `search` or `resume`: hits, and how the page ended: `end`, `more` or `paused`.

    Examples
    --------
    >>> read_page(b"hit 1 choice map 1 2\\nmore 7\\n").cursor
    7
    """

    hits: Tuple[RawHit, ...]
    ended: str
    cursor: Optional[int]


@dataclass(frozen=True)
class HitLines:
    """The answer to `search` or `resume` for who needs few of its numbers: the record, the choice and the map of each hit, as they are written.

    Examples
    --------
    >>> read_hit_lines(b"hit 1 choice 3 2 map 1 2\\nmore 7\\n").hits
    (('1', '3 2', '1 2'),)
    """

    hits: Tuple[Tuple[str, str, str], ...]
    ended: str
    cursor: Optional[int]


@dataclass(frozen=True)
class TableAnswer:
    """The answer to `table`: the root's atoms that are sites, and for each record the members at them, 0 for none.

    Examples
    --------
    >>> read_table(b"record\\tsite 7\\n1\\t2\\nend\\n")
    TableAnswer(sites=(7,), rows=((1, (2,)),))
    """

    sites: Tuple[int, ...]
    rows: Tuple[Tuple[int, Tuple[int, ...]], ...]


@dataclass(frozen=True)
class StructurePage:
    """The answer to `enum`: the SDfile of a page, and the place from which the next one goes on, if any.

    Examples
    --------
    >>> read_structures(b"end\\n")
    StructurePage(text=b'', more=None)
    """

    text: bytes
    more: Optional[str]


_READY = re.compile(rb"ready records (\d+) queries (\d+) cursors (\d+) next (\d+) (\d+)\n\Z")
_BAD_ROW = re.compile(rb"bad store (record|query|cursor) (\d+)\n\Z")
_HEAD = re.compile(rb"answer (0|[1-9]\d*) (done|refused|unread|memory)\n\Z")
_REFUSALS = [
    re.compile(form)
    for form in (
        r"refused (?P<code>1) (?P<about>command)",
        r"refused (?P<code>2) (?P<about>query|molecules) (?P<v3000>v3000 )?line (?P<line>\d+)",
        r"refused (?P<code>3) (?P<about>query) check (?P<check>Q\d+) table (?P<table>\d+) item (?P<item>\d+)",
        r"refused (?P<code>3) (?P<about>molecules) record (?P<record>\d+) check (?P<check>V\d+) item (?P<item>\d+)",
        r"refused (?P<code>4) (?P<about>query|molecules)",
        r"refused (?P<code>5) (?P<about>library full)",
        r"refused (?P<code>6) (?P<about>record) (?P<number>\d+)",
        r"refused (?P<code>[78]) (?P<about>name|query) (?P<name>[A-Za-z0-9._-]+)",
        r"refused (?P<code>9) (?P<about>cursor) (?P<number>\d+)",
        r"refused (?P<code>10) (?P<about>queries|cursors)",
        r"refused (?P<code>11) (?P<about>records) (?P<number>\d+)",
    )
]
_HIT = re.compile(r"(?m)^hit ([1-9]\d*) choice((?: \d+)*) map((?: \d+)*)$", re.ASCII)
_LAST = re.compile(rb"(end|(more|paused) (\d+))\Z")


def _bad(what: str, data: bytes) -> BadAnswer:
    start = data[:80]
    return BadAnswer(f"the program wrote {start!r}, which is no {what}; is it the program that belongs to this package?")


def _number(form: "re.Match[str]", group: str) -> Optional[int]:
    found = form.groupdict().get(group)
    return None if found is None else int(found)


def read_first(line: bytes) -> Union[Ready, BadRow]:
    """Read the line with which the program begins.

    Parameters
    ----------
    line : bytes
        The line with its LF.

    Raises
    ------
    BadAnswer
        It is none of them; `words not understood` among the rest, since the package gives words that are.

    Examples
    --------
    >>> read_first(b"ready records 2 queries 0 cursors 0 next 3 1\\n").next_record
    3
    >>> read_first(b"bad store query 4\\n")
    BadRow(kind='query', number=4)
    """
    ready = _READY.match(line)
    if ready:
        records, queries, cursors, next_record, next_cursor = (int(n) for n in ready.groups())
        return Ready(records, queries, cursors, next_record, next_cursor)
    row = _BAD_ROW.match(line)
    if row:
        return BadRow(row[1].decode(), int(row[2]))
    raise _bad("first line of a session", line)


def read_head(line: bytes) -> Head:
    """Read the head of a frame.

    Parameters
    ----------
    line : bytes
        The line with its LF.

    Raises
    ------
    BadAnswer
        The line is no head.

    Examples
    --------
    >>> read_head(b"answer 9 done\\n")
    Head(size=9, how='done')
    """
    head = _HEAD.match(line)
    if not head:
        raise _bad("head of a frame", line)
    return Head(int(head[1]), head[2].decode())


def read_refusal(data: bytes) -> Refusal:
    """Read a refusal.

    Raises
    ------
    BadAnswer
        The bytes are no refusal.

    Examples
    --------
    >>> read_refusal(b"refused 3 molecules record 2 check V1 item 14\\n").item
    14
    """
    answer = data[:-1].decode("ascii", "replace")
    for form in _REFUSALS:
        found = form.fullmatch(answer) if data.endswith(b"\n") else None
        if found:
            words = found.groupdict()
            return Refusal(
                int(words["code"]),
                words["about"],
                answer,
                v3000=words.get("v3000") is not None,
                line=_number(found, "line"),
                record=_number(found, "record"),
                check=words.get("check"),
                table=_number(found, "table"),
                item=_number(found, "item"),
                number=_number(found, "number"),
                name=words.get("name"),
            )
    raise _bad("refusal", data)


def read_loaded(data: bytes) -> KeptRecords:
    """Read the answer to `load`.

    Examples
    --------
    >>> read_loaded(b"loaded 0\\n")
    KeptRecords(count=0, first=None)
    """
    found = re.match(rb"loaded (?:0|([1-9]\d*) first (\d+))\n\Z", data)
    if not found:
        raise _bad("answer to load", data)
    return KeptRecords(int(found[1] or 0), int(found[2]) if found[2] else None)


def read_word(word: str, data: bytes) -> str:
    """Read an answer of one word and what it is about: `kept NAME`, `forgot NAME`, `replaced N`, `removed N`.

    Examples
    --------
    >>> read_word("kept", b"kept acids\\n")
    'acids'
    """
    found = re.match(word.encode() + rb" ([A-Za-z0-9._-]+)\n\Z", data)
    if not found:
        raise _bad(f"answer of the form {word} ..", data)
    return found[1].decode()


def read_shown(data: bytes) -> Shown:
    """Read the answer to `show`.

    Examples
    --------
    >>> read_shown(b"record 12 1\\nbenzene\\n")
    Shown(number=12, text=b'benzene\\n')
    """
    found = re.match(rb"record (\d+) (\d+)\n", data)
    if not found or data.count(b"\n", found.end()) != int(found[2]) or not data.endswith(b"\n"):
        raise _bad("answer to show", data)
    return Shown(int(found[1]), data[found.end() :])


def read_listing(data: bytes) -> Listing:
    """Read the answer to `list`.

    Examples
    --------
    >>> read_listing(b"records 0\\nqueries 1\\nquery q\\ncursors 1\\ncursor 2 q\\nnext 1 3\\n").cursors
    ((2, 'q'),)
    """
    words = [line.split(b" ") for line in data.split(b"\n")]
    try:
        if words.pop() != [b""]:
            raise ValueError
        lines = iter(words)
        records = tuple(int(number) for (number,) in _some(lines, b"records", b"record"))
        queries = tuple(name.decode() for (name,) in _some(lines, b"queries", b"query"))
        cursors = tuple((int(number), name.decode()) for number, name in _some(lines, b"cursors", b"cursor"))
        last, next_record, next_cursor = next(lines)
        if last != b"next" or next(lines, None) is not None:
            raise ValueError
        return Listing(records, queries, cursors, int(next_record), int(next_cursor))
    except (ValueError, StopIteration):
        raise _bad("answer to list", data) from None


def _some(lines: "object", many: bytes, one: bytes) -> "list[list[bytes]]":
    """The words behind `one` in as many lines as the line `many` counts."""
    word, count = next(lines)  # type: ignore[call-overload]
    found = [next(lines) for _ in range(int(count))]  # type: ignore[call-overload]
    if word != many or any(words[0] != one for words in found):
        raise ValueError
    return [words[1:] for words in found]


def read_page(data: bytes) -> Page:
    """Read the answer to `search` or `resume`.

    Examples
    --------
    >>> read_page(b"hit 3 choice 1 2 map 4 1\\nend\\n").hits
    (RawHit(record=3, choice=(1, 2), map=(4, 1)),)
    >>> read_page(b"paused 2\\n").ended
    'paused'
    """
    lines = data.split(b"\n")
    last = _LAST.match(lines[-2]) if len(lines) > 1 and lines[-1] == b"" else None
    if not last:
        raise _bad("page of hits", data)
    try:
        hits = tuple(_read_hit(line) for line in lines[:-2])
    except (ValueError, IndexError):
        raise _bad("page of hits", data) from None
    return Page(hits, (last[2] or last[1]).decode(), int(last[3]) if last[3] else None)


def read_hit_lines(data: bytes) -> HitLines:
    """Read the answer to `search` or `resume`, and leave choices and maps as they are written.

    Examples
    --------
    >>> read_hit_lines(b"hit 3 choice map 4 1\\nend\\n")
    HitLines(hits=(('3', '', '4 1'),), ended='end', cursor=None)
    """
    front, end, line = data[:-1].rpartition(b"\n")
    last = _LAST.match(line) if data.endswith(b"\n") else None
    # one after the other, so that other threads go on in between
    found = (hit.groups() for hit in _HIT.finditer(front.decode("ascii", "replace")))
    hits = tuple((record, choice[1:], map[1:]) for record, choice, map in found)
    if not last or len(hits) != (front.count(b"\n") + 1 if end else 0):
        raise _bad("page of hits", data)
    return HitLines(hits, (last[2] or last[1]).decode(), int(last[3]) if last[3] else None)


def _read_hit(line: bytes) -> RawHit:
    words = line.split(b" ")
    at = words.index(b"map")
    if words[0] != b"hit" or words[2] != b"choice":
        raise ValueError
    return RawHit(int(words[1]), tuple(map(int, words[3:at])), tuple(map(int, words[at + 1 :])))


def read_table(data: bytes) -> TableAnswer:
    """Read the answer to `table`.

    Examples
    --------
    >>> read_table(b"record\\nend\\n")
    TableAnswer(sites=(), rows=())
    """
    try:
        head, *lines, end, rest = data.split(b"\n")
        record, *sites = head.split(b"\t")
        if record != b"record" or end != b"end" or rest:
            raise ValueError
        atoms = []
        for site in sites:
            word, atom = site.split(b" ")
            if word != b"site":
                raise ValueError
            atoms.append(int(atom))
        rows = [tuple(map(int, line.split(b"\t"))) for line in lines]
        if any(len(row) != len(atoms) + 1 for row in rows):
            raise ValueError
        return TableAnswer(tuple(atoms), tuple((row[0], row[1:]) for row in rows))
    except ValueError:
        raise _bad("table", data) from None


def read_structures(data: bytes) -> StructurePage:
    """Read the answer to `enum`.

    Examples
    --------
    >>> read_structures(b"choice 1\\n..\\n$$$$\\nmore 1,0\\n").more
    '1,0'
    """
    found = re.search(rb"(?:\A|\n)(end|more (\d+(?:,\d+)*))\n\Z", data)
    if not found:
        raise _bad("page of structures", data)
    text = data[: found.start(1)]
    if text and not text.endswith(b"$$$$\n"):
        raise _bad("page of structures", data)
    return StructurePage(text, found[2].decode() if found[2] else None)


def decode(data: bytes) -> str:
    """Bytes of a file as text: UTF-8, or Latin-1 where they aren't UTF-8. A file's lines are kept as they are.

    Examples
    --------
    >>> decode("Säure".encode("utf-8")) == decode("Säure".encode("latin-1")) == "Säure"
    True
    """
    try:
        return data.decode("utf-8")
    except UnicodeDecodeError:
        return data.decode("latin-1")


def encode(text: str) -> bytes:
    """Text as the bytes that the program is given: UTF-8, with what isn't text of a file name kept as its bytes.

    Examples
    --------
    >>> encode("a")
    b'a'
    """
    return text.encode("utf-8", "surrogateescape")

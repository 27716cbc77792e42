"""The page of hits: one HTML file that a browser opens from the disk, with no server and no network.

`write_page` puts a claim, its hits and the records that were searched into the template `page.html`, with `hits.css` and `hits.js`, which
the bench has too. Each compound that is hit gets a
card: its drawing with the atoms and bonds of a hit marked, its name and data items, and the choice in words. Cards are made as they are
scrolled to; what they need stands in the page as lines of JSON, a shelf of some hundred compounds in one block.

What a user or a file wrote reaches the page as text alone: it stands in blocks of JSON without a `<`, and the page's policy lets the
browser run the one script whose hash it names.
"""
from __future__ import annotations

import base64
import contextlib
import datetime
import hashlib
import json
import os
import pathlib
import tempfile
from dataclasses import dataclass, replace
from typing import Any, Dict, Iterable, Iterator, List, Mapping, Optional, Protocol, Sequence, TextIO, Tuple, Union

from .drawing import Picture, laid_out, list_label, meanings, member_name, plain_smiles, record_picture, template_picture
from .errors import Refused
from .expansion import Expansion, Part, expand
from .rgfile import Group, Link, Logic, Query, Template, block_of, template

__all__ = ["Made", "Source", "write_page"]

TEMPLATE = pathlib.Path(__file__).with_name("page.html")
SHARED = (("HITS-CSS", "hits.css"), ("HITS-JS\n", "hits.js"))  # what the bench has too
SHELF = 200  # compounds in a block of the page
MOST_MAPS = 100  # of a choice in one compound that the page lists


class HitLike(Protocol):
    """What the page needs of a hit: its record's number, its choice and its map."""

    @property
    def record(self) -> int: ...

    @property
    def choice(self) -> Sequence[int]: ...

    @property
    def map(self) -> Sequence[int]: ...


class RecordLike(Protocol):
    """What the page needs of a record: its number, its name, its data items and its text."""

    @property
    def number(self) -> int: ...

    @property
    def name(self) -> str: ...

    @property
    def data(self) -> Mapping[str, str]: ...

    @property
    def text(self) -> str: ...


@dataclass(frozen=True)
class Source:
    """A file that a page was made of: its name, and the sha256 of its bytes in hexadecimal digits.

    Examples
    --------
    >>> Source.of(EXAMPLES / "phenoxy_acids" / "claim.rgf").name
    'claim.rgf'
    """

    name: str
    sha256: str

    @classmethod
    def of(cls, path: Union[str, "os.PathLike[str]"]) -> "Source":
        """The source of a file, which is read to its end.

        Raises
        ------
        OSError
            Where the file can't be read.
        """
        digest = hashlib.sha256()
        with open(path, "rb") as file:
            for piece in iter(lambda: file.read(1 << 20), b""):
                digest.update(piece)
        return cls(os.fsdecode(os.path.basename(os.fspath(path))).encode("utf-8", "replace").decode("utf-8"), digest.hexdigest())


@dataclass(frozen=True)
class Made:
    """How a page was made, for its last lines; what is empty is left out.

    Parameters
    ----------
    program, package : str
        The version of the program, and of this package.
    date : str
        As ``2026-12-01``; today's where it is empty.
    claim : Source or None
        The claim's file. Without it the sha256 of the claim's text is given.
    compounds : tuple of Source
        The files of the compounds, or the store.

    Examples
    --------
    >>> Made(program="markush 0.9", compounds=(Source("a.sdf", "00"),)).date
    ''
    """

    program: str = ""
    package: str = ""
    date: str = ""
    claim: Optional[Source] = None
    compounds: Tuple[Source, ...] = ()


# ---- words ----


def range_words(text: str) -> str:
    """How often a group stands, in words.

    Examples
    --------
    >>> range_words("0-1"), range_words(""), range_words("1,3-4")
    ('at most once', 'once or more', 'once or 3 to 4 times')
    """
    times = {"0": "nowhere", "1": "once"}
    known = {"<2": "at most once", "0-1": "at most once", ">0": "once or more", "": "once or more"}
    found = []
    for item in text.replace(" ", "").split(","):
        first, dash, last = item.partition("-")
        if item in known:
            found.append(known[item])
        elif item[0] in "<>":
            how = "more" if item[0] == ">" else "less"
            found.append(f"{how} often than {times.get(item[1:], item[1:] + ' times')}")
        else:
            found.append(f"{first} to {last} times" if dash else times.get(first, f"{first} times"))
    return " or ".join(found)


def _logic_words(query: Query, group: Group) -> str:
    logic = group.logic or Logic("", False, 0)
    askers = [f"R{other.label}" for other in query.groups if other.logic and other.logic.then == group.label]
    found = "stands " + range_words(logic.range)
    if askers:
        found += f", asked only where {' or '.join(askers)} stands"
    if logic.then:
        found += f"; where it stands R{logic.then} is asked for"
    return found + ("; else H" if logic.rest else "")


def _and(words: Sequence[str]) -> str:
    return words[0] if len(words) == 1 else f"{', '.join(words[:-1])} and {words[-1]}"


def _labels(groups: Sequence[int]) -> str:
    return ",".join(f"R{group}" for group in groups)


def link_unit(part: Template, link: Link) -> str:
    """What a link repeats, as chemists write it: ``CH2``.

    Examples
    --------
    >>> from markush.rgfile import read_query
    >>> root = read_query((EXAMPLES / "local_anaesthetics" / "claim.rgf").read_text()).root
    >>> link_unit(root, root.links[0])
    'CH2'
    """
    block = sorted(block_of(part, link))
    if len(block) > 1:
        place = {atom: n for n, atom in enumerate(block, 1)}
        atoms = [replace(part.atoms[atom - 1], number=place[atom]) for atom in block]
        bonds = [
            replace(bond, first=place[bond.first], second=place[bond.second])
            for bond in part.bonds
            if bond.first in place and bond.second in place
        ]
        return plain_smiles(template("", atoms, bonds).smiles)
    atom = part.atoms[link.atom - 1]
    symbol = f"[{list_label(atom)}]" if atom.elements else atom.symbol
    return symbol + (f"H{atom.hydrogens if atom.hydrogens > 1 else ''}" if atom.hydrogens else "")


def repeated(unit: str, times: int) -> str:
    """A link that stands so many times.

    Examples
    --------
    >>> repeated("CH2", 1), repeated("CH2", 3)
    ('CH2', '(CH2)3')
    """
    return unit if times == 1 else f"({unit}){times}"


# ---- the claim ----

FacetKey = Tuple[Tuple[int, ...], int, int, int]  # labels, owner's label, and of a link the owner's number and the atom


class _Facets:
    """What compounds are chosen by: the sites of one group in one place together, and each link."""

    def __init__(self, query: Query, tables: Mapping[int, int], names: Mapping[Tuple[int, int], str]) -> None:
        self.found: List[Dict[str, Any]] = []
        self.place: Dict[FacetKey, int] = {}
        self.names: Dict[int, str] = {}  # of a link's facet what it repeats
        sites: Dict[FacetKey, List[int]] = {}
        links: List[Tuple[FacetKey, Template, Link]] = []
        owners = [(0, 0, query.root)] + [
            (group.label, number, member) for group in query.groups for number, member in enumerate(group.members, 1)
        ]
        for label, number, part in owners:
            for site in part.sites:
                sites.setdefault((site.groups, label, 0, 0), []).append(site.atom)
            links += [(((), label, number, link.atom), part, link) for link in part.links]
        resting = {group.label for group in query.groups if group.logic and group.logic.rest}
        for key in sorted(sites):
            groups, owner = key[:2]
            where = f": {_and([str(atom) for atom in sites[key]])}" if not owner else f" in R{owner}"
            rest = bool(resting.intersection(groups))
            values = [
                {"n": names[group.label, number], "t": tables[id(member)], "s": "", "x": int(is_one_list(member))}
                for group in query.groups
                if group.label in groups
                for number, member in enumerate(group.members, 1)
            ]
            values.append({"n": "H" if rest else "open", "t": -1, "s": "H" if rest else "\u2013", "e": 1})
            self._put(key, f"{_labels(groups)}{where}{'; else H' if rest else ''}", groups, "", values)
        for key, part, link in links:
            unit = link_unit(part, link)
            values = [{"n": repeated(unit, n), "t": -1, "s": f"{n}\u00d7"} for n in range(1, link.most + 1)]
            where = f": {link.atom}" if not key[1] else f" in R{key[1]} {names[key[1], key[2]]}"
            self._put(key, f"({unit})n{where}", (), unit, values)

    def _put(self, key: FacetKey, title: str, groups: Sequence[int], unit: str, values: List[Dict[str, Any]]) -> None:
        self.place[key] = len(self.found)
        self.found.append({"t": title, "l": list(groups), "v": values, **({"u": unit} if unit else {})})

    def of(self, made: Expansion, part: Part) -> Tuple[int, int]:
        """The facet of a part, and its value's place there."""
        owner = made.parts[part.parent] if part.parent >= 0 else None
        label, number = (owner.label, owner.number) if owner else (0, 0)
        key: FacetKey = (part.groups, label, 0, 0) if part.groups else ((), label, number, part.atom)
        return self.place[key], part.value - 1


def is_one_list(member: Template) -> bool:
    """Whether a member is one atom of several elements, so that of a hit the element alone is told.

    Examples
    --------
    >>> from markush.rgfile import Atom, template
    >>> is_one_list(template("", [Atom(1, "L", elements=("F", "Cl"), point=1)], []))
    True
    """
    return len(member.atoms) == 1 and _is_several(member.atoms[0])


def _is_several(atom: Any) -> bool:
    return bool(atom.elements) or atom.symbol in ("A", "Q", "*")


def _choice_data(query: Query, facets: _Facets, choice: Tuple[int, ...]) -> Tuple[Dict[str, Any], Expansion]:
    """A choice for the page: its parts, the part of each atom, the bonds, and the atoms that are one of several elements."""
    made = expand(query, choice)
    parts = []
    for part in made.parts:
        facet, value = facets.of(made, part)
        name = _labels(part.groups) if part.groups else "link"
        parts.append([facet, value, part.parent, f"{name} at {part.atom}" if part.parent < 0 or not part.groups else name])
    several = [
        [atom.number, atom.part, f"{list_label(atom.asks) if atom.asks.elements else atom.asks.symbol} at {atom.atom}"]
        for atom in made.atoms
        if _is_several(atom.asks)
    ]
    data = {
        "n": " ".join(map(str, choice)),
        "p": parts,
        "a": [atom.part for atom in made.atoms],
        "b": [end for bond in made.bonds for end in (bond.first, bond.second)],
        "l": several,
    }
    return data, made


def _claim_tables(claim: Any) -> Tuple[List[Dict[str, Any]], Dict[int, int], Dict[Tuple[int, int], str], Dict[str, str]]:
    """The root and the members as the page draws them, the place of each, the names of members, and what the notes mean."""
    query: Query = claim.query
    names = {}
    parts: List[Tuple[Template, str]] = [(query.root, plain_smiles(query.root.smiles))]
    for group in query.groups:
        for number, member in enumerate(group.members, 1):
            names[group.label, number] = member_name(claim, group.label, number, member)
            parts.append((member, names[group.label, number]))
    pictures = [template_picture(part) for part, _ in parts]
    tables = [{**(laid_out(picture) or picture).compact(), "t": name} for picture, (_, name) in zip(pictures, parts)]
    return tables, {id(part): n for n, (part, _) in enumerate(parts)}, names, meanings(pictures)


# ---- the compounds ----


def _grouped(hits: Iterable[HitLike]) -> Dict[int, Dict[Tuple[int, ...], List[Tuple[int, ...]]]]:
    """The maps by record and choice."""
    found: Dict[int, Dict[Tuple[int, ...], List[Tuple[int, ...]]]] = {}
    for hit in hits:
        found.setdefault(hit.record, {}).setdefault(tuple(hit.choice), []).append(tuple(hit.map))
    return found


def _is_in(found: Sequence[int], bonds: Sequence[int], picture: Picture, joined: "set[Tuple[int, int]]") -> bool:
    """Whether a map lies on atoms of the compound, and the bonds of its graph on bonds there."""
    if max(found, default=0) > len(picture.symbols) + sum(picture.added):
        return False
    for n in range(0, len(bonds), 2):
        a, b = found[bonds[n] - 1], found[bonds[n + 1] - 1]
        if ((a, b) if a < b else (b, a)) not in joined:
            return False
    return True


class _Page:
    """The data of a page while records are taken one by one."""

    def __init__(self, claim: Any, hits: Iterable[HitLike], reasons: Mapping[int, str], name: str, data: Sequence[str]) -> None:
        self.claim, self.query, self.reasons = claim, claim.query, reasons
        self.name, self.items = name, list(data)
        self.grouped = _grouped(hits)
        self.count = sum(len(maps) for of_record in self.grouped.values() for maps in of_record.values())
        self.tables, place, self.member_names, self.legend = _claim_tables(claim)
        self.facets = _Facets(self.query, place, self.member_names)
        self.choices: List[Dict[str, Any]] = []
        self.choice_at: Dict[Tuple[int, ...], int] = {}
        self.names: List[str] = []
        self.records: List[int] = []
        self.values: List[List[str]] = []
        self.hits: List[List[int]] = []
        self.lines: List[str] = []
        self.missed: List[List[Any]] = []
        self.undrawn = 0
        self.searched = 0

    def take(self, record: RecordLike) -> None:
        """A record that was searched: a card where it's hit, else a line of what isn't."""
        self.searched += 1
        name = (str(record.data.get(self.name, "")) if self.name else "") or record.name
        of_record = self.grouped.pop(record.number, None)
        if of_record is None:
            self.missed.append([record.number, name, self.reasons.get(record.number, "")])
            return
        try:
            picture = record_picture(record.text)
        except ValueError as fault:
            raise Refused(f"record {record.number}: {fault}", record=record.number) from None
        drawn = laid_out(picture)
        self.undrawn += drawn is None
        joined, held, maps_of = picture.joined(), [], []
        for choice, maps in of_record.items():
            at = self._choice(choice)
            data = self.choices[at]
            for found in maps:
                if len(found) != len(data["a"]):
                    raise Refused(
                        f"a hit in record {record.number} by the choice {data['n']!r} has {len(found)} atoms, "
                        f"and the claim {len(data['a'])}: are these hits of this claim?",
                        record=record.number,
                    )
                if not _is_in(found, data["b"], picture, joined):
                    raise Refused(f"a hit doesn't lie in record {record.number}, {name!r}: are these its records?", record=record.number)
            held += [at, len(maps)]
            maps_of.append([list(found) for found in maps[:MOST_MAPS]])
        self.names.append(name)
        self.records.append(record.number)
        self.hits.append(held)
        if self.items:
            self.values.append([" ".join(str(record.data.get(item, "")).split()) for item in self.items])
        self.lines.append(_json({"m": (drawn or picture).compact(), "h": maps_of}))

    def _choice(self, choice: Tuple[int, ...]) -> int:
        if choice not in self.choice_at:
            data, _ = _choice_data(self.query, self.facets, choice)
            self.choice_at[choice] = len(self.choices)
            self.choices.append(data)
        return self.choice_at[choice]


def _json(data: Any) -> str:
    """JSON that ends no script and no line: a `<` in a name would end the block that holds it."""
    text = json.dumps(data, ensure_ascii=False, separators=(",", ":"))
    for sign in "<>&\u2028\u2029":
        text = text.replace(sign, f"\\u{ord(sign):04x}")
    return text.encode("utf-8", "replace").decode("utf-8")


def _refused_row(refused: Any) -> List[Any]:
    if isinstance(refused, str):
        return ["", "", "", refused, ""]
    file = getattr(refused, "file", None) or ""
    why = getattr(refused, "why", None) or str(refused)
    return [getattr(refused, "record", None), getattr(refused, "line", None), getattr(refused, "name", ""), why, os.path.basename(str(file))]


def _plural(number: int, word: str) -> str:
    return f"{number:,} {word}{'' if number == 1 else 's'}"


def _sum(page: _Page, refused: Sequence[Any], unsearched: Sequence[Any]) -> str:
    hit = len(page.records)
    found = f"{hit:,} of {_plural(page.searched, 'compound')} {'is' if hit == 1 else 'are'} hit: "
    found += f"{_plural(page.count, 'hit')} by {_plural(len(page.choices), 'choice')}."
    if refused:
        found += f" {_plural(len(refused), 'record')} refused."
    if unsearched:
        found += f" {_plural(len(unsearched), 'record')} not searched."
    return found


def _origin(page: _Page, made: Made, refused: Sequence[Any], unsearched: Sequence[Any], limits: Sequence[str]) -> List[List[str]]:
    text = getattr(page.claim, "text", "")
    called = getattr(page.claim, "file", None) or page.query.title or "claim"
    claim = made.claim or Source(called, hashlib.sha256(text.encode("utf-8", "surrogatepass")).hexdigest())
    rows = [["program", made.program], ["package", made.package], ["date", made.date or datetime.date.today().isoformat()]]
    rows.append(["claim", claim.name, claim.sha256])
    rows += [["compounds", source.name, source.sha256] for source in made.compounds]
    rows.append(["records searched", f"{page.searched:,}"])
    rows.append(["records refused", f"{len(refused):,}"])
    rows.append(["records not searched", f"{len(unsearched):,}"])
    rows += [["limit met", limit] for limit in limits] or [["limits met", "none"]]
    if page.undrawn:
        rows.append(["not drawn", f"{_plural(page.undrawn, 'compound')}: without coordinates, and no RDKit here"])
    return [row for row in rows if row[1]]


def _data(
    page: _Page, title: str, made: Made, refused: Sequence[Any], unsearched: Sequence[Any], limits: Sequence[str]
) -> Dict[str, Any]:
    query = page.query
    place = iter(range(1, len(page.tables)))
    groups = [
        {"l": group.label, "m": [next(place) for _ in group.members], "t": _logic_words(query, group)} for group in query.groups
    ]
    return {
        "title": title,
        "sum": _sum(page, refused, unsearched),
        "limits": list(limits),
        "tables": page.tables,
        "groups": sorted((group for group in groups if group["m"]), key=lambda group: int(group["l"])),
        "legend": page.legend,
        "facets": page.facets.found,
        "choices": page.choices,
        "names": page.names,
        "records": page.records,
        "items": page.items,
        "values": page.values,
        "hits": page.hits,
        "shelf": SHELF,
        "missed": page.missed,
        "refused": [_refused_row(each) for each in refused],
        "unsearched": [str(each) for each in unsearched],
        "origin": _origin(page, made, refused, unsearched, limits),
    }


def _pieces(page: _Page, data: Dict[str, Any]) -> Iterator[str]:
    """The text of the page, piece by piece."""
    text = TEMPLATE.read_text(encoding="utf-8")
    for mark, name in SHARED:
        text = text.replace(mark, TEMPLATE.with_name(name).read_text(encoding="utf-8"), 1)
    script = text[text.index("<script>\n") + len("<script>") : text.index("</script>\nMORE-SHELVES-HERE")]
    digest = base64.b64encode(hashlib.sha256(script.encode("utf-8")).digest()).decode("ascii")
    front, rest = text.replace("SCRIPT-HASH", digest).split("DATA-HERE")
    middle, rest = rest.split("SHELF-HERE")
    behind, end = rest.split("MORE-SHELVES-HERE")
    yield front
    yield _json(data)
    yield middle
    yield _shelf(page, 0)
    yield behind
    for first in range(SHELF, len(page.lines), SHELF):
        yield _shelf(page, first)
    yield end


def _shelf(page: _Page, first: int) -> str:
    lines = "\n".join(page.lines[first : first + SHELF])
    return f'<script type="application/json" class="shelf" id="shelf{first // SHELF}">\n{lines}\n</script>\n'


def write_page(
    out: Union[str, "os.PathLike[str]", TextIO],
    claim: Any,
    hits: Iterable[HitLike],
    records: Iterable[RecordLike],
    *,
    refused: Sequence[Any] = (),
    unsearched: Sequence[Any] = (),
    limits: Sequence[str] = (),
    reasons: Optional[Mapping[int, str]] = None,
    title: Optional[str] = None,
    name: str = "",
    data: Sequence[str] = (),
    made: Optional[Made] = None,
) -> None:
    """Writes the page of a claim's hits.

    Parameters
    ----------
    out : path or text file
        Where the page goes; a file of that name is replaced once the page is whole.
    claim : Claim
        The claim; its query, its text and the names of its members are used.
    hits : iterable of Hit
        All hits that the page is to show; each names its record by number.
    records : iterable of Record
        All records that were searched, in order. Those without a hit stand in the list of what isn't one.
    refused : sequence
        What wasn't loaded, as `Loaded.refused` has it: each with `record`, `line`, `name`, `why` and `file`, or a sentence.
    unsearched : sequence
        The numbers of records that the search didn't come to, or sentences.
    limits : sequence of str
        The limits that were met, a sentence each; they stand below the title.
    reasons : mapping of int to str
        Of records without a hit why they have none, in words.
    title : str
        The page's title; else the claim's.
    name : str
        The data item that names a compound; else its first line does.
    data : sequence of str
        The data items that a card shows.
    made : Made
        How the page was made, for its last lines.

    Raises
    ------
    Refused
        Where hits, claim and records don't go together: a choice that the claim hasn't, a record that isn't given, a map that
        doesn't lie in its record.
    OSError
        Where the page can't be written.

    Examples
    --------
    >>> import io
    >>> from types import SimpleNamespace
    >>> from markush.rgfile import read_query
    >>> DATA = EXAMPLES.parent / "crates" / "markush" / "data"
    >>> claim = SimpleNamespace(query=read_query((DATA / "claim.rgf").read_text()))
    >>> text = (DATA / "chloroanisole.mol").read_text()
    >>> record = SimpleNamespace(number=1, name="4-chloroanisole", data={}, text=text)
    >>> hit = SimpleNamespace(record=1, choice=(1,), map=(1, 2, 3, 4, 5, 6, 7))
    >>> page = io.StringIO()
    >>> write_page(page, claim, [hit], [record], title="aryl ethers")
    >>> "aryl ethers" in page.getvalue(), "4-chloroanisole" in page.getvalue()
    (True, True)
    """
    page = _Page(claim, hits, reasons or {}, name, data)
    for record in records:
        page.take(record)
    if page.grouped:
        missing = min(page.grouped)
        raise Refused(f"a hit names record {missing}, which isn't among the records given", record=missing)
    known = getattr(claim, "title", "") or page.query.title.strip() or (made.claim.name if made and made.claim else "")
    said = title if title is not None else known or "a claim without a title"
    pieces = _pieces(page, _data(page, said, made or Made(), refused, unsearched, limits))
    if hasattr(out, "write"):
        for piece in pieces:
            out.write(piece)
        return
    _replace(pathlib.Path(out), pieces)


def _replace(path: pathlib.Path, pieces: Iterable[str]) -> None:
    """Writes a file beside the path, and puts it in its place once it is whole."""
    number, name = tempfile.mkstemp(prefix=f".{path.name}.", suffix=".part", dir=path.parent)
    try:
        with open(number, "w", encoding="utf-8", newline="\n") as file:
            for piece in pieces:
                file.write(piece)
        umask = os.umask(0)
        os.umask(umask)
        os.chmod(name, 0o666 & ~umask)
        os.replace(name, path)
    except BaseException:
        with contextlib.suppress(FileNotFoundError):
            os.unlink(name)
        raise

"""Query files as data: an RGfile or a molfile (V2000) is read, counted and written.

`read_query` gives a `Query`: its root, and its groups with their members, as frozen data. The columns are those of docs/FORMAT.md.
Whether a file is a query that the program takes is the program's to say: what is read here is for people and tools to look at.
No RDKit is taken.
"""
from __future__ import annotations

import re
from collections.abc import Iterable, Iterator, Mapping, Sequence
from dataclasses import dataclass, field
from types import MappingProxyType

from .errors import Refused
from .spelling import spell

__all__ = [
    "Atom", "Bond", "Group", "Link", "Logic", "Query", "Site", "Template", "block_of", "code_count", "is_in_range", "members_at", "read_query",
    "slots_of", "valid_code_count", "write_query", "write_table",
]

ELEMENTS = tuple(
    "H He Li Be B C N O F Ne Na Mg Al Si P S Cl Ar K Ca Sc Ti V Cr Mn Fe Co Ni Cu Zn Ga Ge As Se Br Kr Rb Sr Y Zr Nb Mo Tc Ru Rh Pd Ag Cd "
    "In Sn Sb Te I Xe Cs Ba La Ce Pr Nd Pm Sm Eu Gd Tb Dy Ho Er Tm Yb Lu Hf Ta W Re Os Ir Pt Au Hg Tl Pb Bi Po At Rn Fr Ra Ac Th Pa U Np "
    "Pu Am Cm Bk Cf Es Fm Md No Lr Rf Db Sg Bh Hs Mt Ds Rg Cn Nh Fl Mc Lv Ts Og".split()
)
KNOWN = frozenset(ELEMENTS) | {"D", "T"}
WORDS = frozenset({"L", "A", "Q", "*", "R#"})
CHARGES = {1: 3, 2: 2, 3: 1, 5: -1, 6: -2, 7: -3}
CHARGE_COLUMNS = {charge: column for column, charge in CHARGES.items()}
NUMBER = re.compile(r" *[+-]?[0-9]{1,9} *")
ITEM = re.compile(r" *(?:([<>]) *)?([0-9]{1,3}) *(?:- *([0-9]{1,3}) *)?")
# beyond it no range text says a number (docs/FORMAT.md, "Range texts")
MOST = 999_999
# the most distributions of filled sites that `valid_code_count` holds at a time
MOST_KEYS = 100_000


@dataclass(frozen=True)
class Site:
    """An atom `R#` of a template, counted from 1, with the groups that label it and its neighbours in attachment order."""

    atom: int
    groups: tuple[int, ...]
    ends: tuple[int, ...]


@dataclass(frozen=True)
class Link:
    """An atom that stands once to `most` times between its neighbours `start` and `end`; all are atoms of the template, from 1."""

    atom: int
    most: int
    start: int = 0
    end: int = 0


@dataclass(frozen=True)
class Atom:
    """An atom of a template and what it asks; None where it doesn't ask.

    `symbol` is that of the file: an element, `D`, `T`, `L` (a list, whose `elements` are given), `A`, `Q`, `*` (any) or `R#` (a site).
    `hydrogens` is 0 where no hydrogen may stand besides the drawn ones, else the least number besides them. `substitution` is 0 to 6, or
    -2 as drawn; `ring_bonds` is 0, 2, 3, 4, or -2 as drawn. `point` is 0, 1, 2, or 3 where the atom bears both. `radical` is 0 or 1 to 3.
    """

    number: int
    symbol: str
    charge: int = 0
    hydrogens: int | None = None
    elements: tuple[str, ...] = ()
    is_not: bool = False
    substitution: int | None = None
    ring_bonds: int | None = None
    unsaturated: bool = False
    point: int = 0
    x: float = 0.0
    y: float = 0.0
    radical: int = 0


@dataclass(frozen=True)
class Bond:
    """A bond between two atoms of a template, counted from 1. Types are 1 to 8; topology is 0 any, 1 ring, 2 chain."""

    first: int
    second: int
    type: int
    topology: int = 0


@dataclass(frozen=True)
class Template:
    """The root of a query, or a member of a group. `smiles` says it in the grammar of a claim's list, for people to read."""

    title: str
    atoms: tuple[Atom, ...]
    bonds: tuple[Bond, ...]
    sites: tuple[Site, ...]
    links: tuple[Link, ...]
    smiles: str = ""
    name: str = ""


@dataclass(frozen=True)
class Logic:
    """How often a group's sites are filled (a range text, empty for one or more), rest hydrogens, and the group asked for then, or 0."""

    range: str
    rest: bool
    then: int


@dataclass(frozen=True)
class Group:
    """A group with its members in the order of the file (none where the file says its logic alone), and its logic where it says one."""

    label: int
    members: tuple[Template, ...]
    logic: Logic | None = None


@dataclass(frozen=True)
class Query:
    """A query file: its title, its root, and its groups in the order of the file."""

    title: str
    root: Template
    groups: tuple[Group, ...] = ()

    def group(self, label: int) -> Group | None:
        """The group of a label, or None where the file has none."""
        return next((group for group in self.groups if group.label == label), None)


# ---- reading


@dataclass
class _Lines:
    """The lines of a text with the number of the one that was taken last."""

    lines: list[str]
    at: int = 0

    def take(self, what: str) -> str:
        if self.at >= len(self.lines):
            raise self.fault(f"the file ends where {what} is due", self.at + 1)
        self.at += 1
        return self.lines[self.at - 1]

    def fault(self, why: str, line: int | None = None) -> Refused:
        number = self.at if line is None else line
        said = f": {_text(self.lines[number - 1])!r}" if 1 <= number <= len(self.lines) else ""
        return Refused(f"line {number} of the query: {why}{said}", line=number)

    def number(self, line: str, first: int, last: int, what: str) -> int:
        """The number in columns that count from 1; blank columns hold 0."""
        columns = line[first - 1 : last]
        if not columns.strip(" "):
            return 0
        if not NUMBER.fullmatch(columns):
            raise self.fault(f"columns {first} to {last} hold no number ({what})")
        return int(columns)

    def real(self, line: str, first: int, last: int) -> float:
        try:
            return float(line[first - 1 : last].strip() or 0)
        except ValueError:
            return 0.0


@dataclass
class _Asked:
    """What property lines say of the atoms of one table."""

    charges: dict[int, int] = field(default_factory=dict)
    radicals: dict[int, int] = field(default_factory=dict)
    rings: dict[int, int] = field(default_factory=dict)
    neighbours: dict[int, int] = field(default_factory=dict)
    unsaturated: dict[int, int] = field(default_factory=dict)
    labels: dict[int, list[int]] = field(default_factory=dict)
    points: dict[int, int] = field(default_factory=dict)
    lists: dict[int, tuple[bool, tuple[str, ...]]] = field(default_factory=dict)
    links: dict[int, tuple[int, int, int]] = field(default_factory=dict)
    orders: dict[int, list[int]] = field(default_factory=dict)
    logic: dict[int, Logic] = field(default_factory=dict)
    sets_columns_aside: bool = False


def _text(line: str) -> str:
    """A line as the file's text: columns are bytes, so lines are held as latin-1 while columns are read."""
    return line.encode("latin-1").decode("utf-8", "replace")


def read_query(text: str) -> Query:
    r"""Reads an RGfile or a molfile of V2000 as a query.

    Parameters
    ----------
    text : the whole file.

    Raises
    ------
    Refused : the text is no query file. `line` is the number of the bad line, counted from 1.

    >>> query = read_query("\n\n\n  2  1\n" + "%30s C\n" % "" + "%30s O\n" % "" + "  1  2  1\nM  END\n")
    >>> query.root.smiles, code_count(query)
    ('CO', 1)
    """
    held = text.encode("utf-8", "surrogatepass").decode("latin-1").split("\n")
    if held[-1] == "":
        held.pop()
    lines = _Lines([line[:-1] if line.endswith("\r") else line for line in held])
    if not lines.lines:
        raise lines.fault("the file is empty", 1)
    query = _read_rgfile(lines) if lines.lines[0].startswith("$MDL") else _read_molfile(lines)
    for number in range(lines.at + 1, len(lines.lines) + 1):
        if lines.lines[number - 1].strip(" "):
            raise lines.fault("nothing may stand behind the end of the query", number)
    return query


def _read_molfile(lines: _Lines) -> Query:
    title = _text(lines.take("a header line")).strip()
    lines.take("a header line")
    lines.take("a header line")
    root, logic = _read_table(lines, title)
    return Query(title, root, tuple(Group(label, (), said) for label, said in logic.items()))


def _keyword(lines: _Lines, word: str) -> None:
    line = lines.take(f"`{word}`")
    if line.rstrip(" ") != word:
        raise lines.fault(f"`{word}` is due here")


def _read_rgfile(lines: _Lines) -> Query:
    lines.take("`$MDL`")
    for word in ("$MOL", "$HDR"):
        _keyword(lines, word)
    title = _text(lines.take("a header line")).strip()
    lines.take("a header line")
    lines.take("a header line")
    for word in ("$END HDR", "$CTAB"):
        _keyword(lines, word)
    root, logic = _read_table(lines, title)
    _keyword(lines, "$END CTAB")
    groups: dict[int, list[Template]] = {}
    while True:
        word = lines.take("`$RGP` or `$END MOL`").rstrip(" ")
        if word == "$END MOL":
            break
        if word != "$RGP":
            raise lines.fault("`$RGP` or `$END MOL` is due here")
        line = lines.take("the number of a group")
        label = int(line) if NUMBER.fullmatch(line) else 0
        if not 1 <= label <= 32:
            raise lines.fault("the number of a group is 1 to 32")
        members = groups.setdefault(label, [])
        word = lines.take("`$CTAB`").rstrip(" ")
        while word == "$CTAB":
            members.append(_read_table(lines, "")[0])
            _keyword(lines, "$END CTAB")
            word = lines.take("`$CTAB` or `$END RGP`").rstrip(" ")
        if word != "$END RGP" or not members:
            raise lines.fault("`$CTAB` of a member is due here" if not members else "`$CTAB` or `$END RGP` is due here")
    read = [Group(label, tuple(members), logic.get(label)) for label, members in groups.items()]
    # logic of a group without members still plays a part where it asks for another group
    read += [Group(label, (), said) for label, said in logic.items() if label not in groups]
    return Query(title, root, tuple(read))


def _read_table(lines: _Lines, title: str) -> tuple[Template, dict[int, Logic]]:
    counts = lines.take("a counts line")
    version = counts[33:39].strip(" ")
    if version == "V3000":
        raise lines.fault("a query in V3000 isn't read; write the file as V2000")
    if version not in ("", "V2000"):
        raise lines.fault("columns 34 to 39 of a counts line hold `V2000` or nothing")
    if not counts[:3].strip(" "):
        raise lines.fault("a counts line begins with the number of atoms")
    sizes = [lines.number(counts, 3 * at + 1, 3 * at + 3, "a count") for at in (0, 1, 2, 5)]
    if min(sizes) < 0:
        raise lines.fault("a count is 0 or more")
    atoms = [_read_atom(lines, number) for number in range(1, sizes[0] + 1)]
    bonds = [_read_bond(lines, sizes[0]) for _ in range(sizes[1])]
    asked = _Asked()
    for _ in range(sizes[2]):
        _read_list_line(lines, asked)
    for _ in range(2 * sizes[3]):
        lines.take("an stext entry")
    while True:
        line = lines.take("`M  END`")
        if line.startswith("M  END"):
            break
        _read_property(lines, line, asked)
    return _template(lines, title, atoms, bonds, asked), asked.logic


def _read_atom(lines: _Lines, number: int) -> tuple[Atom, int]:
    """An atom, and its charge column, which counts where no `M  CHG` or `M  RAD` stands."""
    line = lines.take("an atom line")
    column = lines.number(line, 37, 39, "the charge column")
    hydrogens = lines.number(line, 43, 45, "the hydrogen column")
    symbol = _text(line[31:34]).strip(" ")
    asked = hydrogens - 1 if hydrogens else None
    return Atom(number, symbol, hydrogens=asked, x=lines.real(line, 1, 10), y=lines.real(line, 11, 20)), column


def _read_bond(lines: _Lines, atoms: int) -> Bond:
    line = lines.take("a bond line")
    first, second, kind, topology = (lines.number(line, at, at + 2, "a bond") for at in (1, 4, 7, 16))
    if not (1 <= first <= atoms and 1 <= second <= atoms and first != second):
        raise lines.fault("a bond joins two different atoms of its table")
    return Bond(first, second, kind, topology)


def _read_list_line(lines: _Lines, asked: _Asked) -> None:
    line = lines.take("an atom-list line")
    count = lines.number(line, 10, 10, "how many elements")
    numbers = [lines.number(line, 12 + 4 * at, 14 + 4 * at, "an element") for at in range(count)]
    if line[4:5] not in ("T", "F") or any(not 1 <= number <= len(ELEMENTS) for number in numbers):
        raise lines.fault("an atom list has `T` or `F` in column 5, and the numbers of elements")
    asked.lists[lines.number(line, 1, 3, "the atom")] = line[4:5] == "T", tuple(ELEMENTS[number - 1] for number in numbers)


PAIRS = ("CHG", "RAD", "ISO", "RBC", "SUB", "UNS", "RGP", "APO")


def _read_property(lines: _Lines, line: str, asked: _Asked) -> None:
    word = line[3:6]
    if line[:3] in ("A  ", "G  "):
        lines.take("the text of an alias or abbreviation")
    elif line.startswith("S  SKP"):
        for _ in range(lines.number(line, 7, 9, "how many lines are passed over")):
            lines.take("a line that is passed over")
    elif line[:3] == "V  ":
        return
    elif line[:3].ljust(3) != "M  ":
        raise lines.fault("a property line or `M  END` is due here")
    elif word in PAIRS:
        asked.sets_columns_aside = asked.sets_columns_aside or word in ("CHG", "RAD")
        for at in range(10, 10 + 8 * lines.number(line, 7, 9, "how many entries"), 8):
            atom = lines.number(line, at + 1, at + 3, "an atom")
            _read_pair(asked, word, atom, lines.number(line, at + 5, at + 7, "a value"))
    elif word == "LIN":
        for at in range(10, 10 + 16 * lines.number(line, 7, 9, "how many entries"), 16):
            atom, most, start, end = (lines.number(line, at + n, at + n + 2, "a link") for n in (1, 5, 9, 13))
            asked.links[atom] = most, start, end
    elif word == "ALS":
        count = lines.number(line, 11, 13, "how many symbols")
        symbols = tuple(line[at : at + 4].strip(" ") for at in range(16, 16 + 4 * count, 4))
        asked.lists[lines.number(line, 8, 10, "the atom")] = line[14:15] == "T", symbols
    elif word == "AAL":
        count = lines.number(line, 11, 13, "how many entries")
        entries = [tuple(lines.number(line, at + n, at + n + 2, "an entry") for n in (5, 1)) for at in range(14, 14 + 8 * count, 8)]
        asked.orders[lines.number(line, 8, 10, "the site")] = [neighbour for _, neighbour in sorted(entries)]
    elif word == "LOG":
        group, then, rest = (lines.number(line, at, at + 2, "logic") for at in (11, 15, 19))
        if not is_range(line[22:]):
            raise lines.fault("the range is items as `1`, `0-1`, `>2` with a comma between each two")
        asked.logic[group] = Logic(line[22:].strip(" "), rest == 1, then)


def _read_pair(asked: _Asked, word: str, atom: int, value: int) -> None:
    if word == "RGP":
        labels = asked.labels.setdefault(atom, [])
        if value not in labels:
            labels.append(value)
    elif word != "ISO":
        held = {
            "CHG": asked.charges, "RAD": asked.radicals, "RBC": asked.rings, "SUB": asked.neighbours, "UNS": asked.unsaturated,
            "APO": asked.points,
        }
        held[word][atom] = value


def _asks(value: int) -> int | None:
    """What a number of an `M  SUB` or an `M  RBC` asks: -1 is none, -2 as drawn, and 0 nothing."""
    return None if value == 0 else 0 if value == -1 else value


def _template(lines: _Lines, title: str, atoms: Sequence[tuple[Atom, int]], bonds: Sequence[Bond], asked: _Asked) -> Template:
    near: dict[int, list[int]] = {}
    for bond in bonds:
        near.setdefault(bond.first, []).append(bond.second)
        near.setdefault(bond.second, []).append(bond.first)
    made = []
    for atom, column in atoms:
        n = atom.number
        columns = {} if asked.sets_columns_aside else {"charge": CHARGES.get(column, 0), "radical": 2 if column == 4 else 0}
        is_not, elements = asked.lists.get(n, (False, ()))
        made.append(
            Atom(
                n, atom.symbol, columns.get("charge", asked.charges.get(n, 0)), atom.hydrogens, elements, is_not,
                _asks(asked.neighbours.get(n, 0)), _asks(asked.rings.get(n, 0)), asked.unsaturated.get(n, 0) == 1, asked.points.get(n, 0),
                atom.x, atom.y, columns.get("radical", asked.radicals.get(n, 0)),
            )
        )
    for n in [*asked.labels, *asked.links, *asked.points]:
        if not 1 <= n <= len(made):
            raise lines.fault(f"a site, link or point names atom {n}, and the table above this line has {len(made)} atoms")
    sites = tuple(Site(n, tuple(sorted(asked.labels[n])), tuple(asked.orders.get(n, sorted(near.get(n, []))))) for n in sorted(asked.labels))
    links = tuple(Link(n, *asked.links[n]) for n in sorted(asked.links))
    return template(title, made, bonds, sites, links)


def template(
    title: str, atoms: Iterable[Atom], bonds: Iterable[Bond], sites: Iterable[Site] = (), links: Iterable[Link] = (), name: str = ""
) -> Template:
    """A template of its parts, with its `smiles` made of them."""
    made = Template(title, tuple(atoms), tuple(bonds), tuple(sites), tuple(links), "", name)
    return Template(title, made.atoms, made.bonds, made.sites, made.links, spell(made), name)


# ---- ranges, members, slots


def is_range(text: str) -> bool:
    """Whether a text is a range text (docs/FORMAT.md, "Range texts")."""
    if not text.strip(" "):
        return True
    for item in text.split(","):
        read = ITEM.fullmatch(item)
        if not read or (read[1] and read[3]) or (read[3] and int(read[2]) > int(read[3])):
            return False
    return True


def is_in_range(text: str, number: int) -> bool:
    """Whether a range text holds a number; blanks alone hold those above 0.

    >>> [number for number in range(8) if is_in_range("0, 2-3,>5", number)]
    [0, 2, 3, 6, 7]
    """
    for item in (text if text.strip(" ") else ">0").split(","):
        read = ITEM.fullmatch(item)
        if read is None:
            raise ValueError(f"no range text: {text!r}")
        value = int(read[2])
        least, most = {">": (value + 1, MOST), "<": (0, value - 1)}.get(read[1] or "", (value, int(read[3] or value)))
        if least <= number <= most:
            return True
    return False


def members_at(query: Query, groups: Iterable[int]) -> list[tuple[int, int, Template]]:
    """The members that may stand at a site of these groups, in the order in which codes count them: label, number in its group, template.

    A number k of a choice at the site is the k-th of them; the number behind the last leaves the site unfilled.
    """
    wanted = set(groups)
    return [
        (group.label, number, member) for group in query.groups if group.label in wanted for number, member in enumerate(group.members, 1)
    ]


def slots_of(part: Template) -> list[Site | Link]:
    """The sites and links of a template by rising atom, as a choice decides them."""
    return sorted([*part.sites, *part.links], key=lambda slot: slot.atom)


def block_of(part: Template, link: Link) -> set[int]:
    """The atoms of a link's block: what hangs together with it once its bonds to its two neighbours are taken away."""
    near: dict[int, list[int]] = {}
    for bond in part.bonds:
        near.setdefault(bond.first, []).append(bond.second)
        near.setdefault(bond.second, []).append(bond.first)
    held, todo = {link.atom}, [link.atom]
    while todo:
        atom = todo.pop()
        for other in near.get(atom, []):
            if other not in held and not (atom == link.atom and other in (link.start, link.end)):
                held.add(other)
                todo.append(other)
    return held


# ---- counting


def code_count(query: Query) -> int:
    """How many structural codes a query has, before its logic is asked: an exact number of any size.

    Raises
    ------
    Refused : a member stands in itself, so that there is no number.
    """
    known: dict[int, int] = {}

    def count(part: Template, inside: frozenset[int]) -> int:
        if id(part) in inside:
            raise Refused(f"the member {part.smiles} stands in itself; label its site otherwise")
        if id(part) not in known:
            total = 1
            for slot in slots_of(part):
                if isinstance(slot, Link):
                    total *= slot.most
                else:
                    total *= 1 + sum(count(member, inside | {id(part)}) for _, _, member in members_at(query, slot.groups))
            known[id(part)] = total
        return known[id(part)]

    return count(query.root, frozenset())


# how many sites of each group are filled, for each group that has a site: pairs of group and number, by rising group
_Filled = tuple[tuple[int, int], ...]


def valid_code_count(query: Query) -> int | None:
    """How many of the codes are valid by the logic; None where more than 100,000 distributions of filled sites would have to be held.

    Raises
    ------
    Refused : a member stands in itself.
    """
    code_count(query)
    known: dict[int, dict[_Filled, int]] = {}

    def joined(one: dict[_Filled, int], other: dict[_Filled, int]) -> dict[_Filled, int] | None:
        found: dict[_Filled, int] = {}
        for left, times in one.items():
            for right, more in other.items():
                both = dict(left)
                for group, number in right:
                    both[group] = both.get(group, 0) + number
                key = tuple(sorted(both.items()))
                found[key] = found.get(key, 0) + times * more
            if len(found) > MOST_KEYS:
                return None
        return found

    def ways(part: Template) -> dict[_Filled, int] | None:
        if id(part) in known:
            return known[id(part)]
        total: dict[_Filled, int] | None = {(): 1}
        for slot in slots_of(part):
            mine: dict[_Filled, int] = {}
            if isinstance(slot, Link):
                mine[()] = slot.most
            else:
                mine[tuple((group, 0) for group in sorted(slot.groups))] = 1
                for label, _, member in members_at(query, slot.groups):
                    inner = ways(member)
                    held = joined({tuple((group, int(group == label)) for group in sorted(slot.groups)): 1}, inner) if inner else None
                    if held is None:
                        return None
                    for key, times in held.items():
                        mine[key] = mine.get(key, 0) + times
            total = joined(total, mine) if total else None
            if total is None:
                return None
        assert total is not None
        known[id(part)] = total
        return total

    found = ways(query.root)
    return None if found is None else sum(times for key, times in found.items() if _is_valid(query, dict(key)))


def _is_valid(query: Query, filled: dict[int, int]) -> bool:
    asking: dict[int, list[int]] = {}
    for group in query.groups:
        if group.logic and group.logic.then:
            asking.setdefault(group.logic.then, []).append(group.label)
    for label, number in filled.items():
        held = query.group(label)
        if label in asking and not any(filled.get(other, 0) for other in asking[label]):
            continue
        if not is_in_range(held.logic.range if held and held.logic else "", number):
            return False
    return True


# ---- writing


def _pairs(word: str, entries: Sequence[tuple[int, int]]) -> Iterator[str]:
    most = 2 if word == "APO" else 8
    for at in range(0, len(entries), most):
        part = entries[at : at + most]
        yield f"M  {word}{len(part):3}" + "".join(f" {atom:3} {value:3}" for atom, value in part)


def write_table(part: Template, logic: Iterable[tuple[int, Logic]] = ()) -> str:
    """The lines of a connection table of V2000 up to its `M  END`. Entries of `M  ALS` are padded to four columns each."""
    return "\n".join([*_table_lines(part, logic), ""])


def _table_lines(part: Template, logic: Iterable[tuple[int, Logic]]) -> Iterator[str]:
    yield f"{len(part.atoms):3}{len(part.bonds):3}  0  0  0  0            999 V2000"
    for atom in part.atoms:
        hydrogens = 0 if atom.hydrogens is None else atom.hydrogens + 1
        yield f"{atom.x:10.4f}{atom.y:10.4f}{0:10.4f} {atom.symbol:3} 0  0  0{hydrogens:3}  0  0"
    for bond in part.bonds:
        yield f"{bond.first:3}{bond.second:3}{bond.type:3}  0" + (f"   {bond.topology:3}" if bond.topology else "")
    column = {None: 0, 0: -1}
    asked = {
        "CHG": [(atom.number, atom.charge) for atom in part.atoms if atom.charge],
        "RAD": [(atom.number, atom.radical) for atom in part.atoms if atom.radical],
        "SUB": [(atom.number, column.get(atom.substitution, atom.substitution or 0)) for atom in part.atoms if atom.substitution is not None],
        "RBC": [(atom.number, column.get(atom.ring_bonds, atom.ring_bonds or 0)) for atom in part.atoms if atom.ring_bonds is not None],
        "UNS": [(atom.number, 1) for atom in part.atoms if atom.unsaturated],
        "RGP": [(site.atom, label) for site in part.sites for label in site.groups],
        "APO": [(atom.number, atom.point) for atom in part.atoms if atom.point],
    }
    for word, entries in asked.items():
        yield from _pairs(word, entries)
    for link in part.links:
        yield f"M  LIN  1 {link.atom:3} {link.most:3} {link.start:3} {link.end:3}"
    for atom in part.atoms:
        if atom.elements:
            yield f"M  ALS {atom.number:3}{len(atom.elements):3} {'T' if atom.is_not else 'F'} " + "".join(f"{it:4}" for it in atom.elements)
    for site in part.sites:
        if len(site.ends) == 2 and site.ends[0] > site.ends[1]:
            yield f"M  AAL {site.atom:3}  2 {site.ends[1]:3}   2 {site.ends[0]:3}   1"
    for label, said in sorted(logic, key=lambda item: item[0]):
        yield f"M  LOG  1 {label:3} {said.then:3} {int(said.rest):3} {said.range}".rstrip()
    yield "M  END"


def write_query(query: Query, program: str = "  markush", tables: Mapping[int, str] = MappingProxyType({})) -> str:
    """The text of an RGfile, with the groups in the order of the query.

    Read again it is the same query, but that titles of members aren't kept. `tables` may have the texts of members that are written
    already, as `write_table` gives them, by the `id` of each.
    """
    lines = ["$MDL  REV  1", "$MOL", "$HDR", query.title, program, "", "$END HDR", "$CTAB"]
    lines += _table_lines(query.root, [(group.label, group.logic) for group in query.groups if group.logic])
    lines.append("$END CTAB")
    for group in query.groups:
        if not group.members:
            continue
        lines += ["$RGP", f"{group.label:3}"]
        for member in group.members:
            lines += ["$CTAB", tables[id(member)][:-1] if id(member) in tables else "\n".join(_table_lines(member, ())), "$END CTAB"]
        lines.append("$END RGP")
    return "\n".join([*lines, "$END MOL", ""])

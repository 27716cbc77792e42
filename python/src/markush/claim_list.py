"""A claim as a list: a line for the root, for each member and for the logic, made into an RGfile.

The grammar stands in docs/DRAWING.md, "Without a drawing program". Nothing is dropped in silence: what the list says and no query asks
(stereochemistry, isotopes) is told as a warning `ClaimNote` with its line, and what isn't understood is refused with its line. RDKit is
needed for the coordinates, and for where the double bonds of aromatic rings stand.
"""
from __future__ import annotations

import re
import warnings
from collections.abc import Iterator
from dataclasses import dataclass, field, replace
from functools import lru_cache
from pathlib import Path

from .claim_smiles import Word, read_word
from .claim_words import CLASSES, DASHES, instead_of, members_of, range_instead_of
from .drawing import plain_smiles
from .errors import Refused
from .molecules import rdkit
from .rgfile import Atom, Bond, Group, Link, Logic, Query, Site, Template, block_of, is_range, template, write_query

__all__ = ["ClaimNote", "ListedClaim", "read_claim_list"]

MOST_MEMBERS = 4096
MOST_SIZE = 512
MOST_BONDS = 20
MOST_LINES = 100_000
# of an RGfile: docs/COMMANDS.md, "query"
MOST_BYTES = 4_194_304


class ClaimNote(UserWarning):
    """What a list says and the claim can't ask, or what may be meant otherwise, with its line."""


@dataclass(frozen=True)
class ListedClaim:
    """A claim that was read from a list.

    `rgfile` is the text of its RGfile, `names` has the name of a member by its group and its number there, from 1. `query` is the same as
    data, with these names. `notes` are the sentences that were told as warnings. `lines` says for each member, and for the root under
    (0, 0), where the list has it, as `line 7` or `members.txt, line 7`.
    """

    rgfile: str
    names: dict[tuple[int, int], str]
    title: str
    query: Query
    root_name: str = ""
    notes: tuple[str, ...] = ()
    lines: dict[tuple[int, int], str] = field(default_factory=dict)


@dataclass(frozen=True)
class _Line:
    """A line of a list that isn't blank: its number, the file that it stands in where that is included, and its text."""

    number: int
    file: str
    text: str
    folder: Path | None

    @property
    def place(self) -> str:
        return f"{self.file}, line {self.number}" if self.file else f"line {self.number}"

    def fault(self, why: str) -> Refused:
        return Refused(f"{self.place}: {why}", file=self.file or None, line=self.number)


@dataclass
class _Member:
    """A member or the root in the making."""

    line: _Line
    word: Word
    name: str
    made: Template
    # of each point, from 1: the atom that bears it, and the bond's type and topology where they are written
    points: list[tuple[int, int | None, int]] = field(default_factory=list)

    @property
    def said(self) -> str:
        return f"`{self.word.text}`"


@dataclass
class _Claim:
    """What the lines say so far."""

    title: str = ""
    root: tuple[_Line, str, str] | None = None
    members: dict[int, list[tuple[_Line, str, str]]] = field(default_factory=dict)
    logic: dict[int, tuple[_Line, Logic]] = field(default_factory=dict)
    closed: bool = False
    notes: list[str] = field(default_factory=list)


def read_claim_list(text: str, folder: Path | None = None, file: str = "") -> ListedClaim:
    """Reads the list of a claim.

    Parameters
    ----------
    text : the list, a line for each part.
    folder : where the files of `include` lines lie; without it they are refused.
    file : the list's own name, which stands in front of each warning.

    Raises
    ------
    Refused : a line isn't understood, or the claim isn't whole. `line` is the number of the list's line, from 1.
    MarkushError : there is no RDKit.

    Warns
    -----
    ClaimNote : what is taken otherwise than it may be meant, a warning each.

    >>> listed = read_claim_list("root c1ccccc1[R1]\\nR1 halogen\\nR1 *O[CH3] methoxy")
    >>> listed.names[1, 2], listed.query.root.smiles
    ('methoxy', 'c1ccccc1[R1]')
    """
    claim = _Claim()
    for line in _lines_of(text, "", folder, ()):
        _read_line(claim, line)
    if claim.root is None:
        raise Refused("the list has no root: write a line as `root c1ccccc1[R1]`", line=1)
    _check_count(claim)
    root = _member(claim, claim.root, 0)
    members = {label: [_member(claim, it, label) for it in claim.members[label]] for label in sorted(claim.members)}
    _check(claim, root, members)
    groups = [
        Group(label, tuple(it.made for it in held), claim.logic[label][1] if label in claim.logic else None) for label, held in members.items()
    ]
    groups += [Group(label, (), logic) for label, (_, logic) in sorted(claim.logic.items()) if label not in members]
    query = Query(claim.title, root.made, tuple(groups))
    rgfile = write_query(query, "  markush, from a list")
    _check_bytes(claim, rgfile)
    for note in claim.notes:
        warnings.warn(f"{file}: {note}" if file else note, ClaimNote, stacklevel=2)
    placed = [((label, n), it) for label, held in members.items() for n, it in enumerate(held, 1)]
    return ListedClaim(
        rgfile, {key: it.name for key, it in placed if it.name}, claim.title, query, root.name,
        tuple(claim.notes), {(0, 0): root.line.place, **{key: it.line.place for key, it in placed}},
    )


# ---- lines


def _lines_of(text: str, file: str, folder: Path | None, inside: tuple[Path, ...]) -> Iterator[_Line]:
    for number, held in enumerate(text.split("\n"), 1):
        line = _Line(number, file, held.rstrip("\r").strip().lstrip("\ufeff"), folder)
        if number > MOST_LINES:
            raise line.fault(f"a list has {MOST_LINES} lines at most")
        words = _words(line.text)
        if not words:
            continue
        if words[0] == "include":
            yield from _included(line, " ".join(words[1:]), inside)
        else:
            yield line


def _words(text: str) -> list[str]:
    """The words of a line before its comment; a title has none."""
    words = text.split()
    if words[:1] == ["title"]:
        return words
    end = next((at for at, word in enumerate(words) if word.startswith("#")), len(words))
    return words[:end]


def _included(line: _Line, name: str, inside: tuple[Path, ...]) -> Iterator[_Line]:
    if not name:
        raise line.fault("`include` names a file")
    if line.folder is None:
        raise line.fault("`include` needs to know where the list lies; read the list from a file")
    path = line.folder / name
    if path.resolve() in inside:
        raise line.fault(f"{name} includes itself")
    try:
        text = path.read_text(encoding="utf-8")
    except UnicodeDecodeError:
        raise line.fault(f"{name} isn't text of UTF-8") from None
    except OSError as fault:
        raise line.fault(f"{name} can't be read ({fault.strerror})") from None
    yield from _lines_of(text, name, path.parent, (*inside, path.resolve()))


def _read_line(claim: _Claim, line: _Line) -> None:
    words = _words(line.text)
    word = words[0]
    if word == "title":
        if claim.title:
            raise line.fault("a second title")
        claim.title = line.text.split(None, 1)[1] if len(words) > 1 else ""
    elif word == "root":
        if claim.root is not None:
            raise line.fault(f"a second root; the first stands in {claim.root[0].place}")
        if len(words) < 2:
            raise line.fault("`root` has a SMILES behind it")
        claim.root = line, words[1], _name(claim, line, words[2:])
    elif word == "closed":
        if len(words) > 1:
            raise line.fault("`closed` stands alone in its line")
        claim.closed = True
    elif word == "logic":
        _read_logic(claim, line, words)
    elif re.fullmatch(r"R[0-9]+", word):
        _read_member(claim, line, words)
    else:
        raise line.fault(f"`{word}` begins no line; these do: title, root, R1 to R32, logic, closed, include")


def _label(line: _Line, word: str) -> int:
    if not re.fullmatch(r"R[0-9]{1,9}", word) or not 1 <= int(word[1:]) <= 32:
        raise line.fault(f"`{word}` is no group; groups are R1 to R32")
    return int(word[1:])


def _name(claim: _Claim, line: _Line, words: list[str]) -> str:
    if words and words[0].startswith("|"):
        claim.notes.append(f"{line.place}: the text `{' '.join(words)}` behind the SMILES is left out, as what isn't asked for")
        return ""
    return " ".join(words)


def _read_member(claim: _Claim, line: _Line, words: list[str]) -> None:
    label = _label(line, words[0])
    if len(words) < 2:
        raise line.fault(f"a line of {words[0]} has a SMILES or a class behind it, as `{words[0]} alkyl 1-4`")
    held = claim.members.setdefault(label, [])
    word, rest = words[1], words[2:]
    if rest and rest[0] in CLASSES and re.match("C?[0-9]", word):
        raise line.fault(f"a class stands before its carbons: write `{words[0]} {rest[0]} {range_instead_of(word) or '1-4'}`")
    if word not in CLASSES:
        held.append((line, word, _name(claim, line, rest)))
        return
    first = last = 0
    if CLASSES[word].least:
        first, last = _carbons(line, word, rest)
        rest = rest[1:]
    elif rest and re.fullmatch(r"[0-9]+(-[0-9]+)?", rest[0]):
        raise line.fault(f"{word} takes no numbers of carbons")
    if rest and rest[0] in CLASSES and rest[0] != word:
        claim.notes.append(f"{line.place}: `{rest[0]}` is taken as a name, since a line has one class; write a second line of {words[0]} for another")
    try:
        made = members_of(word, first, last)
    except Refused as fault:
        raise line.fault(str(fault)) from None
    if not made:
        raise line.fault(f"{word} has no member of {first} to {last} carbons")
    name = _name(claim, line, rest)
    for smiles, short in made:
        own = short or plain_smiles(smiles)
        held.append((line, smiles, own if not name else name if len(made) == 1 else f"{name}: {own}"))


def _carbons(line: _Line, word: str, rest: list[str]) -> tuple[int, int]:
    """The range of carbons behind a class word: one word, and nothing behind it that goes on with it."""
    span = re.fullmatch(r"([0-9]{1,3})(?:-([0-9]{1,3}))?", rest[0]) if rest else None
    behind = DASHES.sub("-", rest[1]) if len(rest) > 1 else ""
    if span and not re.fullmatch(r"-+[0-9]*|[0-9]{1,3}|to|\.\.+[0-9]*", behind):
        return int(span[1]), int(span[2] or span[1])
    meant = range_instead_of(" ".join(rest))
    if span and not span[2]:
        why = "a range of carbons has no blanks" if not meant else f"a range of carbons has no blanks: write `{word} {meant}`"
        raise line.fault(f"{why}; here stands `{' '.join([word, *rest])}`")
    if span:
        raise line.fault(f"`{rest[1]}` isn't understood behind the range {rest[0]}; a name may stand there, which begins otherwise")
    if meant:
        raise line.fault(f"`{' '.join(rest)}` is no range of carbons: write `{word} {meant}`")
    raise line.fault(f"{word} takes its numbers of carbons, as `{CLASSES[word].example}`")


def _read_logic(claim: _Claim, line: _Line, words: list[str]) -> None:
    if len(words) < 3:
        raise line.fault("a line of logic is `logic R1 RANGE [rest] [then R2]`, as `logic R1 0-1 rest`")
    label, rest = _label(line, words[1]), words[3:]
    if label in claim.logic:
        raise line.fault(f"a second line of logic for R{label}; the first stands in {claim.logic[label][0].place}")
    end = next((at for at, word in enumerate(rest) if word in ("rest", "then")), len(rest))
    meant = DASHES.sub("-", "".join([words[2], *rest[:end]]))
    if meant != words[2] and is_range(meant):
        raise line.fault(f"the range `{' '.join([words[2], *rest[:end]])}` is one word: write `{meant}`")
    if not is_range(words[2]):
        raise line.fault(f"`{words[2]}` is no range: write 1, 0-1, >2 or 1,3-4, without blanks")
    is_rest = rest[:1] == ["rest"]
    rest = rest[1:] if is_rest else rest
    then = 0
    if len(rest) == 2 and rest[0] == "then":
        then, rest = _label(line, rest[1]), []
    if rest:
        raise line.fault(f"`{' '.join(rest)}` isn't understood behind the range, which has no blanks; there may stand `rest`, then `then R2`")
    claim.logic[label] = line, Logic(words[2], is_rest, then)


def _check_count(claim: _Claim) -> None:
    total = sum(map(len, claim.members.values()))
    if total > MOST_MEMBERS:
        raise _last_of_most(claim).fault(f"the claim has {total:,} members, and {MOST_MEMBERS:,} are the most: {_counts(claim)}")


def _check_bytes(claim: _Claim, rgfile: str) -> None:
    size = len(rgfile.encode("utf-8", "surrogateescape"))
    if size > MOST_BYTES:
        raise _last_of_most(claim).fault(
            f"the claim has {size:,} bytes as an RGfile, and {MOST_BYTES:,} are the most; write fewer members, or smaller ones: {_counts(claim)}"
        )


def _counts(claim: _Claim) -> str:
    return ", ".join(f"R{label} {len(held):,}" for label, held in sorted(claim.members.items()))


def _last_of_most(claim: _Claim) -> _Line:
    """The line of the last member of the group that has the most."""
    return max(claim.members.values(), key=len)[-1][0]


# ---- one word


@lru_cache(maxsize=20_000)
def _drawn(plain: str) -> tuple[tuple[tuple[float, float], ...], dict[tuple[int, int], int]] | str:
    """By RDKit: where the atoms lie, and the orders of bonds by their ends, lower first; or why it doesn't read the SMILES."""
    chem = rdkit("a list of a claim")
    from rdkit import rdBase
    from rdkit.Chem import rdDepictor

    params = chem.SmilesParserParams()
    params.removeHs = False
    with rdBase.BlockLogs():
        whole = chem.MolFromSmiles(plain, params)
        params.sanitize = False
        mol = chem.MolFromSmiles(plain, params)
        if mol is None:
            return "it is no SMILES"
        mol.UpdatePropertyCache(False)
        if whole is None:
            return "; ".join(it.Message() for it in chem.DetectChemistryProblems(mol)) or "it is no molecule"
        chem.Kekulize(mol, clearAromaticFlags=True)
        rdDepictor.Compute2DCoords(whole)
    places = whole.GetConformer()
    at = tuple((places.GetAtomPosition(n).x, places.GetAtomPosition(n).y) for n in range(whole.GetNumAtoms()))
    kinds = {chem.BondType.SINGLE: 1, chem.BondType.DOUBLE: 2, chem.BondType.TRIPLE: 3}
    orders = {}
    for bond in mol.GetBonds():
        a, b = bond.GetBeginAtomIdx(), bond.GetEndAtomIdx()
        orders[min(a, b), max(a, b)] = kinds.get(bond.GetBondType(), 1)
    return at, orders


def _member(claim: _Claim, said: tuple[_Line, str, str], label: int) -> _Member:
    """The template of a word of the list; label is 0 for the root."""
    line, text, name = said
    try:
        word = read_word(text)
    except Refused as fault:
        instead = instead_of(text) if label else ""
        raise line.fault(f"`{text}` is no SMILES of a list, and no class word: {instead}" if instead else str(fault)) from None
    for note in word.notes:
        claim.notes.append(f"{line.place}: {note}")
    kinds = [_kind(claim, line, word, atom, label) for atom in range(len(word.atoms))]
    points = [atom for atom, kind in enumerate(kinds) if kind == "point"]
    member = _Member(line, word, name, Template("", (), (), (), ()))
    _check_points(line, word, kinds, points, label)
    drawn = _drawn(word.plain)
    if isinstance(drawn, str):
        raise line.fault(f"RDKit doesn't read {text}: {_named_atoms(drawn, word)}")
    places, orders = drawn
    number = {atom: place for place, atom in enumerate((atom for atom in range(len(word.atoms)) if kinds[atom] != "point"), 1)}
    if len(number) > 999:
        raise line.fault(f"{len(number)} atoms; 999 are the most")
    borne: dict[int, int] = {}
    bonds = []
    for bond in word.bonds:
        ends = [bond.first, bond.second]
        point = next((atom for atom in ends if kinds[atom] == "point"), None)
        if point is not None:
            continue
        kind = bond.type if bond.type is not None else orders[min(ends), max(ends)]
        both_lower = word.atoms[bond.first].is_lower and word.atoms[bond.second].is_lower
        if bond.type == 4 and both_lower:
            kind = orders[min(ends), max(ends)]
        bonds.append(Bond(number[bond.first], number[bond.second], kind, bond.topology))
    for value, point in enumerate(points, 1):
        bond = next(it for it in word.bonds if point in (it.first, it.second))
        bearer = number[bond.first + bond.second - point]
        borne[bearer] = borne.get(bearer, 0) + value
        member.points.append((bearer, bond.type, bond.topology))
    atoms = []
    for atom, place in number.items():
        it = word.atoms[atom]
        is_site = kinds[atom] == "site"
        substitution = it.substitution
        if claim.closed and substitution is None and not is_site and it.symbol not in ("H", "D", "T"):
            substitution = -2
        atoms.append(
            Atom(
                place, "R#" if is_site else it.symbol, it.charge, it.hydrogens, it.elements, it.is_not, substitution, it.ring_bonds,
                it.unsaturated, borne.get(place, 0), round(places[atom][0], 4) + 0.0, round(places[atom][1], 4) + 0.0,
            )
        )
    sites = [
        Site(place, word.atoms[atom].groups, tuple(sorted(number[it] for it in word.near[atom] if it in number)))
        for atom, place in number.items() if kinds[atom] == "site"
    ]
    links = [_link(line, word, atom, number) for atom in number if word.atoms[atom].most]
    member.made = template("" if label else claim.title, atoms, bonds, sites, links, name)
    _check_links(line, word, member.made, number)
    crowded = next((atom for atom in range(len(word.atoms)) if len(word.near[atom]) > MOST_BONDS), None)
    if crowded is not None:
        raise line.fault(f"{word.called(crowded)} has over {MOST_BONDS} bonds")
    return member


def _named_atoms(message: str, word: Word) -> str:
    """RDKit's words, with its atoms as the list has them."""
    def named(found: re.Match[str]) -> str:
        atom = int(found[1])
        return word.called(atom) if atom < len(word.atoms) else found[0]

    return re.sub(r"atom #? ?([0-9]+)(?: [A-Z][a-z]?)?", named, message)


def _kind(claim: _Claim, line: _Line, word: Word, atom: int, label: int) -> str:
    it = word.atoms[atom]
    bonds = len(word.near[atom])
    if it.kind == "mapped":
        if label and bonds == 1:
            return "point"
        if bonds == 2:
            group = it.groups[0]
            claim.notes.append(
                f"{line.place}: {word.called(atom)} is a site of R{group}; a link of up to {group} any atoms is written [A:{group}] or [any:{group}]"
                if group > 1 else f"{line.place}: {word.called(atom)} is a site of R{group}"
            )
        return "site"
    return it.kind


def _check_points(line: _Line, word: Word, kinds: list[str], points: list[int], label: int) -> None:
    if points and not label:
        raise line.fault(f"{word.called(points[0])} is an attachment point, which stands in a member only; a site is [R1]")
    if label and not points:
        raise line.fault(f"a member of R{label} has no attachment point; write * where it is joined on, as *{word.text}")
    if len(points) > 2:
        why = "; in a member a [*:n] of one bond is a point, and a site is [R1]" if any(word.atoms[it].kind == "mapped" for it in points) else ""
        raise line.fault(f"a member of R{label} has {len(points)} attachment points, and one or two may stand{why}")
    for point in points:
        near = word.near[point]
        if len(near) != 1:
            raise line.fault(f"the attachment point {word.called(point)} has {len(near)} bonds, and one joins it to its atom")
        bearer = word.atoms[near[0]]
        if kinds[near[0]] in ("point", "site") or bearer.most:
            raise line.fault(f"the attachment point {word.called(point)} is at {word.called(near[0])}; it is at an atom that is no site, link or point")
    for atom, kind in enumerate(kinds):
        if kind != "site":
            continue
        if len(word.near[atom]) not in (1, 2):
            raise line.fault(f"the site {word.called(atom)} has {len(word.near[atom])} neighbours, and one or two may stand")
        other = next((it for it in word.near[atom] if kinds[it] == "site"), None)
        if other is not None:
            raise line.fault(f"the sites {word.called(atom)} and {word.called(other)} are bonded; an atom stands between them")


def _link(line: _Line, word: Word, atom: int, number: dict[int, int]) -> Link:
    near = [number[it] for it in word.near[atom] if it in number]
    if len(near) < 2:
        raise line.fault(f"the link {word.called(atom)} has {len(near)} neighbour{'' if len(near) == 1 else 's'}, and it stands between two")
    return Link(number[atom], word.atoms[atom].most, near[0], near[-1])


def _check_links(line: _Line, word: Word, made: Template, number: dict[int, int]) -> None:
    back = {place: atom for atom, place in number.items()}
    for link in made.links:
        called = word.called(back[link.atom])
        kinds = [(it.type, it.topology) for it in made.bonds if {it.first, it.second} in ({link.atom, link.start}, {link.atom, link.end})]
        if len(set(kinds)) != 1:
            raise line.fault(f"the two bonds of the link {called} differ; they have to be alike")
        block = block_of(made, link)
        held = {link.start, link.end} & block
        if held:
            raise line.fault(f"the link {called} is passed by another way to {word.called(back[min(held)])}; what is repeated may not hold it")
        bad = [n for n in sorted(block - {link.atom}) if made.atoms[n - 1].symbol == "R#" or word.atoms[back[n]].most]
        bad += [n for n in sorted(block) if made.atoms[n - 1].point]
        if bad:
            raise line.fault(f"the link {called} repeats {word.called(back[bad[0]])}, and a site, another link or a point can't be repeated")


# ---- the claim as a whole


def _check(claim: _Claim, root: _Member, members: dict[int, list[_Member]]) -> None:
    used: set[int] = set()
    everyone = [(0, root), *((label, it) for label, held in members.items() for it in held)]
    for label, member in everyone:
        for site in member.made.sites:
            used.update(site.groups)
            for group in site.groups:
                if group not in members:
                    raise member.line.fault(f"a site of R{group}, and no line gives R{group} a member")
                for other in members[group]:
                    _check_joint(member, site, group, other)
    _check_cycles(root, members)
    size = _size(root.made, members, {})
    if size > MOST_SIZE:
        raise root.line.fault(f"the claim may have up to {size} atoms and choices in one structure, and {MOST_SIZE} are the most; make members or links smaller")
    for group in sorted(set(members) - used):
        claim.notes.append(f"{members[group][0].line.place}: R{group} has members, and no site bears it, so they play no part")
    for label, (line, logic) in sorted(claim.logic.items()):
        if label not in members:
            claim.notes.append(f"{line.place}: logic for R{label}, which no site bears")
        elif logic.rest and any([atom.symbol for atom in it.made.atoms] in (["H"], ["D"], ["T"]) for it in members[label]):
            claim.notes.append(f"{line.place}: R{label} has H as a member and `rest`, so its hydrogen is said twice: as filled and as unfilled")
        if logic.then and logic.then not in members:
            claim.notes.append(f"{line.place}: then R{logic.then}, which has no member")


def _check_joint(holder: _Member, site: Site, group: int, member: _Member) -> None:
    """Whether a member has as many points as its site has neighbours, and bonds there as the site's."""
    if len(member.points) != len(site.ends):
        have = "one attachment point" if len(member.points) == 1 else "two attachment points"
        stands = "one neighbour" if len(site.ends) == 1 else "two neighbours"
        raise member.line.fault(f"{member.said} of R{group} has {have}, and the site of {holder.line.place} has {stands}")
    for end, (_, kind, topology) in zip(site.ends, member.points):
        if kind is None and not topology:
            continue
        bond = next(it for it in holder.made.bonds if {it.first, it.second} == {site.atom, end})
        if (kind if kind is not None else bond.type, topology) != (bond.type, bond.topology):
            raise member.line.fault(
                f"{member.said} of R{group} is drawn with another bond at its point than the site of {holder.line.place} has; the site's holds, so "
                f"write the member without one"
            )


def _check_cycles(root: _Member, members: dict[int, list[_Member]]) -> None:
    done: set[int] = set()

    def visit(member: _Member, inside: tuple[int, ...]) -> None:
        if id(member) in inside:
            raise member.line.fault(f"{member.said} stands in itself by way of its sites; label one otherwise")
        if id(member) in done:
            return
        for site in member.made.sites:
            for group in site.groups:
                for other in members[group]:
                    visit(other, (*inside, id(member)))
        done.add(id(member))

    for member in [root, *(it for held in members.values() for it in held)]:
        visit(member, ())


def _size(made: Template, members: dict[int, list[_Member]], known: dict[int, int]) -> int:
    """docs/MEANING.md, "Sizes"."""
    if id(made) not in known:
        blocks = {link.atom: block_of(made, link) for link in made.links}
        repeated = set().union(*blocks.values()) if blocks else set()
        size = len(made.atoms) - len(repeated) + len(made.links)
        size += sum(link.most * len(blocks[link.atom]) for link in made.links)
        for site in made.sites:
            inner = [_size(it.made, members, known) for group in site.groups for it in members[group]]
            size += max([len(site.ends), *inner])
        known[id(made)] = size
    return known[id(made)]


def with_names(query: Query, names: dict[tuple[int, int], str]) -> Query:
    """A query whose members bear these names, by group and number."""
    groups = tuple(
        replace(group, members=tuple(replace(it, name=names.get((group.label, n), "")) for n, it in enumerate(group.members, 1)))
        for group in query.groups
    )
    return replace(query, groups=groups)

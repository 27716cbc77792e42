"""The tokenizer of a claim's list: a word as `[1*]c1ccc([N,O;H1])cc1` as atoms that ask and bonds with types.

The grammar is that of docs/DRAWING.md, "The words of a list". No RDKit is taken here; `plain` is the SMILES that RDKit may read.
"""
from __future__ import annotations

import re
from dataclasses import dataclass, field

from .errors import Refused
from .rgfile import ELEMENTS

__all__ = ["AtomWord", "BondWord", "Word", "read_word"]

KNOWN = frozenset(ELEMENTS) | {"D", "T"}
LOWER = {"b": "B", "c": "C", "n": "N", "o": "O", "p": "P", "s": "S", "se": "Se", "as": "As", "te": "Te", "si": "Si"}
BARE = re.compile(r"Cl|Br|[BCNOPSFI]|[bcnops]")
SITE = re.compile(r"R([0-9]+)(?:,R([0-9]+))*")
ATOM = re.compile(r"([0-9]*)([A-Z][a-z]?|[a-z][a-z]?)(@{1,2}(?:[A-Z]{2}[0-9]+)?)?(H[0-9]?)?(\+\+*|--*|[+-][0-9]{1,2})?")
BOND = re.compile(r"(-,=|=,-|-,:|:,-|=,:|:,=|->|<-|[-=#:~/\\$])?(;!?@)?")
TYPES = {"-": 1, "=": 2, "#": 3, ":": 4, "-,=": 5, "=,-": 5, "-,:": 6, ":,-": 6, "=,:": 7, ":,=": 7, "~": 8}
RING = re.compile(r"%\(([0-9]{1,5})\)|%([0-9]{2})|([0-9])")
PLAIN_BONDS = {1: "-", 2: "=", 3: "#", 4: "~", 5: "-", 6: "-", 7: "-", 8: "~"}
LONGEST_LIST = 16


@dataclass(frozen=True)
class AtomWord:
    """What one atom of a word says.

    `kind` is `atom`, `site`, `point`, or `mapped` for `[*:n]`, which is a site in a root, and in a member the point where it has one bond.
    """

    text: str
    kind: str = "atom"
    symbol: str = ""
    is_lower: bool = False
    elements: tuple[str, ...] = ()
    is_not: bool = False
    hydrogens: int | None = None
    charge: int = 0
    substitution: int | None = None
    ring_bonds: int | None = None
    unsaturated: bool = False
    groups: tuple[int, ...] = ()
    most: int = 0

    @property
    def plain(self) -> str:
        """The atom as RDKit may read it."""
        if self.kind != "atom":
            return f"[{self.groups[0]}*]" if self.groups else "*"
        if self.elements or self.symbol in ("A", "Q", "*"):
            return "*"
        symbol = {"D": "H", "T": "H"}.get(self.symbol, self.symbol)
        symbol = symbol.lower() if self.is_lower else symbol
        if not self.text.startswith("["):
            return symbol
        hydrogens = f"H{self.hydrogens}" if self.hydrogens and symbol != "H" else ""
        return f"[{symbol}{hydrogens}{self.charge:+d}]" if self.charge else f"[{symbol}{hydrogens}]"


@dataclass(frozen=True)
class BondWord:
    """A bond between two atoms of a word, counted from 0. `type` is None where none is written."""

    first: int
    second: int
    type: int | None
    topology: int


@dataclass
class Word:
    """A word as its atoms and bonds in the order of the text; `near` has the neighbours of each atom in that order, `plain` is for RDKit."""

    text: str
    atoms: list[AtomWord] = field(default_factory=list)
    bonds: list[BondWord] = field(default_factory=list)
    near: list[list[int]] = field(default_factory=list)
    notes: list[str] = field(default_factory=list)
    plain: str = ""

    def called(self, atom: int) -> str:
        """An atom as messages name it."""
        return f"atom {atom + 1} `{self.atoms[atom].text}`"


def read_word(text: str) -> Word:
    """Reads a SMILES word of a claim's list.

    Raises
    ------
    Refused : the word isn't of the grammar; the message names the atom. The line is known to who reads lines.

    >>> word = read_word("[1*]c1cc[n;H0]cc1")
    >>> [atom.kind for atom in word.atoms][:2], word.atoms[4].hydrogens, word.plain
    (['site', 'atom'], 0, '[1*]c1cc[n]cc1')
    """
    return _Reader(text).read()


@dataclass
class _Open:
    """A ring that is open: its atom, the bond at it, and the place among that atom's neighbours."""

    atom: int
    type: int | None
    topology: int
    is_written: bool
    place: int


class _Reader:
    def __init__(self, text: str) -> None:
        self.text, self.at = text, 0
        self.word = Word(text)
        self.before: int | None = None
        self.stack: list[int | None] = []
        self.opened: list[int] = []
        self.rings: dict[str, _Open] = {}
        self.bond: tuple[int | None, int, str] | None = None
        self.plain: list[str] = []

    def fault(self, why: str) -> Refused:
        return Refused(f"{why}; in {self.text!r}, behind {self.text[: self.at]!r}" if self.at else f"{why}; in {self.text!r}")

    def read(self) -> Word:
        while self.at < len(self.text):
            self._step()
        if self.bond:
            raise self.fault("a bond leads to nothing")
        if self.stack:
            raise self.fault("a branch isn't closed: `)` is missing")
        if self.rings:
            digit, ring = next(iter(self.rings.items()))
            raise self.fault(f"the ring {digit} isn't closed: it opens at {self.word.called(ring.atom)}")
        if not self.word.atoms:
            raise self.fault("the word has no atom")
        self.word.plain = "".join(self.plain)
        return self.word

    def _step(self) -> None:
        letter = self.text[self.at]
        if letter == "(":
            if self.before is None or self.bond:
                raise self.fault("a branch stands behind an atom")
            self.stack.append(self.before)
            self.opened.append(len(self.word.atoms))
            self._pass(1, "(")
        elif letter == ")":
            if not self.stack or self.bond:
                raise self.fault("`)` closes no branch" if not self.bond else "a bond leads to nothing")
            if self.opened.pop() == len(self.word.atoms):
                raise self.fault("a branch has no atom")
            self.before = self.stack.pop()
            self._pass(1, ")")
        elif letter == ".":
            if self.before is None or self.bond or self.stack:
                raise self.fault("`.` stands between two whole pieces")
            self.word.notes.append(f"atom {len(self.word.atoms) + 1} stands behind `.`: its piece hangs on nothing, and may lie anywhere in a compound")
            self.before = None
            self._pass(1, ".")
        elif letter == "[":
            end = self.text.find("]", self.at)
            if end < 0:
                raise self.fault("`[` isn't closed")
            self._atom(self._bracket(self.text[self.at + 1 : end]), end + 1 - self.at)
        elif letter == "*":
            self._atom(AtomWord("*", "point"), 1)
        elif BARE.match(self.text, self.at):
            found = BARE.match(self.text, self.at)
            assert found is not None
            symbol = found[0]
            self._atom(AtomWord(symbol, symbol=LOWER.get(symbol, symbol), is_lower=symbol in LOWER), len(symbol))
        elif RING.match(self.text, self.at):
            self._ring()
        else:
            self._bond()

    def _pass(self, count: int, plain: str) -> None:
        self.at += count
        self.plain.append(plain)

    def _bond(self) -> None:
        found = BOND.match(self.text, self.at)
        if found is None or not found[0]:
            rest = self.text[self.at :]
            if rest[0] == "@":
                raise self.fault("a bond's ring is asked for by `;@` behind the bond, or alone")
            if re.match(r"R[0-9]", rest):
                raise self.fault("a site stands in brackets: [R1]")
            if rest[0] in "AQ":
                raise self.fault(f"`{rest[0]}` stands in brackets: [{rest[0]}]")
            raise self.fault(f"`{rest[0]}` is no atom, bond, branch or ring of a list")
        if self.before is None:
            raise self.fault("a bond stands behind an atom")
        if self.bond:
            raise self.fault("two bonds stand side by side")
        written, topology = found[1], {";@": 1, ";!@": 2}.get(found[2] or "", 0)
        if written == "$":
            raise self.fault("a quadruple bond can't be asked for; write ~ for any")
        if written in ("->", "<-"):
            raise self.fault("a dative bond can't be asked for; write - for a single bond")
        if written in ("/", "\\"):
            self.word.notes.append(f"the bond `{written}` at {self.word.called(self.before)} is taken as a single one: stereochemistry isn't asked for")
        self.bond = TYPES.get(written or ""), topology, found[0]
        self.at += len(found[0])

    def _plain_bond(self, kind: int | None, first: AtomWord, second: AtomWord) -> str:
        if kind is None:
            return ""
        if first.is_lower and second.is_lower and kind in (4, 6, 7, 8):
            return ""
        return PLAIN_BONDS[kind]

    def _join(self, first: int, second: int, kind: int | None, topology: int) -> None:
        if first == second:
            raise self.fault(f"{self.word.called(first)} is bonded to itself")
        if any({it.first, it.second} == {first, second} for it in self.word.bonds):
            raise self.fault(f"{self.word.called(first)} and {self.word.called(second)} are bonded twice")
        self.word.bonds.append(BondWord(first, second, kind, topology))

    def _atom(self, atom: AtomWord, size: int) -> None:
        number = len(self.word.atoms)
        self.word.atoms.append(atom)
        self.word.near.append([])
        text = ""
        if self.before is not None:
            kind, topology, _ = self.bond or (None, 0, "")
            self._join(self.before, number, kind, topology)
            self.word.near[self.before].append(number)
            self.word.near[number].append(self.before)
            text = self._plain_bond(kind, self.word.atoms[self.before], atom)
        self.before, self.bond = number, None
        self._pass(size, text + atom.plain)

    def _ring(self) -> None:
        found = RING.match(self.text, self.at)
        assert found is not None
        digit = str(int(found[1] or found[2] or found[3]))
        if self.before is None:
            raise self.fault("a ring's number stands behind an atom")
        kind, topology, written = self.bond or (None, 0, "")
        self.bond = None
        if digit not in self.rings:
            self.rings[digit] = _Open(self.before, kind, topology, bool(written), len(self.word.near[self.before]))
            self.word.near[self.before].append(-1)
            self._pass(len(found[0]), found[0])
            return
        ring = self.rings.pop(digit)
        if ring.is_written and written and (ring.type, ring.topology) != (kind, topology):
            raise self.fault(f"the ring {digit} opens with another bond than it closes with; write it once, or both alike")
        if not written:
            kind, topology = ring.type, ring.topology
        self._join(ring.atom, self.before, kind, topology)
        self.word.near[ring.atom][ring.place] = self.before
        self.word.near[self.before].append(ring.atom)
        self._pass(len(found[0]), self._plain_bond(kind, self.word.atoms[ring.atom], self.word.atoms[self.before]) + found[0])

    # ---- what stands in brackets

    def _bracket(self, inner: str) -> AtomWord:
        text = f"[{inner}]"
        called = f"atom {len(self.word.atoms) + 1} `{text}`"
        if not inner.strip() or inner != inner.strip():
            raise self.fault(f"{called} is empty or has a blank")
        if inner == "*":
            return AtomWord(text, "point")
        mapped = re.fullmatch(r"([0-9]*)\*(?::([0-9]+))?", inner)
        if mapped:
            if mapped[1] and mapped[2] and int(mapped[1]) != int(mapped[2]):
                raise self.fault(f"{called} says two groups; write [R{mapped[1]}]")
            label = self._label(int(mapped[1] or mapped[2]), called)
            return AtomWord(text, "site" if mapped[1] else "mapped", groups=(label,))
        if re.match(r"R[0-9]", inner):
            if not SITE.fullmatch(inner):
                raise self.fault(f"{called} is no site: a site is [R1] or [R1,R2], and asks for nothing")
            labels = [self._label(int(it[1:]), called) for it in inner.split(",")]
            if len(set(labels)) < len(labels):
                raise self.fault(f"{called} says one group twice")
            return AtomWord(text, "site", groups=tuple(sorted(labels)))
        if inner.startswith("*"):
            raise self.fault(f"{called} is no atom: write any for any atom, as [{inner.replace('*', 'any', 1)}]")
        return self._asking(text, inner, called)

    def _label(self, label: int, called: str) -> int:
        if not 1 <= label <= 32:
            raise self.fault(f"{called} says group {label}; groups are R1 to R32")
        return label

    def _asking(self, text: str, inner: str, called: str) -> AtomWord:
        body, colon, map_number = inner.partition(":")
        most = 0
        if colon:
            if not map_number.isdigit() or int(map_number) < 2 or int(map_number) > 999:
                raise self.fault(f"{called} is no link: a link says behind `:` how often it stands at most, 2 or more; atom maps aren't read")
            most = int(map_number)
        parts = body.split(";")
        found: dict[str, object] = {}
        if parts[0].startswith("!"):
            named = []
            while parts and parts[0].startswith("!"):
                if "," in parts[0]:
                    raise self.fault(
                        f"{called} is true of every atom, since none is {' and '.join(it.lstrip('!') for it in parts[0].split(','))} at once; "
                        f"write [{parts[0].replace(',', ';')}]"
                    )
                named.append(parts.pop(0)[1:])
            found.update(self._list(named, True, called))
        elif "," in parts[0]:
            found.update(self._list(parts.pop(0).split(","), False, called))
        elif parts[0] in ("A", "Q", "any"):
            found["symbol"] = {"any": "*"}.get(parts[0], parts[0])
            parts.pop(0)
        else:
            found.update(self._element(parts.pop(0), called))
        for part in parts:
            name, value = self._ask(part, called)
            if name in found and found[name] is not None:
                raise self.fault(f"{called} asks twice for its {name.replace('_', ' ')}")
            found[name] = value
        return AtomWord(text, most=most, **found)  # type: ignore[arg-type]

    def _list(self, named: list[str], is_not: bool, called: str) -> dict[str, object]:
        for name in named:
            if name.startswith("!"):
                raise self.fault(f"{called} has elements and none of elements in one list; write [N,O] or [!N;!O]")
            if LOWER.get(name, name) not in KNOWN:
                if re.match(r"[A-Za-z][a-z]?H[0-9]?$|[A-Za-z][a-z]?[+-]", name):
                    raise self.fault(f"{called}: a list has elements alone; hydrogens stand behind it, as [N,O;H1]")
                raise self.fault(f"{called} has {name!r} in its list, which is no element" if name else f"{called} has a list with nothing in it")
        lower = [name in LOWER for name in named]
        if any(lower) and not all(lower):
            raise self.fault(f"{called} has small letters and capitals in one list; write all alike")
        elements = tuple(LOWER.get(name, name) for name in named)
        if len(set(elements)) < len(elements):
            raise self.fault(f"{called} has an element twice in its list")
        if len(elements) > LONGEST_LIST:
            raise self.fault(f"{called} has {len(elements)} elements in its list; {LONGEST_LIST} are the most")
        return {"symbol": "L", "elements": elements, "is_not": is_not, "is_lower": all(lower)}

    def _element(self, said: str, called: str) -> dict[str, object]:
        found = ATOM.fullmatch(said)
        if not found or (found[2] not in KNOWN and found[2] not in LOWER):
            # `[nH]` as letters: n and H; `[Nh]` is an element of its own
            raise self.fault(f"{called} is no atom of a list: {_hint(said)}")
        mass, symbol, stereo, hydrogens, charge = found.groups()
        if mass or symbol in ("D", "T"):
            self.word.notes.append(f"{called} is taken without its mass: isotopes aren't asked for")
        if stereo:
            self.word.notes.append(f"{called} is taken without `{stereo}`: stereochemistry isn't asked for")
        made: dict[str, object] = {"symbol": LOWER.get(symbol, symbol), "is_lower": symbol in LOWER}
        if hydrogens:
            made["hydrogens"] = self._hydrogens(hydrogens[1:] or "1", called)
        if charge:
            size = int(charge[1:]) if charge[1:].isdigit() else len(charge)
            if size > 15:
                raise self.fault(f"{called} has a charge beyond 15")
            made["charge"] = size if charge[0] == "+" else -size
        return made

    def _hydrogens(self, number: str, called: str) -> int:
        if int(number) > 4:
            raise self.fault(f"{called} asks for {number} hydrogens; H4 is the most, and further ones are drawn as atoms")
        return int(number)

    def _ask(self, part: str, called: str) -> tuple[str, object]:
        if re.fullmatch(r"H[0-9]?", part):
            return "hydrogens", self._hydrogens(part[1:] or "1", called)
        if re.fullmatch(r"D[0-6s]", part):
            return "substitution", -2 if part == "Ds" else int(part[1:])
        if re.fullmatch(r"x[0234s]", part):
            return "ring_bonds", -2 if part == "xs" else int(part[1:])
        if part == "u":
            return "unsaturated", True
        if re.match(r"[RrX]", part):
            raise self.fault(f"{called} asks `{part}`, which a list hasn't; write x2 for two ring bonds, x0 for none")
        if part == "x1" or re.match(r"x[0-9]", part):
            raise self.fault(f"{called} asks `{part}`: ring bonds are x0, x2, x3, x4 for four or more, or xs as drawn")
        if re.match(r"D", part):
            raise self.fault(f"{called} asks `{part}`: neighbours are D0 to D5, D6 for six or more, or Ds as drawn")
        if part.startswith("!"):
            raise self.fault(f"{called} asks `{part}`: what isn't to be stands first, as [!N;!O;H1]")
        raise self.fault(f"{called} asks `{part}`; a list knows H0 to H4, D0 to D6, Ds, x0, x2, x3, x4, xs and u")


def _hint(said: str) -> str:
    if said.startswith("#"):
        return "write the symbol of the element"
    if said.startswith(("$", "&")) or "&" in said or "$" in said:
        return "SMARTS isn't read; write [N,O;H1;D2]"
    if re.fullmatch(r"(A|Q|any)(H[0-9]?)?([+-].*)?", said):
        return "what is asked of A, Q and any stands behind `;`, as [A;H1]"
    if said == "a":
        return "an aromatic atom is written as c, n, o or s"
    return f"{said!r} is none"

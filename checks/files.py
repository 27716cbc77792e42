"""Molfiles, SDfiles and RGfiles, by the columns of docs/FORMAT.md: the one writer of checks/ and bench/.

Functions give lines without their ends, and `text` joins them. Atoms count from 1. An atom is its symbol, or an `Atom` with its place and what
further columns hold. A bond is its two atoms, its type and what further columns hold; of two atoms alone it is a single one.

    table, short_table, table_v3000     a connection table to its `M  END`: as programs write it, with as little as is read, and as V3000
    entries, link, list_of, order, logic    property lines; and `old_list`, which stands before them
    sketch                              the table that a sketch draws
    molfile, record, sdfile, rgfile     whole files
"""
import re
from typing import NamedTuple

# what programs write behind the counts of atoms, bonds and lists
V2000 = "  0  0  0            999 V2000"
SPARSE = "     0  0            999 V2000"
PUBCHEM = "     0  0  0  0  0  0999 V2000"

# a table of no atom, in the least bytes
EMPTY = ["  0", "M  END"]

SIGNS = {"-": 1, "=": 2, "#": 3, ":": 4}


class Atom(NamedTuple):
    """A symbol; the columns from that of the charge on, three wide each (charge, parity, hydrogens, stereo care, valence); and a place."""

    symbol: str
    columns: tuple = (0,)
    place: tuple = (0, 0, 0)


def text(lines):
    return "".join(f"{line}\n" for line in lines)


# ---- tables


def atom_line(atom):
    symbol, columns, (x, y, z) = atom if isinstance(atom, Atom) else Atom(atom)
    return f"{x:10.4f}{y:10.4f}{z:10.4f} {symbol}{' ' * (3 - len(symbol.encode()))} 0" + "".join(f"{column:3}" for column in columns)


def bond_line(bond):
    return "".join(f"{number:3}" for number in (bond if len(bond) > 2 else (*bond, 1)))


def table(atoms, bonds=(), lines=(), lists=(), counts=V2000):
    """A table with the lines of atom lists, of properties, and what stands behind its counts."""
    head = f"{len(atoms):3}{len(bonds):3}{len(lists):3}{counts}"
    return [head, *map(atom_line, atoms), *map(bond_line, bonds), *lists, *lines, "M  END"]


def short_table(symbols, bonds=(), lines=()):
    """A table of counts, symbols in their columns and bonds."""
    return [f"{len(symbols):3}{len(bonds):3}", *(f"{'':31}{symbol}" for symbol in symbols), *map(bond_line, bonds), *lines, "M  END"]


def table_v3000(atoms, bonds, downwards=False):
    """A table of V3000, whose atoms have the numbers from 1 on, or from their count down to 1."""
    number = (lambda atom: len(atoms) + 1 - atom) if downwards else int
    made = ["  0  0  0     0  0            999 V3000", "M  V30 BEGIN CTAB", f"M  V30 COUNTS {len(atoms)} {len(bonds)} 0 0 0", "M  V30 BEGIN ATOM"]
    made += [f"M  V30 {number(n)} {atom.symbol} " + "".join(f"{x:.6f} " for x in atom.place) + "0" for n, atom in enumerate(atoms, 1)]
    made += ["M  V30 END ATOM", "M  V30 BEGIN BOND"]
    made += [f"M  V30 {n} {kind} {number(first)} {number(second)}" for n, (first, second, kind, *_) in enumerate(bonds, 1)]
    return [*made, "M  V30 END BOND", "M  V30 END CTAB", "M  END"]


def chain(*symbols):
    """The molfile of a chain of these atoms, as text."""
    return text(molfile(short_table(symbols, [(n, n + 1) for n in range(1, len(symbols))])))


# ---- property lines


def entries(word, pairs):
    """Lines of atoms with a value each, as many as go on a line."""
    pairs = list(pairs)
    for part in (pairs[at : at + 8] for at in range(0, len(pairs), 8)):
        yield f"M  {word}{len(part):3}" + "".join(f"{atom:4}{value:4}" for atom, value in part)


def link(atom, most, first, second):
    """A link between two neighbours."""
    return f"M  LIN  1{atom:4}{most:4}{first:4}{second:4}"


def list_of(atom, symbols, excluded=False):
    """An atom list."""
    return f"M  ALS{atom:4}{len(symbols):3} {'T' if excluded else 'F'} " + "".join(f"{symbol:<4}" for symbol in symbols)


def old_list(atom, numbers, excluded=False):
    """An atom list by atomic numbers, which stands before the property lines."""
    return f"{atom:3} {'T' if excluded else 'F'}    {len(numbers)}" + "".join(f" {number:3}" for number in numbers)


def order(site, neighbours):
    """The neighbours of a site with their places, by rising neighbour."""
    places = sorted((atom, place) for place, atom in enumerate(neighbours, 1))
    return f"M  AAL{site:4}{len(places):3}" + "".join(f"{atom:4}{place:4}" for atom, place in places)


def logic(group, sites, then=0, rest=False):
    """How many sites of a group are filled, of which group more is asked then, and whether the others have hydrogens."""
    return f"M  LOG  1{group:4}{then:4}{int(rest):4} {sites}".rstrip()


# ---- sketches


def three(number):
    """A number in three columns."""
    if not 0 <= int(number) <= 999:
        raise ValueError(f"a number of four digits: {number}")
    return f"{int(number):3}"


def sketch(drawn, valence=0):
    """The table of a sketch (docs/TESTING.md, "Tables of tests"), as `C O(c3) C | 1-2 2=3/1 {M  CHG  1   2   1}`, with one valence column for all
    atoms that name none. A bond may have any type too, as in `1~2(8)`."""
    read = re.fullmatch(r"([^|]*)\|([^{]*)((?:\{[^{}]*\}\s*)*)", drawn)
    if not read:
        raise ValueError(f"no sketch: {drawn}")
    atoms = [sketched_atom(word, valence) for word in read[1].split()]
    bonds = [sketched_bond(word) for word in read[2].split()]
    three(len(atoms)), three(len(bonds))
    return table(atoms, bonds, re.findall(r"\{(.*?)\}", read[3]))


def sketched_atom(word, valence):
    """An atom, as `C`, `N(c3)` or `C(c5)(v15)`."""
    read = re.fullmatch(r"([^(]+)((?:\([chv]\d+\))*)", word)
    if not read or len(read[1].encode()) > 3:
        raise ValueError(f"no atom: {word}")
    told = {"c": 0, "h": 0, "v": valence} | {letter: int(three(said)) for letter, said in re.findall(r"\((.)(\d+)\)", read[2])}
    return Atom(read[1], (told["c"], 0, told["h"], 0, told["v"]))


def sketched_bond(word):
    """A bond, as `1-2` or `1=2/1`, whose last number is its topology, or `1~2(8)` with its type behind it."""
    read = re.fullmatch(r"(\d+)(?:([-=#:])(\d+)|~(\d+)\((\d+)\))(?:/(\d+))?", word)
    if not read:
        raise ValueError(f"no bond: {word}")
    bond = (read[1], read[3] or read[4], SIGNS[read[2]] if read[2] else read[5], 0, 0, read[6] or 0)
    return tuple(int(three(number)) for number in bond)


# ---- files


def molfile(lines, name="", program="", comment=""):
    """A molfile of a table."""
    return [name, program, comment, *lines]


def record(lines, name="", program="", comment="", items=()):
    """A record of an SDfile: a table, and data items with their values."""
    data = [line for item, value in items for line in (f">  <{item}>", value, "")]
    return [name, program, comment, *lines, *data, "$$$$"]


def sdfile(molfiles):
    """The text of an SDfile of the texts of molfiles, without data."""
    return "".join(f"{one}$$$$\n" for one in molfiles)


def rgfile(root, groups, head="$MDL  REV  1", width=4):
    """An RGfile of the table of its root, and of groups with the tables of their members. Their numbers are at least so wide."""
    made = [head, "$MOL", "$HDR", "", "", "", "$END HDR", "$CTAB", *root, "$END CTAB"]
    for number, members in groups.items() if isinstance(groups, dict) else groups:
        made += ["$RGP", f"{number:>{width}}"]
        for member in members:
            made += ["$CTAB", *member, "$END CTAB"]
        made.append("$END RGP")
    return [*made, "$END MOL"]

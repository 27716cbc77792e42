"""The hits of the claims in examples/ by RDKit. checks/claims and the package's tests import it.

The codes, their logic and the expansions are made here, by docs/MEANING.md. RDKit reads the molecules, adds the hydrogens, marks aromatic rings
by rules of its own, and finds where elements and bonds of an expansion lie. What an atom asks besides, of hydrogens and of neighbours, is then
counted on RDKit's atoms, and of several orders of the hydrogens of one atom the first is left.

It knows what these claims draw and no more, and stops at anything else.
"""
import itertools
import sys

from rdkit import Chem, RDLogger
from rdkit.Chem.rdMolDescriptors import CalcMolFormula

RDLogger.DisableLog("rdApp.*")


class Template:
    """A table of a query file."""

    def __init__(self, lines):
        counts = next(lines)
        self.atoms, self.bonds, self.sites, self.links, self.points, self.logic = [], [], {}, {}, {}, {}
        for _ in range(int(counts[:3])):
            line = next(lines)
            self.atoms.append({"symbols": [line[31:34].strip()], "hydrogens": int(line[42:45]), "neighbours": 0, "charge": 0})
        for _ in range(int(counts[3:6])):
            line = next(lines)
            self.bonds.append((int(line[:3]) - 1, int(line[3:6]) - 1, int(line[6:9])))
        for line in iter(lambda: next(lines), "M  END"):
            self.read_property(line[3:6], line[6:].split(), line)

    def read_property(self, kind, words, line):
        if kind in ("RGP", "APO", "SUB", "CHG"):
            for atom, value in zip(map(int, words[1::2]), map(int, words[2::2])):
                if kind == "RGP":
                    self.sites[atom - 1] = value
                elif kind == "APO" and value == 1:
                    self.points[value] = atom - 1
                elif kind == "CHG":
                    self.atoms[atom - 1]["charge"] = value
                elif kind == "SUB" and value > 0:
                    self.atoms[atom - 1]["neighbours"] = value
                else:
                    sys.exit(f"checks/claims: this isn't known here: {line}")
        elif kind == "LIN" and words[0] == "1":
            atom, most, first, second = map(int, words[1:])
            self.links[atom - 1] = most, first - 1, second - 1
        elif kind == "ALS" and words[2] == "F":
            self.atoms[int(words[0]) - 1]["symbols"] = words[3:]
        elif kind == "LOG":
            least, _, most = words[4].partition("-")
            self.logic[int(words[1])] = int(words[2]), words[3] == "1", range(int(least), int(most or least) + 1)
        else:
            sys.exit(f"checks/claims: this isn't known here: {line}")

    def slots(self):
        return sorted([*self.sites, *self.links])

    def neighbours(self, atom):
        return sorted(sum(bond[:2]) - atom for bond in self.bonds if atom in bond[:2])


class Query:
    def __init__(self, path):
        lines = iter(path.read_text().splitlines())
        for line in lines:
            if line == "$END HDR" and next(lines) == "$CTAB":
                self.root, self.groups = Template(lines), {}
            elif line == "$RGP":
                members = self.groups[int(next(lines))] = []
                while next(lines) == "$CTAB":
                    members.append(Template(lines))
                    next(lines)

    def codes(self, template):
        """The structural codes, each with the sites that it leaves: pairs of a group and whether the site is filled."""
        choices = []
        for slot in template.slots():
            if slot in template.links:
                choices.append([((n,), ()) for n in range(1, template.links[slot][0] + 1)])
                continue
            group = template.sites[slot]
            filled = [
                ((k, *code), ((group, True), *sites))
                for k, member in enumerate(self.groups[group], 1)
                for code, sites in self.codes(member)
            ]
            choices.append([*filled, ((len(self.groups[group]) + 1,), ((group, False),))])
        for choice in itertools.product(*choices):
            yield tuple(sum((code for code, _ in choice), ())), tuple(sum((sites for _, sites in choice), ()))

    def is_valid(self, sites):
        filled = {group: sum(is_filled for at, is_filled in sites if at == group) for group, _ in sites}
        for group, count in filled.items():
            askers = [asker for asker, (then, _, _) in self.root.logic.items() if then == group]
            asked = not askers or any(filled.get(asker) for asker in askers)
            wanted = self.root.logic[group][2] if group in self.root.logic else range(1, 1000)
            if asked and count not in wanted:
                return False
        return True

    def expand(self, template, code):
        """The atoms and bonds that a template becomes by the front of a code, its first point, and the rest of the code."""
        chosen = {}
        for slot in template.slots():
            number, *code = code
            chosen[slot] = number
            if slot in template.sites and number <= len(self.groups[template.sites[slot]]):
                member = self.groups[template.sites[slot]][number - 1]
                *chosen[slot], code = self.expand(member, code)
        atoms, bonds, near, far = [], [], {}, {}
        for number, atom in enumerate(template.atoms):
            near[number] = far[number] = len(atoms)
            if number in template.links:
                atoms += [atom] * chosen[number]
                far[number] = len(atoms) - 1
                bonds += [(at, at + 1, 1) for at in range(near[number], far[number])]
            elif number not in template.sites:
                atoms.append(atom)
            elif isinstance(chosen[number], list):
                inner, inner_bonds, point = chosen[number]
                bonds += [(a + len(atoms), b + len(atoms), kind) for a, b, kind in inner_bonds]
                near[number] = far[number] = len(atoms) + point
                atoms += inner
            elif self.root.logic[template.sites[number]][1] and len(template.neighbours(number)) == 1:
                atoms.append({"symbols": ["H"], "hydrogens": 0, "neighbours": 0, "charge": 0})
            else:
                sys.exit("checks/claims: open sites without hydrogens aren't known here")
        for a, b, kind in template.bonds:
            ends = [far[x] if x in template.links and template.links[x][2] == y else near[x] for x, y in ((a, b), (b, a))]
            bonds.append((*ends, kind))
        return atoms, bonds, near[template.points[1]] if template.points else None, code


def aromatic(bonds):
    """The bonds of rings of six whose types are 1 and 2 in turn, or whose bonds are such already, as far as this goes on."""
    kinds = {frozenset(bond[:2]): bond[2] for bond in bonds}
    near = {}
    for a, b, _ in bonds:
        near.setdefault(a, set()).add(b)
        near.setdefault(b, set()).add(a)
    ways = [(a,) for a in near]
    for _ in range(5):
        ways = [(*way, b) for way in ways for b in near[way[-1]] if b not in way]
    rings = [[frozenset(pair) for pair in zip(way, way[1:] + way[:1])] for way in ways if way[0] in near[way[-1]]]
    found = set()
    while True:
        more = {pair for ring in rings if all(pair in found or kinds[pair] == kind for pair, kind in zip(ring, [1, 2] * 3)) for pair in ring}
        if more <= found:
            return found
        found |= more


def plain_part(atoms, bonds):
    """The expansion as a query of RDKit, elements, charges and bonds alone."""
    query = Chem.RWMol()
    for atom in atoms:
        numbers = [Chem.GetPeriodicTable().GetAtomicNumber(symbol) for symbol in atom["symbols"]]
        charge = f";{atom['charge']:+}" if atom["charge"] else ""
        query.AddAtom(Chem.AtomFromSmarts("[" + ",".join(f"#{number}" for number in numbers) + charge + "]"))
    ring = aromatic(bonds)
    for a, b, kind in bonds:
        count = query.AddBond(a, b, Chem.BondType.SINGLE)
        query.ReplaceBond(count - 1, Chem.BondFromSmarts(":" if frozenset((a, b)) in ring else {1: "-", 2: "=", 3: "#"}[kind]))
    return query.GetMol()


def fits(atoms, bonds, mol, found):
    """Whether what the atoms ask of hydrogens and neighbours is met."""
    for number, (atom, at) in enumerate(zip(atoms, found)):
        around = [other.GetAtomicNum() for other in mol.GetAtomWithIdx(at).GetNeighbors()]
        drawn = sum(atoms[a + b - number]["symbols"] == ["H"] for a, b, _ in bonds if number in (a, b))
        if atom["hydrogens"] == 1 or (atom["hydrogens"] and around.count(1) < drawn + atom["hydrogens"] - 1):
            return False
        if atom["neighbours"] and len(around) - around.count(1) != atom["neighbours"]:
            return False
    return True


def takes_hydrogens_once(atoms, bonds, mol, found):
    """Whether the hydrogens that are drawn on an atom, and ask for nothing else, lie on the first free ones of its image, in order."""
    for host, atom in enumerate(atoms):
        if atom["symbols"] == ["H"]:
            continue
        beside = sorted(a + b - host for a, b, kind in bonds if host in (a, b) and kind == 1)
        plain = {"symbols": ["H"], "hydrogens": 0, "neighbours": 0, "charge": 0}
        images = [found[at] for at in beside if atoms[at] == plain and sum(at in bond[:2] for bond in bonds) == 1]
        there = [other.GetIdx() for other in mol.GetAtomWithIdx(found[host]).GetNeighbors() if other.GetAtomicNum() == 1 and other.GetDegree() == 1]
        if images != sorted(images) or any(low < image and low not in found for image in images if image in there for low in there):
            return False
    return True


def hits(query, mols):
    expansions = []
    for code, sites in query.codes(query.root):
        if query.is_valid(sites):
            atoms, bonds, _, rest = query.expand(query.root, code)
            assert not rest
            expansions.append((code, atoms, bonds, plain_part(atoms, bonds)))
    for record, mol in enumerate(mols, 1):
        for code, atoms, bonds, plain in sorted(expansions, key=lambda it: it[0]):
            for found in sorted(mol.GetSubstructMatches(plain, uniquify=False, maxMatches=100_000)):
                if fits(atoms, bonds, mol, found) and takes_hydrogens_once(atoms, bonds, mol, found):
                    words = ["hit", record, "choice", *code, "map", *(at + 1 for at in found)]
                    yield " ".join(map(str, words))


def compounds(folder):
    """The molecules of the SDfile, compared with the list."""
    rows = [line.split("\t") for line in (folder / "compounds.smi").read_text().splitlines()]
    mols = list(Chem.SDMolSupplier(str(folder / "compounds.sdf")))
    for (smiles, name, formula), mol in itertools.zip_longest(rows, mols, fillvalue=None):
        same = Chem.MolToSmiles(Chem.MolFromSmiles(smiles)) == Chem.MolToSmiles(mol)
        if not same or mol.GetProp("_Name") != name or CalcMolFormula(mol) != formula:
            sys.exit(f"checks/claims: {folder.name}: {name} isn't what compounds.smi says")
    return [Chem.AddHs(mol) for mol in mols]

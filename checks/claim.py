"""Claims: templates, codes, logic and expansions, by docs/MEANING.md once more. A claim is drawn by chance, or read of sketches.

Nothing here is taken from the program. The scripts beside it import it.
"""
import copy
import itertools

import files
from rules import Asked, Graph, Table, asked_atoms, asked_lines

# beyond it no range text says a number
MOST = 999_999


def is_in_range(text, number):
    """Whether a range text holds a number (docs/FORMAT.md, "Range texts")."""
    for item in (text.replace(" ", "") or ">0").split(","):
        least, dash, most = item.partition("-")
        if item[0] in "<>":
            least, most = (int(item[1:]) + 1, MOST) if item[0] == ">" else (0, int(item[1:]) - 1)
        if int(least) <= number <= int(most if dash or item[0] in "<>" else least):
            return True
    return False


class Template:
    """Atoms that ask, bonds as first, second, type and topology, counted from 0; labels of sites and the order of their neighbours, links,
    and atoms of points."""

    def __init__(self):
        self.atoms, self.bonds, self.sites, self.orders, self.links, self.points = [], [], {}, {}, {}, []

    @classmethod
    def of_sketch(cls, drawn):
        made, table = cls(), Table(files.sketch(drawn))
        made.atoms = asked_atoms(table)
        made.bonds = [(first - 1, second - 1, kind, topology) for first, second, kind, topology in table.bonds]
        for site, label in table.entries("RGP"):
            made.sites.setdefault(site - 1, []).append(label)
        points = {}
        for atom, value in table.entries("APO"):
            points.update({point: atom - 1 for point in ((1, 2) if value == 3 else (value,))})
        made.points = [points[point] for point in sorted(points)]
        for line in table.properties:
            numbers = list(map(int, line[6:].split())) if line[:6] in ("M  LIN", "M  AAL") else []
            if line[:6] == "M  LIN":
                made.links.update({link - 1: (most, first - 1, second - 1) for link, most, first, second in zip(*[iter(numbers[1:])] * 4)})
            if line[:6] == "M  AAL":
                places = dict(zip(numbers[3::2], numbers[2::2]))
                made.orders[numbers[0] - 1] = [places[place] - 1 for place in sorted(places)]
        return made

    def add(self, symbol, *neighbours, kind=1):
        self.atoms.append(Asked(symbol))
        self.bonds += [(atom, len(self.atoms) - 1, kind, 0) for atom in neighbours]
        return len(self.atoms) - 1

    def near(self, atom):
        return sorted(a + b - atom for a, b, *_ in self.bonds if atom in (a, b))

    def order(self, site):
        return self.orders.get(site, self.near(site))

    def block(self, link):
        """What hangs together with a link once its bonds to its two neighbours are taken away."""
        seen, left = {link}, [link]
        while left:
            atom = left.pop()
            for other in self.near(atom):
                if other not in seen and not (atom == link and other in self.links[link][1:]):
                    seen.add(other)
                    left.append(other)
        return seen

    def counted_bonds(self):
        return [(first + 1, second + 1, kind, topology) for first, second, kind, topology in self.bonds]

    def graph(self):
        """What the table asks, where it has no slots."""
        return Graph(self.atoms, self.counted_bonds())

    def lines(self, lines=(), valences=()):
        more = []
        for site, labels in self.sites.items():
            more += files.entries("RGP", [(site + 1, label) for label in labels])
        more += [files.order(site + 1, [atom + 1 for atom in atoms]) for site, atoms in self.orders.items()]
        more += [files.link(atom + 1, most, first + 1, second + 1) for atom, (most, first, second) in self.links.items()]
        if len(self.points) == 2 and self.points[0] == self.points[1]:
            more += files.entries("APO", [(self.points[0] + 1, 3)])
        else:
            more += files.entries("APO", [(atom + 1, point) for point, atom in enumerate(self.points, 1)])
        return asked_lines(self.atoms, self.counted_bonds(), [*more, *lines], valences)


class Claim:
    """A claim that is drawn by chance. Where it asks, its atoms ask for hydrogens, neighbours and ring bonds too, and its bonds have
    topologies."""

    def __init__(self, draw, asks=False):
        self.draw, self.groups = draw, {}
        # Which groups are held at sites with one neighbour and with two, and which stand in members alone.
        self.kinds = {1: (1, False), 2: (1, False), 3: (2, False), 4: (1, True)}
        self.root = self.drawn_root()
        used = {label for labels in self.root.sites.values() for label in labels}
        for number in draw.sample(sorted(used), len(used)):
            self.groups[number] = [self.member(self.kinds[number][0], nests=True) for _ in range(draw.randint(1, 3))]
        if any(4 in labels for members in self.groups.values() for member in members for labels in member.sites.values()):
            self.groups[4] = [self.member(1, nests=False) for _ in range(draw.randint(1, 2))]
        self.logic = {number: self.drawn_logic(asks) for number in self.groups if draw.random() < 0.8}
        if asks:
            for table in (self.root, *itertools.chain(*self.groups.values())):
                self.put_asks(table)

    @classmethod
    def of_sketches(cls, root, groups):
        """A claim of the sketch of its root, and of pairs of a group and the sketch of a member."""
        claim = cls.__new__(cls)
        claim.root, claim.groups, claim.logic = Template.of_sketch(root), {}, {}
        for number, member in groups:
            claim.groups.setdefault(number, []).append(Template.of_sketch(member))
        for line in files.sketch(root):
            if line[:6] == "M  LOG":
                claim.logic[int(line[10:13])] = int(line[14:17]), int(line[18:21]) == 1, line[22:]
        return claim

    def symbol(self):
        return self.draw.choice("CCCCCNNO")

    def drawn_root(self):
        draw, root = self.draw, Template()
        if draw.random() < 0.5:
            for place in range(6):
                root.add(self.symbol() if draw.random() < 0.3 else "C", *([place - 1] if place else []), kind=1 + place % 2)
            root.bonds.append((0, 5, 1 if root.bonds[0][2] == 2 else 2, 0))
            if draw.random() < 0.5:
                self.put_site_at(root, draw.randrange(6))
        else:
            root.add("C")
            for _ in range(draw.randint(1, 4)):
                root.add(self.symbol(), len(root.atoms) - 1, kind=draw.choice((1, 1, 1, 2)))
            inner = [atom for atom in range(len(root.atoms)) if len(root.near(atom)) == 2]
            if inner and draw.random() < 0.4:
                self.put_site_at(root, draw.choice(inner))
        fixed = [atom for atom, asked in enumerate(root.atoms) if asked.symbol != "R#"]
        for _ in range(draw.randint(1, 2)):
            site = root.add("R#", draw.choice(fixed))
            root.sites[site] = draw.choice(([1], [2], [1], [1, 2]))
        self.put_link(root)
        return root

    def put_site_at(self, root, atom):
        root.atoms[atom], root.sites[atom] = Asked("R#"), [3]
        if self.draw.random() < 0.4:
            root.orders[atom] = self.draw.sample(root.near(atom), 2)

    def put_link(self, table):
        """Makes an atom between two others a link, where its bonds to them are alike and what hangs on it holds no slot; some bear one more atom."""
        places = [atom for atom in range(len(table.atoms)) if atom not in table.sites and atom not in table.points and len(table.near(atom)) >= 2]
        if not places or self.draw.random() < 0.5:
            return
        link = self.draw.choice(places)
        first, second = self.draw.sample(table.near(link), 2)
        table.links[link] = self.draw.randint(2, 4), first, second
        block = table.block(link)
        alike = len({tuple(rest) for a, b, *rest in table.bonds if {a, b} in ({link, first}, {link, second})}) == 1
        if not alike or first in block or second in block or any(atom in table.sites or atom in table.points for atom in block):
            del table.links[link]
        elif self.draw.random() < 0.4:
            table.add(self.draw.choice("CNO"), link)

    def member(self, points, nests):
        draw, member = self.draw, Template()
        member.add(self.symbol())
        for _ in range(draw.choice((0, 0, 1, 2))):
            member.add(draw.choice(("C", "C", "N", "O", "Cl")), len(member.atoms) - 1, kind=draw.choice((1, 1, 1, 2)))
        member.points = [0] if points == 1 else [0, draw.randrange(len(member.atoms))]
        if nests and draw.random() < 0.25:
            site = member.add("R#", draw.randrange(len(member.atoms)))
            member.sites[site] = [4]
        if draw.random() < 0.2:
            self.put_link(member)
        return member

    def drawn_logic(self, asks):
        """A THEN group, rest hydrogens and a range; where atoms ask, with more sites that stay open."""
        least, most = self.draw.choice(((0, 1), (1, 1), (0, 2), (1, 2), (0, 9), (2, 2), (1, 999), *[(0, 9)] * 5 * asks))
        then = self.draw.choice([0, 0, 0, *self.groups])
        return then, self.draw.random() < (0.2 if asks else 0.5), f"{least}-{most}"

    def put_asks(self, table):
        draw = self.draw
        for atom, asked in enumerate(table.atoms):
            if atom in table.sites:
                continue
            # an end may be free here, and then "as drawn" asks for more than it says
            share = 0.4 if any(other in table.sites for other in table.near(atom)) else 0.06
            asked.hydrogens = draw.choice((1, 1, 1, 2)) if draw.random() < share else 0
            asked.others = draw.choice((-2, -2, -2, -2, 1, 2, 3)) if draw.random() < share else 0
            asked.rings = draw.choice((-2, -2, -1, 2)) if draw.random() < 0.06 else 0
            if draw.random() < 0.1:
                asked.symbol = draw.choice("AQ*L")
                if asked.symbol == "L":
                    asked.members, asked.excluded = tuple(draw.sample(("C", "N", "O", "Cl"), 2)), draw.random() < 0.3
        for place, (first, second, kind, topology) in enumerate(table.bonds):
            # the two bonds of a link have to stay alike
            if first in table.links or second in table.links:
                continue
            kind = draw.choice((1, 2, 4, 5, 6, 7, 8)) if draw.random() < 0.05 else kind
            table.bonds[place] = first, second, kind, draw.choice((1, 2)) if draw.random() < 0.04 else topology

    def lines(self):
        lines = [files.logic(number, sites, then, rest) for number, (then, rest, sites) in self.logic.items()]
        return files.rgfile(self.root.lines(lines), {number: [member.lines() for member in members] for number, members in self.groups.items()})

    # ---- codes

    def members_of(self, labels):
        """The members of a site, in the order of the file, each with its group."""
        return [(number, member) for number, members in self.groups.items() if number in labels for member in members]

    def codes(self, template):
        """The structural codes in order, each with its sites: their labels, and of which group each holds a member."""
        choices = []
        for slot in sorted([*template.sites, *template.links]):
            if slot in template.links:
                choices.append([((length,), ()) for length in range(1, template.links[slot][0] + 1)])
                continue
            labels = template.sites[slot]
            members = self.members_of(labels)
            filled = [
                ((k, *code), ((labels, number), *sites)) for k, (number, member) in enumerate(members, 1) for code, sites in self.codes(member)
            ]
            choices.append([*filled, ((len(members) + 1,), ((labels, 0),))])
        for choice in itertools.product(*choices):
            yield tuple(sum((code for code, _ in choice), ())), tuple(sum((sites for _, sites in choice), ()))

    def is_valid(self, sites):
        filled = {number: sum(held == number for _, held in sites) for number in self.groups}
        for number in self.groups:
            if not any(number in labels for labels, _ in sites):
                continue
            _, _, text = self.logic.get(number, (0, False, ""))
            askers = [asker for asker, (then, *_) in self.logic.items() if then == number]
            if (not askers or any(filled.get(asker, 0) for asker in askers)) and not is_in_range(text, filled[number]):
                return False
        return True

    # ---- expansions

    def expand(self, template, code):
        """What a template becomes by the front of a code: a table without slots whose points are kept, and the rest of the code."""
        made, copies, ends, code = Template(), {}, {}, list(code)
        lengths = {atom: 1 for atom in range(len(template.atoms))}
        chosen = {}
        for slot in sorted([*template.sites, *template.links]):
            number = code.pop(0)
            if slot in template.links:
                lengths.update((atom, number) for atom in template.block(slot))
                continue
            members = self.members_of(template.sites[slot])
            if number <= len(members):
                chosen[slot], code = self.expand(members[number - 1][1], code)
        for atom, asked in enumerate(template.atoms):
            start = len(made.atoms)
            if atom in chosen:
                member = chosen[atom]
                made.atoms += member.atoms
                made.bonds += [(a + start, b + start, *rest) for a, b, *rest in member.bonds]
                ends[atom] = [member.points[0] + start, member.points[-1] + start]
            elif atom in template.sites:
                rest = any(self.logic.get(label, (0, False))[1] for label in template.sites[atom])
                count = len(template.near(atom)) if rest else 0
                made.atoms += [Asked("H") for _ in range(count)]
                ends[atom] = [start, start + count - 1] if rest else None
            else:
                made.atoms += [copy.copy(asked) for _ in range(lengths[atom])]
                copies[atom] = range(start, len(made.atoms))
                ends[atom] = [start, len(made.atoms) - 1]
        blocks = {atom: link for link in template.links for atom in template.block(link)}
        for a, b, *rest in template.bonds:
            if a in blocks and b in blocks and blocks[a] == blocks[b]:
                made.bonds += [(x, y, *rest) for x, y in zip(copies[a], copies[b])]
                continue
            pair = [ends[x] and ends[x][self.is_far(template, x, y)] for x, y in ((a, b), (b, a))]
            if None in pair:
                made.atoms[next(end for end in pair if end is not None)].free += 1
                continue
            hydrogen = any(x in template.sites and x not in chosen for x in (a, b))
            made.bonds.append((min(pair), max(pair), *((1, 0) if hydrogen else rest)))
        for link, (_, first, _) in template.links.items():
            rest = next(rest for a, b, *rest in template.bonds if {a, b} == {link, first})
            made.bonds += [(x, y, *rest) for x, y in zip(copies[link], copies[link][1:])]
        made.bonds = sorted((min(a, b), max(a, b), *rest) for a, b, *rest in made.bonds)
        made.points = [copies[atom][0] for atom in template.points]
        return made, code

    @staticmethod
    def is_far(template, atom, other):
        if atom in template.links:
            return template.links[atom][2] == other
        return atom in template.sites and len(template.near(atom)) == 2 and template.order(atom)[1] == other

    def expansion(self, code):
        made, rest = self.expand(self.root, code)
        assert not rest
        made.points = []
        return made


def changed(draw, table, changes=True):
    """A molecule of a table: the table, and where it changes with an atom that is another one, or a further atom, in some draws."""
    mol = Template()
    mol.atoms = [Asked(asked.symbol if asked.symbol not in "LAQ*" else draw.choice("CNO")) for asked in table.atoms]
    mol.bonds = [(a, b, kind if kind <= 4 else {7: 2}.get(kind, 1), 0) for a, b, kind, _ in table.bonds]
    heavy = [atom for atom, asked in enumerate(mol.atoms) if asked.symbol != "H"]
    if heavy and changes and draw.random() < 0.5:
        mol.atoms[draw.choice(heavy)] = Asked(draw.choice(("C", "N", "O", "Cl")))
    if heavy and changes and draw.random() < 0.5:
        mol.add(draw.choice(("C", "N", "Cl")), draw.choice(heavy))
    return mol

"""A thousand claims that are drawn from the grammar of lists, with a fixed seed, and what the program says of them.

Each is read as a list; its RGfile is read again; what it spells is read as a list again. The program keeps each and writes some of its
structures; each structure is the expansion that Python makes of its choice, and a molecule made of it is hit by the claim with that choice.
"""
import random
import subprocess
import warnings

import pytest

from markush.claim_list import ClaimNote, ListedClaim, read_claim_list, with_names
from markush.expansion import expand
from markush.programs import program
from markush.rgfile import Template, code_count, read_query, valid_code_count

SEED, CLAIMS, STRUCTURES = 73, 1000, 3
# what stands for a list that an atom may not be in
OTHERS = ("S", "P", "Se", "B")


class Drawing:
    """One claim, drawn by chance; what its atoms ask can be met by what is drawn, with further neighbours and hydrogens."""

    def __init__(self, draw: random.Random) -> None:
        self.draw = draw
        self.is_closed = draw.random() < 0.2
        self.used: list[int] = []

    def text(self) -> str:
        draw = self.draw
        root = self.word([1, 2, 3, 4], sites=draw.randint(1, 3), is_member=False)
        lines = [f"title drawn {draw.randrange(1000)} # of chance", f"root {root}"]
        done: set[int] = set()
        while set(self.used) - done:
            label = min(set(self.used) - done)
            done.add(label)
            # a member has sites of higher groups alone, so that none stands in itself
            inner = [it for it in (1, 2, 3) if it > label] if label < 4 else []
            for _ in range(draw.randint(1, 3)):
                lines.append(f"R{label} {self.member(label, inner)}")
            lines.append(self.logic(label))
        if self.is_closed:
            lines.append("closed")
        draw.shuffle(lines)
        return "\n".join(line for line in lines if line) + "\n"

    def member(self, label: int, inner: list[int]) -> str:
        draw = self.draw
        if label == 4:
            return draw.choice(["*[CH2]*", "*C(*)=O", "*C[N,O]*", "alkylene 1-2", "[*:1]C[*:2]", "*[NH]CC*"])
        if draw.random() < 0.2:
            return draw.choice(["halogen", "alkyl 1-2", "phenyl", "alkoxy 1", "haloalkyl 1", "alkenyl 2-3", "alkynyl 2 lower alkynyl", "cycloalkyl 3", "aryl 6"])
        if draw.random() < 0.1:
            return draw.choice(["CO[*:1]", "C(=O)([*:1])O acid", "O*", "[*]F fluorine", "*S(=O)(=O)N"])
        return self.word(inner, sites=draw.choice((0, 0, 0, 1)) if inner else 0, is_member=True)

    def logic(self, label: int) -> str:
        draw = self.draw
        if draw.random() < 0.2:
            return ""
        spans = ["0-1", ">0", "0-2", "1", "0,2", "<3"]
        then = f" then R{draw.choice(self.used)}" if draw.random() < 0.1 else ""
        return f"logic R{label} {draw.choice(spans)}{' rest' if draw.random() < 0.8 else ''}{then}"

    def word(self, labels: list[int], sites: int, is_member: bool) -> str:
        """A tree of atoms, with a ring of six here and there, and sites at some of them."""
        draw = self.draw
        size = draw.randint(1, 4) if is_member else draw.randint(2, 5)
        parent = [-1] + [draw.randrange(max(0, at - 2), at) for at in range(1, size)]
        children = [[at for at in range(size) if parent[at] == place] for place in range(size)]
        bonds = [draw.choices(["", "=", "-", "-,=", "-,:", "~", ";!@", "=;!@", "=,:"], [12, 3, 1, 1, 1, 1, 1, 1, 1])[0] for _ in range(size)]
        rings = [draw.random() < 0.15 for _ in range(size)]
        sited: list[list[str]] = [[] for _ in range(size)]
        for _ in range(sites):
            sited[draw.randrange(size)].append(self.site(draw.choice(labels), is_member))

        def said(at: int) -> str:
            kids = children[at]
            degree = len(kids) + (at > 0 or is_member) + len(sited[at])
            doubles = sum(bonds[it].startswith("=") and "," not in bonds[it] for it in [*kids, *([at] if at else [])])
            parts = [*sited[at], *(bonds[it] + said(it) for it in kids)]
            if rings[at] and len(parts) <= 1 and not doubles:
                atom = self.ring()
            else:
                may_link = at > 0 and degree == 2 and len(parts) == 1 and self.alike(at, kids, bonds)
                atom = self.atom(degree, degree + doubles, doubles > 0, may_link)
            return atom + "".join(f"({part})" for part in parts[:-1]) + "".join(parts[-1:])

        return ("*" if is_member else "") + said(0)

    def alike(self, at: int, kids: list[int], bonds: list[str]) -> bool:
        """Whether the two bonds of an atom are single ones, so that it may be a link."""
        return bonds[at] == "" and (not kids or bonds[kids[0]] == "")

    def site(self, label: int, is_member: bool) -> str:
        self.used.append(label)
        spelt = f"[R{label}]" if is_member else self.draw.choice([f"[R{label}]", f"[{label}*]", f"[*:{label}]"])
        if label == 4:
            return f"[R4]{self.draw.choice(['C', 'N', '[A]'])}"
        if label < 3 and self.draw.random() < 0.15:
            self.used.append(3)
            return f"[R{label},R3]"
        return spelt

    def ring(self) -> str:
        return self.draw.choice(["c1ccccc1", "c1cc[cH]cc1", "[c;x2]1ccc[n,c]c1", "c1ccc[nH0]c1", "[c;u;xs]1ccccc1"])

    def atom(self, degree: int, order: int, is_double: bool, may_link: bool) -> str:
        """An atom with so many neighbours and so many bonds, by their orders; elements have no more bonds than they may have."""
        draw = self.draw
        # each kind, and how many bonds it may have beside those of its hydrogens
        kinds = {
            "C": 4, "N": 3, "O": 2, "S": 2, "[C]": 4, "[N]": 3, "[N,O]": 9, "[C,N,S]": 9, "[!C;!N]": 9, "[!N]": 9, "[A]": 9, "[Q]": 9, "[any]": 9,
            "[N+]": 4, "[O-]": 1, "[CH]": 3, "[CH2]": 2, "[NH0]": 3, "[C@H]": 3, "[13C]": 4,
        }
        kind = draw.choice([kind for kind, most in kinds.items() if most >= order and (kind.startswith("[") or not may_link)])
        if not kind.startswith("["):
            return kind
        inner, spare = kind[1:-1], kinds[kind] - order
        asks = []
        if draw.random() < 0.3 and "H" not in inner:
            asks.append(f"H{draw.randint(0, min(2, spare))}")
        if draw.random() < 0.3:
            asks.append("Ds" if draw.random() < 0.4 else f"D{min(6, max(1, degree + draw.randint(0, 1)))}")
        if draw.random() < 0.3:
            asks.append(draw.choice(["x0", "xs"]))
        if is_double and draw.random() < 0.3:
            asks.append("u")
        draw.shuffle(asks)
        most = f":{draw.randint(2, 3)}" if may_link and draw.random() < 0.5 else ""
        return "[" + ";".join([inner, *asks]) + most + "]"


def molecule(structure: Template) -> str:
    """A molecule that has what a structure asks: elements of lists, hydrogens by valence marks, and carbons for further neighbours."""
    atoms = [(element_of(it), it.charge) for it in structure.atoms]
    bonds = [(it.first, it.second, {5: 1, 6: 1, 7: 2, 8: 1}.get(it.type, it.type)) for it in structure.bonds]
    near = {it.number: [] for it in structure.atoms}
    for first, second, kind in bonds:
        near[first].append((second, kind))
        near[second].append((first, kind))
    gained = [it.hydrogens or 0 for it in structure.atoms]
    for it in structure.atoms:
        heavy = sum(atoms[other - 1][0] != "H" for other, _ in near[it.number])
        for _ in range(max(0, (it.substitution or 0) - heavy)):
            atoms.append(("C", 0))
            gained.append(0)
            near[len(atoms)] = [(it.number, 1)]
            near[it.number].append((len(atoms), 1))
            bonds.append((it.number, len(atoms), 1))
    lines = ["", "", "", f"{len(atoms):3}{len(bonds):3}  0  0  0  0            999 V2000"]
    for number, (symbol, charge) in enumerate(atoms, 1):
        kinds = [kind for _, kind in near[number]]
        fours = kinds.count(4)
        total = sum(kind for kind in kinds if kind < 4) + fours + (fours > 1) + gained[number - 1]
        lines.append(f"{0:10.4f}{0:10.4f}{0:10.4f} {symbol:3} 0  0  0  0  0{total or 15:3}")
    lines += [f"{first:3}{second:3}{kind:3}  0" for first, second, kind in bonds]
    lines += [f"M  CHG  1 {number:3} {charge:3}" for number, (_, charge) in enumerate(atoms, 1) if charge]
    return "\n".join([*lines, "M  END", ""])


def element_of(atom) -> str:
    if atom.elements:
        return atom.elements[-1] if not atom.is_not else next(it for it in OTHERS if it not in atom.elements)
    return {"A": "C", "Q": "S", "*": "C"}.get(atom.symbol, atom.symbol)


@pytest.fixture(scope="module")
def claims() -> list[tuple[str, ListedClaim]]:
    draw, made = random.Random(SEED), []
    with warnings.catch_warnings():
        warnings.simplefilter("ignore", ClaimNote)
        while len(made) < CLAIMS:
            text = Drawing(draw).text()
            made.append((text, read_claim_list(text)))
    return made


@pytest.fixture(scope="module")
def structures(claims, tmp_path_factory) -> list[list[str]]:
    """Of each claim the records that the program writes, in one run of it."""
    folder = tmp_path_factory.mktemp("claims")
    script = []
    for at, (_, listed) in enumerate(claims):
        (folder / f"{at}.rgf").write_text(listed.rgfile)
        script += [f"query q {at}.rgf", f"enum q {STRUCTURES}", "forget q"]
    ran = subprocess.run([str(program())], input="\n".join(script) + "\n", cwd=folder, capture_output=True, text=True, check=False)
    assert ran.returncode == 0, [line for line in ran.stdout.split("\n") if line.startswith("refused")][:5]
    answers = ran.stdout.split("kept q\n")[1:]
    assert len(answers) == len(claims)
    return [[record for record in answer.split("$$$$\n")[:-1]] for answer in answers]


def test_a_list_and_its_rgfile_and_what_it_spells_agree(claims) -> None:
    for text, listed in claims:
        query = read_query(listed.rgfile)
        assert with_names(query, listed.names) == listed.query, text
        lines = [f"root {query.root.smiles}"]
        for group in query.groups:
            lines += [f"R{group.label} {member.smiles}" for member in group.members]
            if group.logic:
                lines.append(f"logic R{group.label} {group.logic.range}{' rest' * group.logic.rest}{f' then R{group.logic.then}' if group.logic.then else ''}")
        with warnings.catch_warnings():
            warnings.simplefilter("ignore", ClaimNote)
            again = read_claim_list("\n".join(lines))
        assert code_count(again.query) == code_count(query), text
        assert valid_code_count(again.query) == valid_code_count(query), text
        assert again.query.root.smiles == query.root.smiles, text
        assert [[it.smiles for it in group.members] for group in again.query.groups] == [[it.smiles for it in group.members] for group in query.groups], text


def test_structures_are_the_expansions_of_their_choices(claims, structures) -> None:
    seen = 0
    for (text, listed), records in zip(claims, structures):
        for record in records:
            choice = [int(word) for word in record.split("\n", 1)[0].split()[1:]]
            structure, made = read_query(record).root, expand(listed.query, choice)
            assert [
                (it.symbol, it.charge, it.hydrogens, it.elements, it.is_not, it.substitution, it.ring_bonds, it.unsaturated) for it in structure.atoms
            ] == [
                (it.symbol, it.charge, it.hydrogens, it.elements, it.is_not, it.substitution, it.ring_bonds, it.unsaturated)
                for it in (atom.asks for atom in made.atoms)
            ], text
            assert [(it.first, it.second, it.type, it.topology) for it in structure.bonds] == [(it.first, it.second, it.type, it.topology) for it in made.bonds], text
            seen += 1
    assert seen > CLAIMS


def test_each_structure_as_a_molecule_is_hit_by_its_claim_and_choice(claims, structures, tmp_path) -> None:
    script, wanted = [], []
    for at, ((text, listed), records) in enumerate(zip(claims, structures)):
        (tmp_path / f"{at}.rgf").write_text(listed.rgfile)
        for number, record in enumerate(records):
            (tmp_path / f"{at}_{number}.mol").write_text(molecule(read_query(record).root))
            script.append(f"match {at}.rgf {at}_{number}.mol")
            wanted.append((text, record.split("\n", 1)[0]))
    ran = subprocess.run([str(program())], input="\n".join(script) + "\n", cwd=tmp_path, capture_output=True, text=True, check=False)
    answers: list[list[str]] = [[]]
    for line in ran.stdout.splitlines():
        answers[-1].append(line)
        if not line.startswith("hit "):
            answers.append([])
    assert len(answers) == len(wanted) + 1 and ran.returncode == 0
    lost = [(text, choice, answer) for (text, choice), answer in zip(wanted, answers) if not any(line.startswith(f"hit 1 {choice} map ") for line in answer)]
    assert not lost, f"{len(lost)} of {len(wanted)}: {lost[0]}"

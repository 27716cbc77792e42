"""What normalizes records by RDKit, as a process of its own: `normalize` starts it, and nothing else does.

A line of JSON comes in for each record, and one goes out. A record that takes more processor time than the first word of the command line
says, in seconds, ends the process by SIGPROF; memory above the second, in megabytes, fails or ends it too. Standard library and RDKit alone
are imported, so that nothing of the package is needed here.
"""
from __future__ import annotations

import json
import signal
import sys
from typing import Any

NEGATIVE = frozenset({"O", "S", "N", "Se"})
MOST_FORMS = 200


class Unread(Exception):
    """RDKit can't read a record, with its words."""


def normalized(block: str, rules: dict[str, Any], chem: Any) -> tuple[list[str], list[str]]:
    """The molfiles that a molfile becomes, none where it stays as it is, and what was changed, in words."""
    text, dative = _without_nines(_mended(block))
    mol = chem.MolFromMolBlock(text, sanitize=False, removeHs=False, strictParsing=True)
    if mol is None:
        raise Unread("RDKit doesn't read the table")
    mol = chem.RWMol(mol)
    for atom in mol.GetAtoms():
        atom.SetIntProp("_at", atom.GetIdx())
    changes: list[str] = []
    _single_for_dative(mol, dative, changes, chem)
    _charges_for_five_bonds(mol, changes, chem)
    is_drawn_round, round_bonds = _aromatic_outside(mol, chem), _aromatic(mol, chem)
    problem = chem.SanitizeMol(mol, catchErrors=True)
    if problem != chem.SanitizeFlags.SANITIZE_NONE:
        words = "; ".join(it.Message() for it in chem.DetectChemistryProblems(mol))
        raise Unread(f"RDKit refuses the structure: {words or problem}")
    _stereo(mol, chem)
    if is_drawn_round:
        changes.append(_single_and_double(round_bonds))
    if rules.get("neutral"):
        mol = _neutral(mol, changes, chem)
    if rules.get("largest"):
        mol = _largest(mol, changes, chem)
    forms = [mol]
    if rules.get("tautomer") in ("canonical", "all"):
        forms = _tautomers(mol, str(rules["tautomer"]), changes, chem)
    if not changes:
        return [], []
    if round_bonds and not is_drawn_round:
        changes.append(_single_and_double(round_bonds))
    is_v3000 = "V3000" in (block.split("\n", 4) + [""] * 4)[3]
    made = [chem.MolToMolBlock(it, forceV3000=is_v3000) for it in forms]
    for form, after in zip(forms, made):
        also = _also_changed(text, after, [atom.GetIntProp("_at") for atom in form.GetAtoms()], chem)
        changes += [change for change in also if change not in changes]
    return made, changes


def _mended(block: str) -> str:
    return "\n".join(
        line.ljust(16 + 4 * int(line[10:13])) if line.startswith("M  ALS") and line[10:13].strip().isdigit() else line
        for line in block.split("\n")
    )


def _named(atom: Any) -> str:
    return f"{atom.GetSymbol()}{atom.GetIdx() + 1}"


def _without_nines(block: str) -> tuple[str, set[int]]:
    """A V2000 table with type 1 for type 9, which RDKit takes there for any bond; and the places of those bonds, from 0."""
    lines = block.split("\n")
    counts = lines[3] if len(lines) > 3 else ""
    sizes = [counts[at : at + 3].strip() for at in (0, 3)]
    if counts[33:39].strip() == "V3000" or not all(size.isdigit() for size in sizes):
        return block, set()
    first = 4 + int(sizes[0])
    nines = {at for at, line in enumerate(lines[first : first + int(sizes[1])]) if line[6:9].strip() == "9"}
    for at in nines:
        lines[first + at] = lines[first + at][:6] + "  1" + lines[first + at][9:]
    return "\n".join(lines), nines


def _single_for_dative(mol: Any, nines: set[int], changes: list[str], chem: Any) -> None:
    kinds = (chem.BondType.DATIVE, chem.BondType.DATIVEL, chem.BondType.DATIVER, chem.BondType.DATIVEONE)
    for bond in mol.GetBonds():
        if bond.GetBondType() not in kinds and bond.GetIdx() not in nines:
            continue
        donor, taker = bond.GetBeginAtom(), bond.GetEndAtom()
        bond.SetBondType(chem.BondType.SINGLE)
        text = f"the dative bond {_named(donor)}-{_named(taker)} is drawn single"
        if taker.GetSymbol() == "O" and not donor.GetFormalCharge() and not taker.GetFormalCharge():
            donor.SetFormalCharge(1)
            taker.SetFormalCharge(-1)
            text += ", with the charges + and -"
        changes.append(text)


def _charges_for_five_bonds(mol: Any, changes: list[str], chem: Any) -> None:
    """Nitro, azide and their like, which are drawn with five bonds at a nitrogen, by RDKit's clean-up."""
    before = [atom.GetFormalCharge() for atom in mol.GetAtoms()]
    chem.Cleanup(mol)
    moved = [atom for atom in mol.GetAtoms() if atom.GetFormalCharge() != before[atom.GetIdx()]]
    if moved:
        said = ", ".join(f"{_named(atom)} {atom.GetFormalCharge():+d}" for atom in moved)
        kind = _kind_of_charges(moved)
        changes.append(f"{kind} is drawn with charges: {said}")


def _kind_of_charges(moved: list[Any]) -> str:
    symbols = sorted(atom.GetSymbol() for atom in moved)
    if "O" in symbols and "N" in symbols:
        return "a nitro group or N-oxide"
    return "an azide or diazo group" if set(symbols) == {"N"} else "a group"


def _aromatic(mol: Any, chem: Any) -> list[int]:
    """The atoms, from 1, of bonds of type 4."""
    found = [bond for bond in mol.GetBonds() if bond.GetBondType() == chem.BondType.AROMATIC]
    return sorted({end + 1 for bond in found for end in (bond.GetBeginAtomIdx(), bond.GetEndAtomIdx())})


def _aromatic_outside(mol: Any, chem: Any) -> bool:
    """Whether a bond of type 4 lies in no ring of six."""
    chem.FastFindRings(mol)
    rings = mol.GetRingInfo()
    return any(
        bond.GetBondType() == chem.BondType.AROMATIC and not rings.IsBondInRingOfSize(bond.GetIdx(), 6) for bond in mol.GetBonds()
    )


def _single_and_double(atoms: list[int]) -> str:
    return f"the aromatic bonds of the atoms {', '.join(map(str, atoms))} are drawn single and double"


def _stereo(mol: Any, chem: Any) -> None:
    chem.AssignChiralTypesFromBondDirs(mol)
    chem.AssignStereochemistry(mol, cleanIt=True)


def _largest(mol: Any, changes: list[str], chem: Any) -> Any:
    parts = chem.GetMolFrags(mol, asMols=True, sanitizeFrags=False)
    if len(parts) < 2:
        return mol
    sizes = [(any(atom.GetSymbol() == "C" for atom in part.GetAtoms()), part.GetNumHeavyAtoms()) for part in parts]
    kept = sizes.index(max(sizes))
    left = ", ".join(chem.MolToSmiles(chem.RemoveHs(part, sanitize=False)) for at, part in enumerate(parts) if at != kept)
    changes.append(f"left out beside the largest part: {left}")
    made = parts[kept]
    for name in mol.GetPropNames(includePrivate=True):
        if name == "_Name":
            made.SetProp(name, mol.GetProp(name))
    return made


def _neutral(mol: Any, changes: list[str], chem: Any) -> Any:
    """Acids that are drawn as anions get their hydrogen; an anion beside a cation's atom, as in nitro, stays."""
    made = chem.RWMol(mol)
    done = []
    for atom in made.GetAtoms():
        if atom.GetFormalCharge() != -1 or atom.GetSymbol() not in NEGATIVE:
            continue
        if any(other.GetFormalCharge() > 0 for other in atom.GetNeighbors()):
            continue
        atom.SetFormalCharge(0)
        atom.SetNumExplicitHs(atom.GetNumExplicitHs() + 1 if atom.GetNoImplicit() or atom.GetIsAromatic() else 0)
        done.append(_named(atom))
    if not done:
        return mol
    chem.SanitizeMol(made)
    said = f"the anions {', '.join(done)} are drawn as acids" if len(done) > 1 else f"the anion {done[0]} is drawn as an acid"
    changes.append(f"{said}, without charge")
    return made


def _tautomers(mol: Any, which: str, changes: list[str], chem: Any) -> list[Any]:
    from rdkit.Chem.MolStandardize import rdMolStandardize

    chooser = rdMolStandardize.TautomerEnumerator()
    chooser.SetMaxTautomers(MOST_FORMS)
    bare = chem.RemoveHs(mol)
    own = chem.MolToSmiles(bare)
    enumerated = chooser.Enumerate(bare)
    if enumerated.status != rdMolStandardize.TautomerEnumeratorStatus.Completed:
        changes.append(f"there are more tautomers than the {len(enumerated)} that RDKit looked at")
    if which == "canonical":
        made = chooser.PickCanonical(enumerated)
        if chem.MolToSmiles(made) == own:
            return [mol]
        changes.append(f"the tautomer {chem.MolToSmiles(made, isomericSmiles=False)} is drawn in place of {chem.MolToSmiles(bare, isomericSmiles=False)}")
        forms = [made]
    else:
        found = {chem.MolToSmiles(form, isomericSmiles=False): form for form in enumerated}
        found.pop(chem.MolToSmiles(bare, isomericSmiles=False), None)
        if not found:
            return [mol]
        many = "s are" if len(found) > 1 else " is"
        changes.append(f"{len(found)} further tautomer{many} drawn: {', '.join(sorted(found))}")
        forms = [mol, *(found[key] for key in sorted(found))]
    for form in forms:
        if mol.HasProp("_Name"):
            form.SetProp("_Name", mol.GetProp("_Name"))
    return forms


# ---- what else differs, once RDKit has written a table anew

# what a line of an atom holds in three columns, from these on
COLUMNS = (
    (39, "stereo parity"), (42, "hydrogen count"), (45, "stereo care box"), (48, "valence"), (60, "map number"), (63, "inversion mark"),
    (66, "exact change mark"),
)


def _also_changed(before: str, after: str, at: list[int], chem: Any) -> list[str]:
    """What differs in a table that RDKit wrote, besides the types of bonds and the charges, of which its callers tell.

    `at` has for each of its atoms the place of that atom in the table before.
    """
    old, new = (chem.MolFromMolBlock(it, sanitize=False, removeHs=False, strictParsing=False) for it in (before, after))
    found = []
    gone = [atom for atom in old.GetAtoms() if atom.GetIdx() not in at and atom.GetSymbol() == "H"]
    if gone:
        found.append(f"left out, to be added again by what reads the record: the drawn hydrogen{'s' * (len(gone) > 1)} {_names(gone)}")
    pairs = [(old.GetAtomWithIdx(place), atom) for place, atom in zip(at, new.GetAtoms())]
    places = [it.GetConformer() for it in (old, new)]
    moved = [a for a, b in pairs if (places[0].GetAtomPosition(a.GetIdx()) - places[1].GetAtomPosition(b.GetIdx())).Length() > 0.001]
    if moved:
        found.append(f"drawn at another place: {_names(moved)}")
    marks = [_atom_marks(it) for it in (before, after)]
    for a, b in pairs:
        was = {**marks[0].get(a.GetIdx(), {}), "isotope": a.GetIsotope(), "unpaired electrons": a.GetNumRadicalElectrons()}
        now = {**marks[1].get(b.GetIdx(), {}), "isotope": b.GetIsotope(), "unpaired electrons": b.GetNumRadicalElectrons()}
        found += [_differs(f"{what} of {_named(a)}", was.get(what), now.get(what)) for what in {**was, **now} if was.get(what) != now.get(what)]
    back = dict(zip(at, range(len(at))))
    for bond in old.GetBonds():
        ends = bond.GetBeginAtomIdx(), bond.GetEndAtomIdx()
        other = new.GetBondBetweenAtoms(back[ends[0]], back[ends[1]]) if all(end in back for end in ends) else None
        if other is not None:
            mark, mark_now = _bond_mark(bond, ends[0]), _bond_mark(other, at[other.GetBeginAtomIdx()])
            if mark != mark_now:
                found.append(_differs(f"stereo mark of the bond {_named(bond.GetBeginAtom())}-{_named(bond.GetEndAtom())}", mark, mark_now))
    flags = [it.GetIntProp("_MolFileChiralFlag") if it.HasProp("_MolFileChiralFlag") else 0 for it in (old, new)]
    if flags[0] != flags[1]:
        found.append(_differs("chiral flag", *flags))
    kept = _further_lines(after)
    found += [f"left out: the line {line!r}" for line in _further_lines(before) if not any(_begins(it, line) for it in kept)]
    return found


def _names(atoms: list[Any]) -> str:
    return ", ".join(map(_named, atoms))


def _differs(what: str, was: Any, now: Any) -> str:
    return f"{what}: {now or 'none'} in place of {was or 'none'}"


def _begins(line: str, words: str) -> bool:
    return line.split()[: len(words.split())] == words.split()


def _bond_mark(bond: Any, first: int) -> str:
    """The stereo mark of a bond in words of the table, with the atom at which a wedge begins."""
    for name in ("_MolFileBondStereo", "_MolFileBondCfg"):
        mark = bond.GetPropsAsDict(True, False).get(name)
        if mark:
            return str(mark) if bond.GetBondTypeAsDouble() == 2 else f"{mark} from the atom {first + 1}"
    return ""


def _logical(block: str) -> list[str]:
    """The lines behind the header, those of V3000 joined where they go on."""
    found: list[str] = []
    is_open = False
    for line in block.split("\n")[3:]:
        is_next = line.startswith("M  V30 ")
        line = line.rstrip() if is_next else line
        if is_open and is_next:
            found[-1] = found[-1][:-1] + line[7:]
        else:
            found.append(line)
        is_open = is_next and line.endswith("-")
    return found


def _counts(line: str) -> tuple[int, int]:
    atoms, bonds = line[:3].strip(), line[3:6].strip()
    return int(atoms) if atoms.isdigit() else 0, int(bonds) if bonds.isdigit() else 0


def _atom_marks(block: str) -> dict[int, dict[str, Any]]:
    """What stands at each atom, from 0, that is neither its place nor its charge, isotope or radical."""
    lines = _logical(block)
    if "V3000" in lines[0]:
        inside = lines[lines.index("M  V30 BEGIN ATOM") + 1 : lines.index("M  V30 END ATOM")]
        said = [dict(word.split("=", 1) for word in line.split()[8:] if "=" in word) for line in inside]
        return {n: {key: it for key, it in each.items() if key not in ("CHG", "MASS", "RAD")} for n, each in enumerate(said)}
    atoms = lines[1 : 1 + _counts(lines[0])[0]]
    return {n: {what: line[at : at + 3].strip() for at, what in COLUMNS if line[at : at + 3].strip(" 0")} for n, line in enumerate(atoms)}


def _further_lines(block: str) -> list[str]:
    """The lines of a table that are none of its atoms, bonds, charges, isotopes and radicals; an alias with its text."""
    lines = _logical(block)
    if "V3000" in lines[0]:
        bonds = lines.index("M  V30 END BOND") if "M  V30 END BOND" in lines else lines.index("M  V30 END ATOM")
        return [line for line in lines[bonds + 1 :] if line.startswith("M  V30 ") and line != "M  V30 END CTAB"]
    found = []
    behind = iter(lines[1 + sum(_counts(lines[0])) :])
    for line in behind:
        if line.startswith("M  END"):
            break
        if line.startswith(("A  ", "G  ")):
            line = f"{line} {next(behind, '')}"
        if line.strip() and line[:6] not in ("M  CHG", "M  ISO", "M  RAD"):
            found.append(line)
    return found


def main(seconds: float, megabytes: int) -> None:
    """Answers lines until there are no more."""
    if megabytes:
        import resource

        resource.setrlimit(resource.RLIMIT_AS, (megabytes << 20, megabytes << 20))
    from rdkit import Chem, RDLogger

    RDLogger.DisableLog("rdApp.*")
    for line in sys.stdin:
        asked = json.loads(line)
        signal.setitimer(signal.ITIMER_PROF, seconds)
        try:
            blocks, changes = normalized(asked["block"], asked["rules"], Chem)
            answer: dict[str, Any] = {"blocks": blocks, "changes": changes}
        except Unread as fault:
            answer = {"fault": str(fault)}
        except MemoryError:
            answer = {"fault": f"RDKit needs more than {megabytes} megabytes"}
        except Exception as fault:  # whatever RDKit raises over a record is that record's fault
            answer = {"fault": f"RDKit fails: {' '.join(str(fault).split())}"}
        signal.setitimer(signal.ITIMER_PROF, 0)
        print(json.dumps(answer), flush=True)


if __name__ == "__main__":
    sys.path.pop(0)
    main(float(sys.argv[1]), int(sys.argv[2]))

"""A claim: a generic structure with R-groups, as its RGfile says it."""
from __future__ import annotations

import os
import re
from dataclasses import dataclass, field
from functools import cached_property
from pathlib import Path
from types import MappingProxyType
from typing import Any, Dict, Iterator, Mapping, Optional, Sequence, Tuple, Union

from .answers import decode, encode, read_refusal, read_structures
from .errors import Refused
from .refusals import explained
from .rgfile import Group, Logic, Query, Site, Template, code_count, read_query, write_table
from .session import Session

__all__ = ["Claim", "Structure"]

_Name = Tuple[int, int]


@dataclass(frozen=True)
class Structure:
    """One of the structures that a claim stands for.

    Attributes
    ----------
    choice : tuple of int
        The numbers of its choice.
    text : str
        Its record, as the program writes it, without the separator.

    Examples
    --------
    >>> claim = Claim.from_list("root C[1*]\\nR1 *F\\nR1 *Cl")
    >>> [structure.choice for structure in claim.structures()]
    [(1,), (2,)]
    """

    choice: Tuple[int, ...]
    text: str

    @property
    def mol(self) -> Any:
        """The structure as a molecule of RDKit; what it draws, hydrogens among it, is kept."""
        from .molecules import to_mol

        return to_mol(encode(self.text), f"the structure of choice {' '.join(map(str, self.choice))}")


@dataclass(frozen=True, eq=False)
class Claim:
    """A claim, frozen; two with the same text are equal.

    Parameters
    ----------
    text : str
        The text of an RGfile or of a molfile, V2000.
    names : mapping of (label, number) to str
        Names of members, where the claim has them: of group `label` the member `number`, both from 1.
    title : str
        What the claim is called; its own title, or the file's name, where this is empty.
    file : str or None
        The file that it was read from.

    Raises
    ------
    Refused
        When the text is looked into (`query`, `root`, ..), or searched, and is no claim.

    Examples
    --------
    >>> claim = Claim.from_list("title aryl ether\\nroot c1ccccc1[1*]\\nR1 *Cl\\nR1 *OC methoxy")
    >>> claim.title, claim.code_count, claim.member_name(1, 2)
    ('aryl ether', 3, 'methoxy')
    >>> claim == Claim.from_rgfile(claim.text), len({claim, Claim.from_rgfile(claim.text)})
    (True, 1)
    """

    text: str
    names: Mapping[_Name, str] = field(default_factory=dict, repr=False)
    title: str = ""
    file: Optional[str] = None

    def __post_init__(self) -> None:
        object.__setattr__(self, "names", MappingProxyType(dict(self.names)))
        if not self.title:
            object.__setattr__(self, "title", _title(self.text) or (Path(self.file).stem if self.file else ""))

    def __eq__(self, other: object) -> bool:
        return isinstance(other, Claim) and self.text == other.text

    def __hash__(self) -> int:
        return hash(self.text)

    def __repr__(self) -> str:
        return f"<Claim {self.title!r}>"

    def __reduce__(self) -> Tuple[Any, ...]:
        return _claim, (self.text, dict(self.names), self.title, self.file)

    # ---- where claims come from

    @classmethod
    def read(cls, path: Union[str, "os.PathLike[str]"]) -> "Claim":
        """The claim of a file: an RGfile, a molfile or a list, told by what it holds.

        Parameters
        ----------
        path : path
            The file.

        Raises
        ------
        OSError
            It can't be read.
        Refused
            It is neither; the message names the line.

        Examples
        --------
        >>> Claim.read(EXAMPLES / "phenoxy_acids" / "claim.rgf").title
        'phenoxyacetic acid'
        """
        path = Path(path)
        text = decode(path.read_bytes())
        name = os.fsencode(path).decode("utf-8", "replace")
        try:
            if is_query_file(text):
                claim = cls(text, file=name)
                claim.query
                return claim
            return cls._from_list(text, path.parent, name)
        except Refused as fault:
            raise Refused(f"{name}: {fault}", file=name, line=fault.line, atom=fault.atom) from None

    @classmethod
    def from_list(cls, text: str, folder: Union[str, "os.PathLike[str]", None] = None) -> "Claim":
        """The claim of a list: a line for the root, for each member and for the logic.

        Parameters
        ----------
        text : str
            The list (docs/DRAWING.md says its grammar).
        folder : path or None
            Where the files of its `include` lines are.

        Raises
        ------
        Refused
            A line is at fault; the message names it.

        Examples
        --------
        >>> Claim.from_list("root C[1*]\\nR1 *F").code_count
        2
        """
        return cls._from_list(text, None if folder is None else Path(folder), None)

    @classmethod
    def _from_list(cls, text: str, folder: Optional[Path], file: Optional[str]) -> "Claim":
        from .claim_list import read_claim_list

        listed = read_claim_list(text, folder, file or "")
        return cls(listed.rgfile, listed.names, listed.title, file)

    @classmethod
    def from_rgfile(cls, text: str) -> "Claim":
        """The claim of the text of an RGfile or a molfile.

        Parameters
        ----------
        text : str
            The text, V2000.

        Raises
        ------
        Refused
            It is neither; the message names the line.

        Examples
        --------
        >>> text = (EXAMPLES / "phenoxy_acids" / "claim.rgf").read_text()
        >>> Claim.from_rgfile(text).text == text
        True
        """
        claim = cls(text)
        claim.query
        return claim

    # ---- what it says

    @cached_property
    def query(self) -> Query:
        """The claim as data."""
        return read_query(self.text)

    @cached_property
    def written(self) -> Dict[int, str]:
        """The tables of its members as an RGfile has them, by the `id` of each member of `query`."""
        return {id(member): write_table(member) for group in self.query.groups for member in group.members}

    @property
    def root(self) -> Template:
        """The root, the part that stands whatever is chosen."""
        return self.query.root

    @property
    def groups(self) -> Tuple[Group, ...]:
        """The groups with their members, in the order of the file."""
        return self.query.groups

    @property
    def sites(self) -> Tuple[Site, ...]:
        """The sites of the root, by rising atom."""
        return tuple(sorted(self.query.root.sites, key=lambda site: site.atom))

    @property
    def logic(self) -> Dict[int, Logic]:
        """The logic of each group that the claim says it of, by label."""
        return {group.label: group.logic for group in self.query.groups if group.logic is not None}

    @cached_property
    def code_count(self) -> int:
        """How many structural codes the claim has, before its logic; exact, however many."""
        return code_count(self.query)

    def member_name(self, label: int, number: int) -> str:
        """What a member is called: by its name in the claim, else by its SMILES.

        Parameters
        ----------
        label : int
            The group, 1 to 32.
        number : int
            The member within it, from 1.

        Raises
        ------
        KeyError
            The claim has no such member.

        Examples
        --------
        >>> Claim.from_list("root C[1*]\\nR1 *OC methoxy\\nR1 *Cl").member_name(1, 1)
        'methoxy'
        """
        known = self.names.get((label, number))
        if known:
            return known
        group = self.query.group(label)
        if group is None or not 1 <= number <= len(group.members):
            raise KeyError(f"R{label} has no member {number}")
        member = group.members[number - 1]
        return member.name or member.smiles

    def column(self, atom: int) -> str:
        """The name of a site of the root: `R1`, `R1,R2`, or `R1@7` where several sites bear the same labels.

        Parameters
        ----------
        atom : int
            The site's atom in the root, from 1.

        Raises
        ------
        KeyError
            The root has no site there.

        Examples
        --------
        >>> Claim.from_list("root C[1*]\\nR1 *F").column(2)
        'R1'
        """
        groups = {site.atom: site.groups for site in self.sites}.get(atom)
        if groups is None:
            raise KeyError(f"the root has no site at atom {atom}")
        label = ",".join(f"R{group}" for group in groups)
        same = [site for site in self.sites if site.groups == groups]
        return label if len(same) == 1 else f"{label}@{atom}"

    def to_rgfile(self) -> str:
        """The text of the claim's RGfile.

        Examples
        --------
        >>> Claim.from_list("root C[1*]\\nR1 *F").to_rgfile().startswith("$MDL")
        True
        """
        return self.text

    def structures(self, start: Union[str, Sequence[int], None] = None, *, page: int = 200) -> Iterator[Structure]:
        """The structures that the claim stands for, in the order of their choices, a page at a time.

        Parameters
        ----------
        start : str, sequence of int or None
            The choice from which on they are written, as `"1,3"` or `(1, 3)`; from the first where it is None.
        page : int
            How many are asked for at a time, 1 to 1,000.

        Raises
        ------
        ValueError
            `start` is no choice, or `page` no such number.
        Refused
            The program refuses the claim.

        Examples
        --------
        >>> next(Claim.from_list("root C[1*]\\nR1 *F\\nR1 *Cl").structures(start="2")).choice
        (2,)
        """
        place: Optional[str] = start if start is None or isinstance(start, str) else ",".join(map(str, start))
        if place and not re.fullmatch(r"[0-9]{1,9}(,[0-9]{1,9})*", place):
            raise ValueError(f"start is a choice, as '1,3' or (1, 3), and not {start!r}")
        if not 1 <= page <= 1_000:
            raise ValueError(f"page is a number from 1 to 1,000, and not {page}")
        with Session() as session:
            keep_query(session, "claim", self)
            while True:
                command = f"enum claim {page}" + (f" {place}" if place else "")
                frame = session.ask(command)
                if frame.how != "done":
                    raise explained(read_refusal(frame.data), command)
                found = read_structures(frame.data)
                for text in decode(found.text).split("$$$$\n")[:-1]:
                    yield Structure(tuple(map(int, text.split("\n", 1)[0].split()[1:])), text)
                if found.more is None:
                    return
                place = found.more

    def _repr_svg_(self) -> str:
        from .drawing import claim_svg

        return claim_svg(self)


def _claim(text: str, names: Dict[_Name, str], title: str, file: Optional[str]) -> Claim:
    return Claim(text, names, title, file)


def is_query_file(text: str) -> bool:
    """Whether a text is an RGfile or a molfile, and not a list.

    Examples
    --------
    >>> is_query_file("root C[1*]\\nR1 *F\\n"), is_query_file("$MDL  REV  1\\n")
    (False, True)
    """
    if text.startswith("$MDL"):
        return True
    lines = text.split("\n", 4)
    counts = lines[3] if len(lines) > 3 else ""
    return bool(re.match(r"[ \d]{6}", counts) and counts[:3].strip()) or "V2000" in counts or "V3000" in counts


def _title(text: str) -> str:
    lines = text.split("\n", 6)
    if lines[0].startswith("$MDL"):
        return lines[3].strip() if len(lines) > 3 else ""
    return lines[0].strip()


def keep_query(session: Session, name: str, claim: Claim) -> None:
    """Keep a claim under a name in a session, or raise what the program refuses of it."""
    if not isinstance(claim, Claim):
        raise TypeError(f"a claim is what Claim.read gives, or Claim.from_list, and not a {type(claim).__name__}")
    path = session.new_path(".rgf")
    data = encode(claim.text)
    path.write_bytes(data)
    try:
        command = f"query {name} {path.name}"
        frame = session.ask(command)
    finally:
        path.unlink()
    if frame.how != "done":
        raise explained(read_refusal(frame.data), command, file=claim.file, data=data)

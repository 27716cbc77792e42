"""The account of a result: by what, when and of what it was made, and what was searched, refused and left out.

Each page, table and file that a search comes to bears its account, so that `report` can make it anew and compare.
"""
from __future__ import annotations

import hashlib
import json
import os
import re
from dataclasses import asdict, dataclass, field, replace
from datetime import datetime, timezone
from typing import Any, Dict, List, Sequence, Tuple

from .common import Fault, sha256_of

# lines of a table that bear an account begin so
MARK = "# "
ITEM = "markush account"
SCRIPT = '<script type="application/json" id="account">'


@dataclass(frozen=True)
class Named:
    """A file by the name that it was given, and its sha256.

    Examples
    --------
    >>> Named("a.sdf", "e3b0").name
    'a.sdf'
    """

    name: str
    sha256: str


@dataclass(frozen=True)
class Account:
    """What a result rests on.

    Attributes
    ----------
    package : str
        The version of the package.
    program : str
        The sha256 of the program that searched.
    date : str
        When it was made, UTC.
    words : list of str
        The words of the tool.
    claims, compounds : list of Named
        The files.
    searched, refused, unsearched : int
        Numbers of records.
    hits : int
        The number of lines or hits in the result.
    limits : list of str
        Limits that were met, in words.

    Examples
    --------
    >>> Account("0.1.0", "ab", "2020-01-01T00:00:00+00:00", ["find"], [], [], 1, 0, 0, 1).searched
    1
    """

    package: str
    program: str
    date: str
    words: List[str]
    claims: List[Named]
    compounds: List[Named]
    searched: int
    refused: int
    unsearched: int
    hits: int
    limits: List[str] = field(default_factory=list)

    def pairs(self) -> List[Tuple[str, str]]:
        """Its lines for people: what, and how much or which.

        Examples
        --------
        >>> account = Account("0.1.0", "ab", "2020", ["find"], [Named("c.rgf", "12")], [], 33, 0, 0, 8)
        >>> account.pairs()[0], account.pairs()[3]
        (('made by', 'markush-tools 0.1.0'), ('claim', 'c.rgf sha256 12'))
        """
        return [
            ("made by", f"markush-tools {self.package}"),
            ("program", f"sha256 {self.program}"),
            ("date", self.date),
            *(("claim", f"{claim.name} sha256 {claim.sha256}") for claim in self.claims),
            *(("compounds", f"{file.name} sha256 {file.sha256}") for file in self.compounds),
            ("records", f"{self.searched} searched, {self.refused} refused, {self.unsearched} unsearched"),
            ("hits", str(self.hits)),
            ("limits", "; ".join(self.limits) or "none was met"),
        ]

    def lines(self) -> str:
        """It as lines of a table, each with `# ` in front: those for people, and one that `report` reads.

        Examples
        --------
        >>> account = Account("0.1.0", "ab", "2020", ["find"], [], [], 33, 0, 0, 8)
        >>> account.lines().splitlines()[0], account.lines().splitlines()[-1][:24]
        ('# made by: markush-tools 0.1.0', '# account {"package": "0')
        """
        told = "".join(f"{MARK}{what}: {which}\n" for what, which in self.pairs())
        return f"{told}{MARK}account {self.json()}\n"

    def json(self) -> str:
        """It as one line of JSON.

        Examples
        --------
        >>> Account("0.1.0", "ab", "2020", ["find"], [], [], 33, 0, 0, 8).json()[:20]
        '{"package": "0.1.0",'
        """
        return json.dumps(asdict(self), ensure_ascii=True)


def named(path: str) -> Named:
    """A file as an account names it.

    Examples
    --------
    >>> named("/dev/null").sha256[:8]
    'e3b0c442'
    """
    return Named(path, sha256_of(path))


def named_store(path: str, library: Any) -> Named:
    """A store as an account names it: by the sha256 of its records with their numbers, since its file is another after each run.

    Examples
    --------
    >>> from markush import Library
    >>> with Library() as library:
    ...     named_store("x.db", library).sha256[:8]
    'e3b0c442'
    """
    digest = hashlib.sha256()
    for record in library:
        digest.update(b"%d\n" % record.number + record.raw)
    return Named(path, digest.hexdigest())


def account_of(
    words: Sequence[str],
    claims: Sequence[Named],
    compounds: Sequence[Named],
    *,
    searched: int,
    refused: int,
    unsearched: int = 0,
    hits: int,
    limits: Sequence[str] = (),
) -> Account:
    """The account of what was just made.

    Examples
    --------
    >>> account_of(["find"], [], [], searched=1, refused=0, hits=0).searched
    1
    """
    from .. import __version__
    from ..programs import engine

    return Account(
        package=__version__,
        program=sha256_of(os.fspath(engine())),
        date=datetime.now(timezone.utc).isoformat(timespec="seconds"),
        words=list(words),
        claims=list(claims),
        compounds=list(compounds),
        searched=searched,
        refused=refused,
        unsearched=unsearched,
        hits=hits,
        limits=list(limits),
    )


def _of(held: Dict[str, object]) -> Account:
    given = dict(held)
    for name in ("claims", "compounds"):
        given[name] = [Named(**file) for file in given[name]]  # type: ignore[attr-defined]
    return Account(**given)  # type: ignore[arg-type]


def read_account(path: str) -> Tuple[Account, str]:
    """The account of a file that a tool wrote, and the text of the file without it.

    Raises
    ------
    Fault
        The file has none.

    Examples
    --------
    >>> import tempfile
    >>> account = Account("0.1.0", "ab", "2020", ["find"], [], [], 33, 0, 0, 8)
    >>> with tempfile.NamedTemporaryFile("w", suffix=".tsv") as file:
    ...     _ = file.write("# account " + account.json() + "\\nrecord\\n")
    ...     file.flush()
    ...     found, rest = read_account(file.name)
    >>> found == account, rest
    (True, 'record\\n')
    """
    found, text = None, ""
    try:
        with open(path, encoding="utf-8", newline="") as file:
            text = file.read()
        if text.startswith("{"):
            held = json.loads(text)
            return _of(held.pop("account")), json.dumps(held, indent=1, sort_keys=True)
        for form in (r"(?m)^# account (\{.*\})\n", rf"(?s)> <{ITEM}>\n(\{{.*?\}})\n", re.escape(SCRIPT) + r"(.*?)</script>"):
            found = re.search(form, text)
            if found:
                account = _of(json.loads(found[1].replace("<\\/", "</")))
                break
    except (ValueError, KeyError, TypeError):
        found = None
    if not found:
        raise Fault(f"{path} has no account of markush-tools, so it can't be made anew")
    rest = text[: found.start()] + text[found.end() :]
    rest = "".join(line for line in rest.splitlines(keepends=True) if not line.startswith(MARK))
    return account, rest.replace(account.date, "DATE")


def without_date(account: Account) -> Account:
    """The account, made at no time: what a result made anew is compared by.

    Examples
    --------
    >>> without_date(Account("0.1.0", "ab", "2020", ["find"], [], [], 33, 0, 0, 8)).date
    ''
    """
    return replace(account, date="")

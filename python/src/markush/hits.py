"""Hits as objects, the iterator over them, and searches that are saved and done again."""
from __future__ import annotations

import hashlib
import json
import os
import re
import tempfile
import weakref
from collections import deque
from dataclasses import dataclass, field
from functools import cached_property, lru_cache
from pathlib import Path
from typing import TYPE_CHECKING, Any, Deque, Dict, Iterator, List, Optional, Set, Tuple, Union

from .answers import Page, RawHit, decode, read_page, read_refusal
from .claim import Claim
from .errors import MarkushError, SearchTimeout
from .expansion import Expansion, expand
from .library import KeptClaim
from .molecules import atom_count, to_mol
from .records import items_of
from .refusals import explained
from .session import CutOff

if TYPE_CHECKING:
    from .library import Library

__all__ = ["Hit", "Part", "Hits", "SavedSearch", "Changes", "FoundHit"]

_PER = ("choice", "record", "map")
_FIRST_PAGE, _PAGE = 1_000, 10_000
_LEAST_BUDGET, _MOST_BUDGET = 2_048, 999_999_999
_NAME = re.compile(r"[A-Za-z0-9._-]{1,64}")


@dataclass(frozen=True)
class Part:
    """What a choice puts at one slot of a claim.

    Attributes
    ----------
    label : int
        The group whose member stands there; 0 for a link, or where the site isn't filled.
    member : int
        The member's number in its group, from 1; 0 where there is none.
    smiles : str
        The member's SMILES; `[H]` where a hydrogen stands in the site's place; nothing where it isn't filled, or for a link.
    name : str
        The member's name in the claim, or its SMILES; of a link how often it stands, as `3 times`.
    length : int
        How often a link stands; 0 for a site.
    atoms : tuple of (int or None)
        The part's atoms in `Hit.mol`, from 0, those of parts inside it among them; None for a hydrogen that isn't drawn.

    Examples
    --------
    >>> Part(1, 2, "*Cl", "chlorine", 0, (6,)).name
    'chlorine'
    """

    label: int
    member: int
    smiles: str
    name: str
    length: int
    atoms: Tuple[Optional[int], ...]


@lru_cache(maxsize=10_000)
def _expansion(claim: Claim, choice: Tuple[int, ...]) -> Expansion:
    return expand(claim.query, choice)


@dataclass(frozen=True)
class Hit:
    """A hit: where a claim lies in a record, and by which choice.

    Attributes
    ----------
    record : int
        The record's number.
    choice : tuple of int
        Which member stands at each site, and how often each link stands.
    map : tuple of int
        The atoms of the record, from 1, on which those of the claim's expansion lie; hydrogens that the program added
        count behind those that are drawn.
    claim : Claim
        The claim that was searched for.
    raw : bytes
        The record's text as it was searched.

    Examples
    --------
    >>> claim = Claim.from_list("root c1ccccc1[1*]\\nR1 *Cl\\nR1 *O[2*]\\nR2 *[CH3]\\nR2 *[CH2][CH3]")
    >>> with Library() as lib:
    ...     loaded = lib.load(EXAMPLES.parent / "crates" / "markush" / "data" / "chloroanisole.mol")
    ...     for hit in lib.search(claim):
    ...         print(hit.choice, {label: part.name for label, part in hit.parts.items()})
    (1,) {'R1': '*Cl'}
    (2, 1) {'R1': '*O[R2]', 'R2': '*[CH3]'}
    """

    record: int
    choice: Tuple[int, ...]
    map: Tuple[int, ...]
    claim: Claim = field(repr=False)
    raw: bytes = field(repr=False)

    @property
    def name(self) -> str:
        """The record's name, its first line without outer blanks."""
        return decode(self.raw.split(b"\n", 1)[0]).strip()

    @property
    def text(self) -> str:
        """The record's text as it was searched."""
        return decode(self.raw)

    @property
    def data(self) -> Dict[str, str]:
        """The record's data items."""
        return items_of(self.text.split("\n"))

    @property
    def mol(self) -> Any:
        """The record as a molecule of RDKit; hydrogens that are drawn are kept, and atoms stand as in the record."""
        return to_mol(self.raw, f"record {self.record} '{self.name}'")

    @property
    def expansion(self) -> Expansion:
        """What the choice makes of the claim: its atoms and bonds, as `map` counts them."""
        return _expansion(self.claim, self.choice)

    @cached_property
    def atoms(self) -> Tuple[Optional[int], ...]:
        """For each atom of the expansion its place in `mol`, from 0, or None for a hydrogen that isn't drawn."""
        drawn = atom_count(self.raw)
        return tuple(atom - 1 if atom <= drawn else None for atom in self.map)

    @cached_property
    def parts(self) -> Dict[str, Part]:
        """What stands at each slot that the choice decides, by its label.

        A slot is called `R1`, or `R1,R2` where it bears several labels; a link is `link@3`, with its atom in the claim's
        table. Where two slots would have one name, each has its atom behind it, as `R1@7`, and a slot within a member
        that of the way to it, as `R2@7/3`.
        """
        graph, atoms = self.expansion, self.atoms
        names = []
        for part in graph.parts:
            names.append(",".join(f"R{label}" for label in part.groups) if part.groups else f"link@{part.atom}")
        found: Dict[str, Part] = {}
        for place, part in enumerate(graph.parts):
            name = names[place]
            if names.count(name) > 1:
                way, at = [part.atom], part.parent
                while at >= 0:
                    way.append(graph.parts[at].atom)
                    at = graph.parts[at].parent
                name = f"{name.split('@')[0]}@{'/'.join(map(str, reversed(way)))}"
            mine = tuple(atoms[number - 1] for number in graph.part_atoms(place))
            if part.length:
                found[name] = Part(0, 0, "", f"{part.length} time{'s' if part.length > 1 else ''}", part.length, mine)
            elif part.member is None:
                said = "[H]" if mine else ""
                found[name] = Part(0, 0, said, said, 0, mine)
            else:
                called = self.claim.member_name(part.label, part.number)
                found[name] = Part(part.label, part.number, part.member.smiles, called, 0, mine)
        return found

    @property
    def words(self) -> str:
        """The choice in words, as `R1 = Cl*, R2 = methyl`."""
        return ", ".join(f"{name} = {part.name or 'not filled'}" for name, part in self.parts.items())

    def svg(self, width: int = 420) -> str:
        """The record drawn with the atoms of the hit in the colours of the page, as SVG.

        Parameters
        ----------
        width : int
            In pixels.

        Raises
        ------
        MarkushError
            There is no RDKit.
        Refused
            RDKit can't read the record.

        Examples
        --------
        >>> claim = Claim.read(EXAMPLES / "phenoxy_acids" / "claim.rgf")
        >>> with Library() as lib:
        ...     loaded = lib.load(EXAMPLES / "phenoxy_acids" / "compounds.sdf")
        ...     print("<svg" in next(lib.search(claim)).svg(width=300))
        True
        """
        from .drawing import hit_svg

        return hit_svg(self, width=width)

    def _repr_svg_(self) -> str:
        return self.svg()


class Hits(Iterator[Hit]):
    """The hits of one search, in the order of records, choices and maps; made by `Library.search`.

    The claim is kept in the store while the search goes on, and forgotten when the iterator ends, is closed or is
    collected. An interrupt or a `SearchTimeout` loses nothing: iterated again, it goes on.

    Examples
    --------
    >>> claim = Claim.read(EXAMPLES / "phenoxy_acids" / "claim.rgf")
    >>> with Library() as lib:
    ...     loaded = lib.load(EXAMPLES / "phenoxy_acids" / "compounds.sdf")
    ...     with lib.search(claim, per="map") as hits:
    ...         print(next(hits).map[:3], len(list(hits)))
    (6, 1, 2) 15
    """

    def __init__(
        self,
        library: "Library",
        claim: Claim,
        *,
        per: str = "choice",
        limit: Optional[int] = None,
        timeout: Optional[float] = None,
        progress: bool = False,
    ) -> None:
        if per not in _PER:
            raise ValueError(f"per is 'choice', 'record' or 'map', and not {per!r}")
        if limit is not None and limit < 0:
            raise ValueError(f"limit is 0 or more, and not {limit}")
        self.library = library
        self.claim = claim
        self.per = per
        self.limit = limit
        self.timeout = timeout
        self._query = KeptClaim(library._dropped)
        self._finalize = weakref.finalize(self, KeptClaim.drop, self._query)
        self._pending: Deque[RawHit] = deque()
        self._texts: Dict[int, bytes] = {}
        self._last: Optional[RawHit] = None  # the last that the program listed and this has
        self._uncertain = False  # a page was asked for and hasn't come
        self._ended = False  # the program has no more
        self._exhausted = False  # and all that it had were given
        self._closed = False
        self._over = 0.0  # the clock's time at which the seconds are over
        self._given: Set[object] = set()
        self._given_record = 0
        self._count = 0
        self._page = _FIRST_PAGE
        self._budget = 8 * _LEAST_BUDGET
        self._found: List[Tuple[int, str, Tuple[int, ...]]] = []
        self._bar = _bar(len(library)) if progress else None

    # ---- iterating

    def __iter__(self) -> "Hits":
        return self

    def __enter__(self) -> "Hits":
        return self

    def __exit__(self, *_: object) -> None:
        self.close()

    @property
    def count(self) -> int:
        """How many hits were given so far."""
        return self._count

    @property
    def at_end(self) -> bool:
        """Whether all hits were given, and there are no others."""
        return self._exhausted

    def close(self) -> None:
        """End the search; its claim is forgotten."""
        self._closed = True
        self._pending.clear()
        self._drop()
        if self._bar is not None:
            self._bar.close()
            self._bar = None

    def _drop(self) -> None:
        """Forget the claim now, where the library can be asked."""
        self._query.drop()
        library = self.library
        if not library._session.closed and library._session.process_id is not None:
            with library._session.lock:
                library._settle()

    def __next__(self) -> Hit:
        if self._closed:
            raise StopIteration
        clock = self.library._clock
        deadline = None if self.timeout is None else clock() + self.timeout - self._over
        began = clock() if self.timeout is not None else 0.0
        try:
            while True:
                if self.limit is not None and self._count >= self.limit:
                    break
                while self._pending:
                    raw = self._pending[0]
                    text = self._wanted(raw)
                    self._pending.popleft()
                    if text is not None:
                        return self._given_hit(raw, text)
                if self._ended:
                    break
                if deadline is not None and clock() >= deadline:
                    raise self._time_is_over()
                self._fetch(deadline)
        except SearchTimeout:
            self._over, began = 0.0, -1.0
            raise
        finally:
            # seconds are those in which hits were waited for, and not those in which the caller looked at one
            if self.timeout is not None and began >= 0:
                self._over += clock() - began
        self._finish()
        raise StopIteration

    def _finish(self) -> None:
        self._exhausted = self._ended and not self._pending
        self.close()

    def _time_is_over(self) -> SearchTimeout:
        return SearchTimeout(
            f"no further hit within {self.timeout:g} s, after {self._count} hits; nothing is lost: iterate the error's "
            f"`hits` to go on",
            self,
        )

    def _mark(self, raw: RawHit) -> object:
        """What `per` takes for one hit of a record."""
        return {"record": raw.record, "choice": raw.choice, "map": raw}[self.per]

    def _wanted(self, raw: RawHit) -> Optional[bytes]:
        """The text of a line's record, or None where `per` has such a hit already or the record is gone."""
        if raw.record != self._given_record:
            self._given = set()
            self._given_record = raw.record
            if self._bar is not None:
                self._bar.update(raw.record - self._bar.n)
        if self._mark(raw) in self._given:
            return None
        try:
            return self._texts.get(raw.record) or self.library._text(raw.record)
        except KeyError:
            return None

    def _given_hit(self, raw: RawHit, text: bytes) -> Hit:
        self._given.add(self._mark(raw))
        self._found.append((raw.record, hashlib.sha256(text).hexdigest(), raw.choice))
        self._count += 1
        return Hit(raw.record, raw.choice, raw.map, self.claim, text)

    # ---- pages

    def _fetch(self, deadline: Optional[float]) -> None:
        """Ask for the next page, and for the texts of its records."""
        library = self.library
        with library._session.lock:
            if self._uncertain:
                # the page that was cut off may be kept as gone over: so from the start, and what is known is passed over
                self._query.drop()
            self._uncertain = True
            if self._query.name is None:
                library._keep(self.claim, self._query)
            page = self._asked(deadline)
            if page is None:
                self._uncertain = True
                return
            fresh = [raw for raw in page.hits if self._last is None or raw > self._last]
            self._pending.extend(fresh)
            if fresh:
                self._last = fresh[-1]
            self._query.cursor = page.cursor
            self._ended = page.ended == "end"
            self._uncertain = False
            if self._ended:
                self._query.drop()
            kept = {raw.record for raw in self._pending}
            self._texts = {record: text for record, text in self._texts.items() if record in kept}
            for record in sorted(kept - set(self._texts)):
                try:
                    self._texts[record] = library._text(record)
                except KeyError:
                    continue

    def _asked(self, deadline: Optional[float]) -> Optional[Page]:
        """The answer to one search or resume, or None where the store doesn't have its place any more."""
        library, query = self.library, self._query
        command = f"search {query.name}" if query.cursor is None else f"resume {query.cursor}"
        command += f" {self._size()}"
        if deadline is None:
            frame = library._session.ask(command)
        else:
            command += f" {self._budget}"
            mark = library._session.mark() if query.cursor is not None else None
            began = library._clock()
            try:
                frame = library._session.ask(command, deadline)
            except CutOff as cut:
                if mark is not None and not cut.began and library._session.mark() == mark:
                    self._uncertain = False  # the place hasn't moved
                raise self._time_is_over() from None
            took = library._clock() - began
            if took < 0.05:
                self._budget = min(2 * self._budget, _MOST_BUDGET)
            elif took > 0.5:
                self._budget = max(self._budget // 2, _LEAST_BUDGET)
        if frame.how != "done":
            refusal = read_refusal(frame.data)
            if refusal.code in (8, 9):
                self._query.drop()
                return None
            raise explained(refusal, command)
        return read_page(frame.data)

    def _size(self) -> int:
        """How many hits the next page has at most."""
        size, self._page = self._page, _PAGE
        if self.limit is None:
            return size
        left = self.limit - self._count
        return max(1, min(size, left if self.per == "map" or left == 1 else 8 * left))

    # ---- all of them

    def to_frame(self) -> Any:
        """The hits that are left, as a DataFrame of pandas.

        Returns
        -------
        DataFrame
            `record`, `name`, `choice` (numbers with blanks between), and a column for each site of the root.

        Raises
        ------
        SearchTimeout
            The seconds of `Library.search` are over.
        MarkushError
            There is no pandas.

        Examples
        --------
        >>> claim = Claim.read(EXAMPLES / "phenoxy_acids" / "claim.rgf")
        >>> with Library() as lib:
        ...     loaded = lib.load(EXAMPLES / "phenoxy_acids" / "compounds.sdf")
        ...     print(len(lib.search(claim).to_frame()))
        11
        """
        from .frames import hits_frame

        return hits_frame(self.claim, self)

    def save(self, name: str) -> None:
        """Keep the search beside the store: the claim, the hits that were given, and the place.

        Parameters
        ----------
        name : str
            1 to 64 letters, digits, dots, hyphens and underscores. A search that has the name is replaced.

        Raises
        ------
        ValueError
            It is no such name.

        Examples
        --------
        >>> claim = Claim.read(EXAMPLES / "phenoxy_acids" / "claim.rgf")
        >>> with Library() as lib:
        ...     loaded = lib.load(EXAMPLES / "phenoxy_acids" / "compounds.sdf")
        ...     hits = lib.search(claim, limit=3)
        ...     print(len(list(hits)))
        ...     hits.save("acids")
        ...     print(lib.saved_searches())
        3
        ('acids',)
        """
        check_name(name)
        library = self.library
        with library._session.lock:
            place = self._last.record if self._last is not None else 0
            goes_on = self._query.name is not None and self._query.cursor is not None and not self._uncertain
            held = {
                "claim": self.claim.text,
                "names": [[label, number, called] for (label, number), called in self.claim.names.items()],
                "title": self.claim.title,
                "file": self.claim.file,
                "per": self.per,
                "found": [[record, digest, list(choice)] for record, digest, choice in self._found],
                "pending": [[raw.record, list(raw.choice), list(raw.map)] for raw in self._pending],
                "ended": self.at_end,
                "place": place,
                "before": _digest_before(library, place) if goes_on else "",
                "query": self._query.name if goes_on else None,
                "cursor": self._query.cursor if goes_on else None,
            }
            old = [saved for saved in library._saved_files() if saved.name == name]
            _write(library._searches_folder() / f"{name}.json", held)
            for saved in old:
                if saved.query is not None:
                    library._dropped.append(saved.query)
            if goes_on:
                # the claim and the place are the saved search's now; this one goes on by a claim of its own
                library._mine.pop(str(self._query.name), None)
                self._query.name, self._query.cursor = None, None
                self._uncertain = not self._ended


def check_name(name: str) -> None:
    """Say it where a saved search can't be called so.

    Raises
    ------
    ValueError
        It is no such name.

    Examples
    --------
    >>> check_name("a b")
    Traceback (most recent call last):
    ValueError: a saved search is called by 1 to 64 letters, digits, '.', '-' and '_', and not 'a b'
    """
    if not _NAME.fullmatch(name):
        raise ValueError(f"a saved search is called by 1 to 64 letters, digits, '.', '-' and '_', and not {name!r}")


def _bar(total: int) -> Any:
    try:
        from tqdm import tqdm
    except ImportError:
        raise MarkushError("a progress bar takes tqdm: install python3-tqdm, or leave `progress` out") from None
    return tqdm(total=total, unit=" records")


def _digest_before(library: "Library", place: int) -> str:
    """A digest of all records up to a number, by which a change before a place shows."""
    digest = hashlib.sha256()
    for number in library.numbers:
        if number > place:
            break
        digest.update(f"{number} ".encode() + hashlib.sha256(library._text(number)).digest())
    return digest.hexdigest()


def _write(path: Path, held: Dict[str, Any]) -> None:
    """A file in one piece, or the old one."""
    path.parent.mkdir(mode=0o700, exist_ok=True)
    made, fresh = tempfile.mkstemp(dir=path.parent, prefix="new-")
    try:
        with open(made, "w", encoding="utf-8") as out:
            json.dump(held, out)
            out.flush()
            os.fsync(out.fileno())
        os.replace(fresh, path)
    except BaseException:
        Path(fresh).unlink(missing_ok=True)
        raise


@dataclass(frozen=True)
class FoundHit:
    """A hit as a saved search keeps it: the record, the digest of its text, and the choice.

    Attributes
    ----------
    record : int
        The record's number.
    sha256 : str
        The digest of its text as it was then, 64 hexadecimal digits.
    choice : tuple of int
        Which member stands at each site, and how often each link stands.

    Examples
    --------
    >>> FoundHit(3, "0" * 64, (1, 3)).record
    3
    """

    record: int
    sha256: str = field(repr=False)
    choice: Tuple[int, ...]


@dataclass(frozen=True)
class Changes:
    """What a saved search finds otherwise than before. Hits are the same as its `per` counts them.

    Attributes
    ----------
    new : tuple of Hit
        Hits that there weren't.
    lost : tuple of FoundHit
        Hits that there aren't any more.
    changed : tuple of Hit
        Hits that there were, in a record whose text is another by now: by the same choice, or, with `per="record"`, by any.

    Examples
    --------
    >>> bool(Changes((), (), ()))
    False
    """

    new: Tuple[Hit, ...]
    lost: Tuple[FoundHit, ...]
    changed: Tuple[Hit, ...]

    def __bool__(self) -> bool:
        return bool(self.new or self.lost or self.changed)


class SavedSearch:
    """A search that `Hits.save` kept beside the store.

    Attributes
    ----------
    name : str
        What it is called.
    query : str or None
        The name of its claim in the store, where the search isn't at its end.

    Examples
    --------
    >>> claim = Claim.read(EXAMPLES / "phenoxy_acids" / "claim.rgf")
    >>> with Library() as lib:
    ...     loaded = lib.load(EXAMPLES / "phenoxy_acids" / "compounds.sdf")
    ...     hits = lib.search(claim)
    ...     first = next(hits)
    ...     hits.save("acids")
    ...     print(len(lib.saved("acids").hits), len(lib.saved("acids").again().new))
    1 10
    """

    def __init__(self, library: "Library", path: Path) -> None:
        self._library = library
        self._path = path
        self.name = path.name[: -len(".json")]
        try:
            self._held: Dict[str, Any] = json.loads(path.read_text("utf-8"))
            self.query: Optional[str] = self._held["query"]
        except (ValueError, KeyError, TypeError):
            raise MarkushError(f"{path} is no saved search; remove it") from None

    @property
    def claim(self) -> Claim:
        """The claim as it was searched."""
        held = self._held
        names = {(label, number): called for label, number, called in held["names"]}
        return Claim(held["claim"], names, held["title"], held["file"])

    @property
    def hits(self) -> Tuple[FoundHit, ...]:
        """The hits that were found, in their order."""
        return tuple(FoundHit(record, digest, tuple(choice)) for record, digest, choice in self._held["found"])

    @property
    def ended(self) -> bool:
        """Whether the search was at its end when it was saved."""
        return bool(self._held["ended"])

    def forget(self) -> None:
        """Drop the saved search, with its claim and its place in the store."""
        self._path.unlink(missing_ok=True)
        if self.query is not None:
            self._library._dropped.append(self.query)

    def again(self, timeout: Optional[float] = None) -> Changes:
        """Search on, or anew, and say what is new, lost and changed; the search is saved as it is then.

        It goes on from its place where it wasn't at its end and no record before the place was put in, replaced or
        removed; else all records are searched anew.

        Parameters
        ----------
        timeout : float or None
            In seconds; a `SearchTimeout` leaves the saved search as it was.

        Raises
        ------
        SearchTimeout
            The seconds are over.

        Examples
        --------
        >>> claim = Claim.read(EXAMPLES / "phenoxy_acids" / "claim.rgf")
        >>> with Library() as lib:
        ...     hits = lib.search(claim)
        ...     nothing = list(hits)
        ...     hits.save("acids")
        ...     loaded = lib.load(EXAMPLES / "phenoxy_acids" / "compounds.sdf")
        ...     changes = lib.saved("acids").again()
        ...     print(len(changes.new), changes.lost, changes.changed)
        11 () ()
        """
        library = self._library
        hits = Hits(library, self.claim, per=self._held["per"], timeout=timeout)
        before = {self._mark(found): found for found in self.hits}
        goes_on = self._goes_on(hits)
        new, changed, now = [], [], set()
        for hit in hits:
            key = self._mark(hit)
            now.add(key)
            if key not in before:
                new.append(hit)
            elif before[key].sha256 != hashlib.sha256(hit.raw).hexdigest():
                changed.append(hit)
        lost = [] if goes_on else [found for key, found in before.items() if key not in now]
        if goes_on:
            hits._found = [(found.record, found.sha256, found.choice) for found in self.hits] + hits._found
        hits.save(self.name)
        self._held = json.loads(self._path.read_text("utf-8"))
        self.query = self._held["query"]
        return Changes(tuple(new), tuple(lost), tuple(changed))

    def _mark(self, hit: Union[Hit, FoundHit]) -> object:
        """By what a hit is the same as one before."""
        return hit.record if self._held["per"] == "record" else (hit.record, hit.choice)

    def _goes_on(self, hits: Hits) -> bool:
        """Have a search go on from the saved place, where nothing before it has changed."""
        held, library = self._held, self._library
        if held["query"] is None or held["before"] != _digest_before(library, held["place"]):
            return False
        if (held["cursor"], held["query"]) not in library.cursors():
            return False
        # the place moves as soon as it is used; cut off, the next time begins anew
        _write(self._path, {**held, "query": None, "cursor": None, "before": "", "pending": []})
        hits._pending.extend(RawHit(record, tuple(choice), tuple(atoms)) for record, choice, atoms in held["pending"])
        for record, _, choice in held["found"]:
            if record != hits._given_record:
                hits._given_record, hits._given = record, set()
            hits._given.add(record if held["per"] == "record" else tuple(choice))
        library._mine[held["query"]] = None
        hits._query.name, hits._query.cursor = held["query"], held["cursor"]
        return True



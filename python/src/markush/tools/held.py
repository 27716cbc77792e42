"""The records that a tool is given, as a library: those of files, or of one store."""
from __future__ import annotations

import contextlib
from dataclasses import dataclass, field
from typing import TYPE_CHECKING, Any, Iterator, List, Optional, Sequence

from .account import Named, named_store
from .common import Compounds, Fault, is_store

if TYPE_CHECKING:
    from ..library import Library


@dataclass
class Held:
    """A library, what its files are called, and the records that it didn't take.

    Attributes
    ----------
    library : Library
    store : str or None
        The store's name, where it is one.
    files : list of Named
        The files, where it is none.
    left : list
        The records that were refused, each with a line for people.

    Examples
    --------
    >>> with Library() as library:
    ...     Held(library, None).left
    []
    """

    library: "Library"
    store: Optional[str]
    files: List[Named] = field(default_factory=list)
    left: List[Any] = field(default_factory=list)

    @property
    def named(self) -> List[Named]:
        """The compounds as an account names them.

        Examples
        --------
        >>> with Library() as library:
        ...     Held(library, None, [Named("a.sdf", "e3b0")]).named
        [Named(name='a.sdf', sha256='e3b0')]
        """
        return self.files if self.store is None else [named_store(self.store, self.library)]


@contextlib.contextmanager
def held(names: Sequence[str]) -> Iterator[Held]:
    """Open the store that is named, or load the files into a library that goes with the block.

    Raises
    ------
    Fault
        A store isn't alone.

    Examples
    --------
    >>> with held([str(EXAMPLES / "phenoxy_acids" / "compounds.sdf")]) as found:
    ...     len(found.library), found.store, found.left
    (33, None, [])
    """
    from ..library import Library

    stores = [name for name in names if is_store(name)]
    if stores and len(names) > 1:
        raise Fault(f"{stores[0]} is a store, which is looked at alone")
    if stores:
        with Library(stores[0]) as library:
            yield Held(library, stores[0])
        return
    with Compounds(names) as compounds, Library() as library:
        left = compounds.load_into(library)
        yield Held(library, None, [Named(source.name, source.sha256) for source in compounds.sources], left)

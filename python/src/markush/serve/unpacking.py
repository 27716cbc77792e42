"""What a page sends, unpacked to a limit: a small file can't become a large one here."""
from __future__ import annotations

import lzma
import zlib
from typing import Callable, Tuple

from ..errors import Refused
from ..records import GZIP, XZ

__all__ = ["unpacked", "MOST_UNPACKED"]

MOST_UNPACKED = 128 << 20
_MEMORY = 96 << 20  # what xz may take for its dictionary; `xz -9` takes 65 MB
_PIECE = 1 << 18
# A file may be many packed ones, one behind the other. What is behind one is handed back as a copy, so it is given in pieces.
_GIVEN = 1 << 12

# what a piece unpacks to, how much of it was taken, whether the packed file is at its end, and whether more may come without input
_Step = Callable[[bytes], Tuple[bytes, int, bool, bool]]


def unpacked(data: bytes, most: int = MOST_UNPACKED) -> bytes:
    """The bytes of a file, unpacked where it is packed by gzip or xz.

    Parameters
    ----------
    data : bytes
    most : int
        How many bytes there may be, unpacked.

    Raises
    ------
    Refused
        It unpacks to more, or it is broken.

    Examples
    --------
    >>> import gzip
    >>> unpacked(gzip.compress(b"a" * 1000)) == b"a" * 1000, unpacked(b"plain")
    (True, b'plain')
    >>> unpacked(gzip.compress(b"a" * 1000), most=999)
    Traceback (most recent call last):
    markush.errors.Refused: the file unpacks to more than 999 bytes; send it in parts
    """
    try:
        if data.startswith(GZIP):
            return _all(data, most, _gzip)
        if data.startswith(XZ):
            return _all(data, most, _xz)
    except (zlib.error, lzma.LZMAError, EOFError) as fault:
        raise Refused(f"the file is packed, and can't be unpacked: {fault}") from None
    if len(data) > most:
        raise _too_large(most)
    return data


def _too_large(most: int) -> Refused:
    return Refused(f"the file unpacks to more than {most:,} bytes; send it in parts")


def _all(data: bytes, most: int, begun: Callable[[], _Step]) -> bytes:
    """Packed files, one behind the other, with zeros between them or not."""
    found, at = bytearray(), 0
    while at < len(data):
        step, is_end, has_more = begun(), False, False
        while not is_end:
            given = b"" if has_more else data[at : at + _GIVEN]
            made, taken, is_end, has_more = step(given)
            at += taken
            found += made
            if len(found) > most:
                raise _too_large(most)
            if not (made or taken or is_end):
                raise EOFError("it ends too soon")
        while at < len(data) and not data[at]:
            at += len(data[at : at + _GIVEN]) - len(data[at : at + _GIVEN].lstrip(b"\0"))
    return bytes(found)


def _gzip() -> _Step:
    worker = zlib.decompressobj(wbits=31)

    def step(given: bytes) -> Tuple[bytes, int, bool, bool]:
        made = worker.decompress(given, _PIECE)
        left = worker.unused_data if worker.eof else worker.unconsumed_tail  # at the end both are what is left
        return made, len(given) - len(left), worker.eof, False

    return step


def _xz() -> _Step:
    worker = lzma.LZMADecompressor(format=lzma.FORMAT_XZ, memlimit=_MEMORY)

    def step(given: bytes) -> Tuple[bytes, int, bool, bool]:
        made = worker.decompress(given, _PIECE)
        return made, len(given) - len(worker.unused_data), worker.eof, not worker.eof and not worker.needs_input

    return step

"""Write records as an SDfile: those of a store, or those that the command `show` printed.

With a STORE it writes the records N, or all. With no words it reads answers of the program on standard input, and puts
a separator behind each record in them; other lines are passed over.
"""
from __future__ import annotations

import argparse
import os
import re
import sys
from typing import BinaryIO, Iterator

from .common import HITS, NONE, Fault, counting, open_bytes

SHOWN = re.compile(rb"record (\d+) (\d+)\n")


def add_words(parser: argparse.ArgumentParser) -> None:
    """The words of the tool."""
    parser.add_argument("store", nargs="?", metavar="STORE", help="the store whose records are written")
    parser.add_argument("numbers", nargs="*", type=counting, metavar="N", help="their numbers; all where none are given")


def shown_records(lines: BinaryIO) -> Iterator[bytes]:
    """The text of each record among the answers.

    Examples
    --------
    >>> import io
    >>> list(shown_records(io.BytesIO(b"removed 1\\nrecord 2 2\\na\\nb\\nend\\n")))
    [b'a\\nb\\n']
    """
    for line in lines:
        found = SHOWN.fullmatch(line)
        if found:
            text = [lines.readline() for _ in range(int(found[2]))]
            if text and not text[-1].endswith(b"\n"):
                raise Fault(f"the answers end within record {int(found[1])}")
            yield b"".join(text)


def run(args: argparse.Namespace) -> int:
    """Write the records."""
    out = sys.stdout.buffer
    count = 0
    if args.store is None:
        with open_bytes("-") as lines:
            for text in shown_records(lines):
                out.write(text + b"$$$$\n")
                count += 1
    else:
        if not os.path.isfile(args.store):
            raise Fault(f"{args.store}: there is no such store")
        from ..library import Library

        with Library(args.store) as library:
            for number in args.numbers or library.numbers:
                if number not in library:
                    raise Fault(f"{args.store} holds no record {number}")
                out.write(library[number].raw + b"$$$$\n")
                count += 1
    out.flush()
    return HITS if count else NONE

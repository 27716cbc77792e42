"""Run a script of the program, and name the line and file of what it can't do.

The answers go to standard output as the program writes them. On standard error stands, for each line that is refused or
whose file can't be read, the script's name, the number of the line, the line and why. The status is the program's: 0
where every command was done, 1 where some were refused, 3 where a file can't be read.
"""
from __future__ import annotations

import argparse
import os
import subprocess
import sys
from typing import Any, List, Tuple

from .common import Fault, open_bytes, text_of

ENDINGS = (b"end", b"more ", b"paused ")
STATUSES = {
    2: "the words aren't understood",
    3: "a file or the input can't be read",
    4: "the output can't be written",
    5: "the store can't be opened, read or written, or another run has it",
    6: "memory is wanting",
    7: "the store holds a bad row",
    8: "the script is too long",
    9: "the name of the store isn't UTF-8",
}


def add_words(parser: argparse.ArgumentParser) -> None:
    """The words of the tool."""
    parser.add_argument("script", metavar="SCRIPT", help="the script; - is standard input")
    parser.add_argument("--store", metavar="FILE", help="the store in which it is run")


def commands_of(script: bytes) -> List[Tuple[int, bytes]]:
    """The lines that have words, with their numbers.

    Examples
    --------
    >>> commands_of(b"list\\n\\nshow 1\\n")
    [(1, b'list'), (3, b'show 1')]
    """
    return [(number, line) for number, line in enumerate(script.split(b"\n"), 1) if line.split()]


def answers_of(answers: bytes, commands: List[Tuple[int, bytes]]) -> List[bytes]:
    """The first line of each command's answer, for as many as were answered.

    Examples
    --------
    >>> answers_of(b"record 1 2\\nend\\nend\\nrefused 1 command\\n", [(1, b"show 1"), (2, b"lists")])
    [b'record 1 2', b'refused 1 command']
    """
    lines = answers.split(b"\n")[:-1]
    found: List[bytes] = []
    at = 0
    for _, line in commands:
        if at >= len(lines):
            break
        first = lines[at]
        found.append(first)
        word = line.split()[0]
        at += 1
        if first.startswith(b"refused "):
            continue
        if word == b"show":
            at += int(first.split()[2])
        elif word == b"list":
            while not lines[at - 1].startswith(b"next "):
                at += 1
        elif word == b"enum":
            at = _behind_structures(lines, at - 1)
        elif word in (b"search", b"resume", b"match", b"table"):
            at -= 1
            while not (lines[at] == ENDINGS[0] or lines[at].startswith(ENDINGS[1:])):
                at += 1
            at += 1
    return found


def _behind_structures(lines: List[bytes], at: int) -> int:
    """The place behind the last line of an answer of `enum`, whose records end with their separators."""
    while lines[at].startswith(b"choice"):
        while lines[at] != b"$$$$":
            at += 1
        at += 1
    return at + 1


def why_unread(command: bytes) -> str:
    """Why the file of a command can't be read, as far as it can be seen.

    Examples
    --------
    >>> why_unread(b"load typo.sdf")
    'typo.sdf: there is no such file'
    """
    words = command.split()
    behind = {b"load": 1, b"replace": 2, b"query": 2, b"match": 1}.get(words[0], len(words))
    names = [os.fsdecode(word) for word in words[behind:]]
    for name in names:
        if not os.path.exists(name):
            return f"{name}: there is no such file"
        if os.path.isdir(name):
            return f"{name}: it is a folder"
        if not os.access(name, os.R_OK):
            return f"{name}: this user may not read it"
    return " ".join(names) + ": it can't be read to its end"


def explained_of(refusal: Any, command: bytes) -> Any:
    """A refusal in words, with what its file has at the place."""
    from ..records import read_records
    from ..refusals import explained

    files = [os.fsdecode(word) for word in command.split()[1:]]
    file = files[0] if refusal.about == "query" and command.startswith(b"match") else files[-1] if files else None
    if refusal.code not in (2, 3, 4, 11) or file is None or not os.path.isfile(file):
        return explained(refusal, text_of(command))
    if refusal.about == "molecules":
        return explained(refusal, text_of(command), file=file, records=read_records(file))
    with open(file, "rb") as held:
        return explained(refusal, text_of(command), file=file, data=held.read())


def run(args: argparse.Namespace) -> int:
    """Run the script."""
    from ..answers import BadAnswer, read_refusal
    from ..programs import program

    shown = "standard input" if args.script == "-" else args.script
    with open_bytes(args.script) as file:
        script = file.read()
    commands = commands_of(script)
    words = [str(program()), *(["--store", args.store] if args.store else [])]
    ran = subprocess.run(words, input=script, stdout=subprocess.PIPE, check=False)
    sys.stdout.buffer.write(ran.stdout)
    sys.stdout.buffer.flush()
    if ran.returncode < 0:
        raise Fault(f"the program was ended by the signal {-ran.returncode}")
    if ran.returncode in (7, 8):
        print(f"{shown}: {STATUSES[ran.returncode]}: no command was done", file=sys.stderr)
        return ran.returncode
    found = answers_of(ran.stdout, commands)
    for (number, line), answer in zip(commands, found):
        if answer.startswith(b"refused "):
            try:
                refusal = read_refusal(answer + b"\n")
                why = str(explained_of(refusal, line))
            except BadAnswer:
                why = text_of(answer)
            print(f"{shown}:{number}: {text_of(line.strip())}: {why}", file=sys.stderr)
    if ran.returncode > 1:
        why = STATUSES.get(ran.returncode, f"the program ended with the status {ran.returncode}")
        if len(found) < len(commands):
            number, line = commands[len(found)]
            if ran.returncode == 3:
                why = why_unread(line)
            print(f"{shown}:{number}: {text_of(line.strip())}: {why}; it and the lines behind it weren't done", file=sys.stderr)
        else:
            print(f"{shown}: {why}", file=sys.stderr)
    return ran.returncode

"""What runs in RDKit's process: `drawer` starts it, and nothing else does.

A line of JSON comes in for each question, and one goes out. A question that takes more processor time than the first word says, in
seconds, ends the process by SIGPROF; memory beyond the second, in megabytes, fails or ends it too.
"""
from __future__ import annotations

import json
import signal
import sys
import warnings
from typing import Any, Dict, List

from ..errors import MarkushError, Refused

__all__ = ["main"]


def claim_read(asked: Dict[str, Any]) -> Dict[str, Any]:
    """A claim of a text: its RGfile, its names, and what a page draws of it.

    Examples
    --------
    >>> found = claim_read({"text": "title acids\\nroot OC(=O)[R1]\\nR1 *CC ethyl"})
    >>> found["title"], found["codes"], [group["l"] for group in found["groups"]]
    ('acids', '2', [1])
    """
    from ..claim import Claim, is_query_file
    from ..page import _claim_tables, _logic_words

    text = asked["text"]
    with warnings.catch_warnings(record=True) as notes:
        warnings.simplefilter("always")
        claim = Claim.from_rgfile(text) if is_query_file(text) else Claim.from_list(text)
    tables, _, _, legend = _claim_tables(claim)
    places = iter(range(1, len(tables)))
    groups = [
        {"l": group.label, "m": [next(places) for _ in group.members], "t": _logic_words(claim.query, group)}
        for group in claim.query.groups
    ]
    return {
        "rgfile": claim.text,
        "names": [[label, number, name] for (label, number), name in claim.names.items()],
        "title": claim.title,
        "isList": not is_query_file(text),
        "codes": str(claim.code_count),
        "notes": [str(note.message) for note in notes if issubclass(note.category, UserWarning)],
        "tables": tables,
        "groups": sorted((group for group in groups if group["m"]), key=lambda group: int(group["l"])),
        "legend": legend,
    }


def smiles_drawn(asked: Dict[str, Any]) -> Dict[str, Any]:
    """Lines of SMILES as records, and those that aren't read with the reason.

    Examples
    --------
    >>> smiles_drawn({"lines": ["CCO ethanol", "C("]})["refused"]
    [[2, '', 'RDKit reads no SMILES in C(']]
    """
    from ..molecules import rdkit
    from ..tools.common import drawn_smiles

    rdkit("SMILES")
    records: List[List[Any]] = []
    refused: List[List[Any]] = []
    for drawn in drawn_smiles(line.encode("utf-8", "replace") for line in asked["lines"]):
        if drawn.text is None:
            refused.append([drawn.line, drawn.name, drawn.why])
        else:
            records.append([drawn.line, drawn.text])
    return {"records": records, "refused": refused}


def picture_laid_out(asked: Dict[str, Any]) -> Dict[str, Any]:
    """The picture of a record without coordinates, laid out.

    Examples
    --------
    >>> text = "\\n\\n\\n  2  1  0     0  0            999 V2000\\n" + "    0.0000    0.0000    0.0000 C   0  0\\n" * 2 + "  1  2  1  0\\nM  END\\n"
    >>> sorted(picture_laid_out({"text": text})["picture"])[-1]
    'xy'
    """
    from ..drawing import laid_out, record_picture

    picture = record_picture(asked["text"])
    drawn = laid_out(picture)
    return {"picture": (drawn or picture).compact()}


DEEDS = {"claim": claim_read, "smiles": smiles_drawn, "picture": picture_laid_out}


def answer_to(line: str) -> Dict[str, Any]:
    """The answer to a line."""
    asked = json.loads(line)
    try:
        return {"found": DEEDS[asked["do"]](asked)}
    except Refused as fault:
        return {"fault": str(fault), "line": fault.line}
    except MarkushError as fault:
        return {"fault": str(fault)}
    except MemoryError:
        return {"fault": "it takes more memory than a drawing may have"}
    except RecursionError:
        return {"fault": "it is nested too deeply to be read"}
    except Exception as fault:  # whatever RDKit raises over what was sent is the fault of what was sent
        return {"fault": f"it can't be read: {' '.join(str(fault).split())[:300] or type(fault).__name__}"}


def main(seconds: float, megabytes: int) -> None:
    """Answer lines until there are no more."""
    import resource

    resource.setrlimit(resource.RLIMIT_AS, (megabytes << 20, megabytes << 20))
    resource.setrlimit(resource.RLIMIT_CORE, (0, 0))
    resource.setrlimit(resource.RLIMIT_FSIZE, (0, 0))
    for line in sys.stdin:
        signal.setitimer(signal.ITIMER_PROF, seconds)
        text = json.dumps(answer_to(line))
        signal.setitimer(signal.ITIMER_PROF, 0)
        print(text, flush=True)

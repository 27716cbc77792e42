"""What a request of the page says: its words read as numbers, texts and lists, and never trusted to be any."""
from __future__ import annotations

import json
from typing import Any, Dict, List
from urllib.parse import unquote_to_bytes

from ..errors import MarkushError, Refused

__all__ = ["claim_text", "many", "read_json", "text", "unquoted", "whole"]

MOST_JSON = 16 << 20
MOST_CLAIM = 4 << 20  # bytes of a claim
MOST_WORDS = 20_000  # of a request's one further header


def read_json(body: bytes) -> Dict[str, Any]:
    """The object that a body is.

    Raises
    ------
    MarkushError
        It is none.

    Examples
    --------
    >>> read_json(b'{"a": 1}'), read_json(b"")
    ({'a': 1}, {})
    """
    if not body:
        return {}
    try:
        found = json.loads(body.decode("utf-8")) if len(body) <= MOST_JSON else None
    except (ValueError, RecursionError):
        found = None
    if not isinstance(found, dict):
        raise MarkushError("the page asked for something in a way that isn't understood; load it again")
    return found


def unquoted(words: str) -> bytes:
    """A header in which bytes that aren't ASCII are written as `%41`.

    Examples
    --------
    >>> unquoted("%7B%22name%22: 1}")
    b'{"name": 1}'
    """
    return unquote_to_bytes(words[:MOST_WORDS])


def whole(asked: Dict[str, Any], name: str) -> int:
    """A whole number; 0 where it isn't there.

    Examples
    --------
    >>> whole({"id": 7}, "id"), whole({}, "id")
    (7, 0)
    """
    found = asked.get(name, 0)
    if not isinstance(found, int) or isinstance(found, bool):
        raise MarkushError(f"{name} isn't a number")
    return found


def text(asked: Dict[str, Any], name: str) -> str:
    """A text without halves of characters, which can't be written anywhere; empty where it isn't there.

    Examples
    --------
    >>> text({"name": "acids"}, "name"), text({"name": "\\ud800"}, "name")
    ('acids', '?')
    """
    found = asked.get(name, "")
    if not isinstance(found, str):
        raise MarkushError(f"{name} isn't a text")
    return found.encode("utf-8", "replace").decode("utf-8")


def many(asked: Dict[str, Any], name: str) -> List[Any]:
    """A list; empty where it isn't there.

    Examples
    --------
    >>> many({"places": [1, 2]}, "places")
    [1, 2]
    """
    found = asked.get(name, [])
    if not isinstance(found, list):
        raise MarkushError(f"{name} isn't a list")
    return found


def claim_text(asked: Dict[str, Any]) -> str:
    """A claim as it was pasted, with LF at the ends of lines.

    Raises
    ------
    Refused
        There is nothing, or more than 4 MiB.

    Examples
    --------
    >>> claim_text({"text": "root C\\r\\n"})
    'root C\\n'
    """
    found = text(asked, "text")
    if len(found.encode("utf-8")) > MOST_CLAIM:
        raise Refused("a claim has 4 MiB at most")
    if not found.strip():
        raise Refused("paste a claim: a list, an RGfile or a molfile")
    return found.replace("\r\n", "\n")

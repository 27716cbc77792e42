"""Who gets in: the host and the origin of a request, the token, and the headers that every answer bears."""
from __future__ import annotations

import hmac
import secrets
from dataclasses import dataclass
from typing import FrozenSet, Iterable, Sequence, Tuple

__all__ = ["Gate", "HEADERS", "TOKEN_HEADER"]

TOKEN_HEADER = "X-Markush-Token"
POLICY = (
    "default-src 'none'; script-src 'self'; style-src 'self'; connect-src 'self'; img-src 'self' data: blob:; "
    "base-uri 'none'; form-action 'none'; frame-ancestors 'none'"
)
HEADERS: Tuple[Tuple[str, str], ...] = (
    ("Content-Security-Policy", POLICY),
    ("X-Content-Type-Options", "nosniff"),
    ("Referrer-Policy", "no-referrer"),
    ("Cache-Control", "no-store"),
    ("Cross-Origin-Resource-Policy", "same-origin"),
    ("Cross-Origin-Opener-Policy", "same-origin"),
)


@dataclass(frozen=True)
class Gate:
    """What a request has to bear: one of these hosts, the same origin where it has one, and the token.

    Attributes
    ----------
    token : str
        128 bits in hexadecimal digits.
    hosts : frozenset of str
        As `127.0.0.1:8123`.

    Examples
    --------
    >>> gate = Gate.made(8123)
    >>> gate.lets_in(["localhost:8123"], []), gate.lets_in(["localhost:8123"], ["http://localhost:80"])
    (True, False)
    >>> gate.knows([gate.token]), gate.knows([]), gate.knows([gate.token] * 2)
    (True, False, False)
    """

    token: str
    hosts: FrozenSet[str]

    @classmethod
    def made(cls, port: int, more: Iterable[str] = ()) -> "Gate":
        """A gate with a new token, for a port of this machine and further hosts, as those of a tunnel."""
        return cls(secrets.token_hex(16), frozenset([f"127.0.0.1:{port}", f"localhost:{port}", *more]))

    def lets_in(self, hosts: Sequence[str], origins: Sequence[str]) -> bool:
        """Whether a request names exactly one host that this is, and where it names an origin exactly that host's."""
        if len(hosts) != 1 or hosts[0] not in self.hosts or len(origins) > 1:
            return False
        return not origins or origins[0] == f"http://{hosts[0]}"

    def knows(self, tokens: Sequence[str]) -> bool:
        """Whether exactly one token is given, and it is this one. How long it takes doesn't tell how much of it is right."""
        given = tokens[0] if len(tokens) == 1 else ""
        return hmac.compare_digest(given.encode("utf-8", "surrogateescape"), self.token.encode("ascii"))

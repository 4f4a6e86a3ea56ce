"""Who is answered: pages that this server gave out, on this machine, by whoever has the token.

The token is told once, in the part of the address that no browser sends, and then in messages alone. A request has to
name this very host, so that no name of another that leads to 127.0.0.1 is answered, and one that changes or tells
something has to come from a page of ours.
"""
from __future__ import annotations

import hmac
import secrets
from collections.abc import Mapping

ADDRESS = "127.0.0.1"
MOST_MESSAGE = 65_536  # bytes
MOST_BROWSERS = 16
MOST_PENDING = 32  # changes of a browser that wait
SECONDS_FOR_TOKEN = 5.0
SECONDS_FOR_BODY = 10.0
MOST_CONNECTIONS = 128
HEADERS = {
    "X-Content-Type-Options": "nosniff",
    "Referrer-Policy": "no-referrer",
    "Cache-Control": "no-store",
    "Cross-Origin-Resource-Policy": "same-origin",
    "Cross-Origin-Opener-Policy": "same-origin",
    "Server": "ltm",
}


def is_same(told: object, token: str) -> bool:
    """Whether a text is a token, in the same time for any text."""
    return isinstance(told, str) and hmac.compare_digest(told.encode("utf-8", "replace"), token.encode())


class Guard:
    """The token of a server, the one that only shows, and what it answers on a port."""

    def __init__(self, port: int) -> None:
        self.token, self.shows = secrets.token_urlsafe(24), secrets.token_urlsafe(24)
        self.hosts = frozenset(f"{name}:{port}" for name in (ADDRESS, "localhost"))
        self.origins = frozenset(f"http://{host}" for host in self.hosts)

    def knows(self, told: object) -> bool:
        """Whether this is the token; it takes the same time for any text."""
        return is_same(told, self.token)

    def may_see(self, told: object) -> bool:
        """Whether this is the token, or the one that only shows."""
        return self.knows(told) | is_same(told, self.shows)

    def is_for_us(self, host: str, headers: Mapping[str, str]) -> bool:
        """Whether a request names this host, and comes from no page of others; a page may lead here."""
        leads_here = headers.get("Sec-Fetch-Mode") == "navigate" and headers.get("Sec-Fetch-Dest") == "document"
        return host in self.hosts and (headers.get("Sec-Fetch-Site", "none") in ("none", "same-origin") or leads_here)

    def is_ours(self, origin: str | None) -> bool:
        """Whether a page that asks for more than a file of ours is one of ours."""
        return origin in self.origins

    def headers(self) -> dict[str, str]:
        """The headers of every answer: its scripts and styles are ours, and it talks to nobody else."""
        sockets = " ".join(f"ws://{host}" for host in sorted(self.hosts))
        policy = (
            f"default-src 'none'; script-src 'self'; style-src 'self'; img-src data:;"
            f" connect-src 'self' {sockets};"
            " frame-ancestors 'none'; base-uri 'none'; form-action 'none'"
        )
        return {**HEADERS, "Content-Security-Policy": policy}

"""Who may ask what: no page of another site, and changes only with the token.

A browser says for which host a request is meant, and which site's page made it. Where somebody makes a name of theirs lead to this
machine, the first is foreign, and where a page elsewhere sends a form or a script here, the second is."""

import base64
import hashlib
import hmac
import os
import secrets
from typing import Awaitable, Callable, FrozenSet, Iterable, Mapping, Optional

from aiohttp import web

LOOPBACK = ("127.0.0.1", "localhost", "[::1]")
SHORTEST_TOKEN = 16

Handler = Callable[[web.Request], Awaitable[web.StreamResponse]]


class Guard:
    """`hosts` are what a request may be meant for, as its `Host` says it; `token` is what allows changes."""

    def __init__(self, hosts: FrozenSet[str], token: Optional[str]) -> None:
        self.hosts, self.token = hosts, token
        self.origins = frozenset(f"{scheme}://{host}" for host in hosts for scheme in ("http", "https"))

    def refusal(self, path: str, headers: Mapping[str, str]) -> Optional[str]:
        """Why a request is refused, or None."""
        if headers.get("Host", "").lower() not in self.hosts:
            return "this is not the address of the console"
        origin = headers.get("Origin")
        if origin is not None and origin.lower() not in self.origins:
            return "a page of another site may not ask this"
        # A link from elsewhere to the page is harmless, and anything more is not.
        if path != "/" and headers.get("Sec-Fetch-Site", "none") not in ("none", "same-origin"):
            return "a page of another site may not ask this"
        return None

    def allows(self, headers: Mapping[str, str]) -> bool:
        """Whether a request brings the token."""
        scheme, _, given = headers.get("Authorization", "").partition(" ")
        # A header may hold bytes that are no text.
        sent = given.encode("utf-8", "surrogateescape")
        return self.token is not None and scheme == "Bearer" and hmac.compare_digest(sent, self.token.encode())


def hosts_of(host: str, port: int, more: Iterable[str]) -> FrozenSet[str]:
    """What requests may be meant for: the address that is listened at, and other names that a person gave."""
    names = set(LOOPBACK if host in (*LOOPBACK, "::1") else [f"[{host}]" if ":" in host else host])
    named = {f"{name}:{port}" for name in names} | (names if port == 80 else set())
    return frozenset(name.lower() for name in named | set(more))


def token_in(path: str) -> str:
    """The token in a file, which is made where there is none. OSError; ValueError where it is too short."""
    try:
        with open(path, encoding="utf-8") as file:
            token = file.readline().strip()
    except FileNotFoundError:
        token = secrets.token_urlsafe(24)
        with os.fdopen(os.open(path, os.O_WRONLY | os.O_CREAT | os.O_EXCL, 0o600), "w", encoding="utf-8") as made:
            made.write(token + "\n")
    if len(token) < SHORTEST_TOKEN:
        raise ValueError(f"{path}: its first line is the token, which has {SHORTEST_TOKEN} characters or more")
    return token


def digest(text: str) -> str:
    """How a policy names a script or a style that stands in the page."""
    return "'sha256-" + base64.b64encode(hashlib.sha256(text.encode()).digest()).decode() + "'"


def policy(script: str, style: str) -> str:
    """The policy of the page: its own script and style, and this server, and nothing else."""
    return "; ".join([
        "default-src 'none'", f"script-src {digest(script)}", f"style-src {digest(style)}", "connect-src 'self'", "img-src data:",
        "base-uri 'none'", "form-action 'none'", "frame-ancestors 'none'", "require-trusted-types-for 'script'", "trusted-types 'none'",
    ])


HEADERS = {
    "X-Content-Type-Options": "nosniff", "X-Frame-Options": "DENY", "Referrer-Policy": "no-referrer",
    "Cross-Origin-Resource-Policy": "same-origin", "Cache-Control": "no-store",
}
NO_PAGE = "default-src 'none'; frame-ancestors 'none'"


def middleware(guard: Guard) -> Callable[[web.Request, Handler], Awaitable[web.StreamResponse]]:
    """Refuses what the guard refuses, and gives each answer its headers."""
    @web.middleware
    async def guarded(request: web.Request, handler: Handler) -> web.StreamResponse:
        why = guard.refusal(request.path, request.headers)
        if why is not None:
            return with_headers(web.json_response({"error": "foreign", "sentence": why}, status=403))
        try:
            return with_headers(await handler(request))
        except web.HTTPException as error:
            with_headers(error)
            raise

    return guarded


def with_headers(response: web.StreamResponse) -> web.StreamResponse:
    """An answer with the headers that every answer has."""
    if not response.prepared:
        for name, value in {**HEADERS, "Content-Security-Policy": NO_PAGE}.items():
            response.headers.setdefault(name, value)
    return response

"""A session for each request of a WSGI application.

`Middleware(app, key)` puts a `Session` into the environ as `fonnalich.session`, and the lines of its cookies behind the
response's fields. These go out as the first part of the body comes, so that a generator may set cookies before it; one
that is set later raises `Sent`.
"""
from __future__ import annotations

from typing import TYPE_CHECKING, Any, Callable, Iterable, Iterator, Optional

from . import Bytes, RingKey
from ._response import NAME, ResponseSession, Sent, checked

if TYPE_CHECKING:
    from _typeshed.wsgi import StartResponse, WSGIApplication, WSGIEnvironment

__all__ = ["Middleware", "Sent"]


class Middleware:
    """An application over another one, whose requests have a session by this key of 64 bytes.

    `fallbacks` are keys that were the key before, each alone or with the moment from which it counts no more: what they
    signed or sealed is read too."""

    def __init__(self, app: WSGIApplication, key: Bytes, fallbacks: Iterable[RingKey] = ()):
        self._app, self._keys = app, checked(key, fallbacks)

    def __call__(self, environ: WSGIEnvironment, start_response: StartResponse) -> Iterable[bytes]:
        # (a header has a character for each byte)
        session = ResponseSession(environ.get("HTTP_COOKIE", "").encode("latin-1"), keys=self._keys)
        environ[NAME] = session
        head = _Head(session, start_response)
        return _Body(self._app(environ, head.start), head)


class _Head:
    """A response's status and fields, which are kept until its body begins."""

    def __init__(self, session: ResponseSession, start_response: StartResponse):
        self._session, self._start = session, start_response
        self._kept: Optional[tuple[Any, ...]] = None
        self._write: Optional[Callable[[bytes], object]] = None

    def start(self, status: str, fields: list[tuple[str, str]], exc_info: Any = None) -> Callable[[bytes], object]:
        more = () if exc_info is None else (exc_info,)
        if self._write is not None:
            # (which raises what `exc_info` has, since the fields are gone)
            return self._start(status, fields, *more)
        if self._kept is not None and exc_info is None:
            raise AssertionError("start_response was called twice")
        self._kept = status, fields, *more
        return self.write

    def send(self) -> Callable[[bytes], object]:
        """Has status and fields go out, the session's lines behind them, and returns what writes to the body."""
        if self._write is None:
            if self._kept is None:
                raise AssertionError("the body began before start_response was called")
            status, fields, *more = self._kept
            self._kept = None
            lines = [("Set-Cookie", line) for line in self._session.send()]
            self._write = self._start(status, [*fields, *lines], *more)
        return self._write

    def write(self, data: bytes) -> object:
        return self.send()(data)


class _Body:
    """The body of a response, behind its head."""

    def __init__(self, parts: Iterable[bytes], head: _Head):
        self._parts, self._head = parts, head
        self._each = iter(parts)

    def __iter__(self) -> Iterator[bytes]:
        return self

    def __next__(self) -> bytes:
        try:
            part = next(self._each)
        except StopIteration:
            self._head.send()
            raise
        self._head.send()
        return part

    def close(self) -> None:
        close = getattr(self._parts, "close", None)
        if close is not None:
            close()

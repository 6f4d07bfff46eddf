"""A session for each request of an ASGI application, as Starlette's and FastAPI's.

`Middleware(app, key)` puts a `Session` into the scope as `fonnalich.session`, and the lines of its cookies behind the
response's fields, or those of a websocket that is accepted. These go out as the first part of the body comes, so that a
stream may set cookies before it; one that is set later raises `Sent`.
"""
from __future__ import annotations

from typing import Any, Awaitable, Callable, Iterable, MutableMapping, Optional

from . import Bytes, RingKey
from ._response import NAME, ResponseSession, Sent, checked

__all__ = ["Middleware", "Sent"]

Message = MutableMapping[str, Any]
"""A message or a scope of ASGI."""
Receive = Callable[[], Awaitable[Message]]
"""What an application gets its messages by."""
Send = Callable[[Message], Awaitable[None]]
"""What an application sends its messages by."""
App = Callable[[Message, Receive, Send], Awaitable[None]]
"""An application of ASGI."""

# What has the fields, which a server keeps until the next message, and what has them and ends there.
_BEGIN = ("http.response.start", "websocket.http.response.start")
_ACCEPT = "websocket.accept"


class Middleware:
    """An application over another one, whose requests have a session by this key of 64 bytes.

    `fallbacks` are keys that were the key before, each alone or with the moment from which it counts no more: what they
    signed or sealed is read too."""

    def __init__(self, app: App, key: Bytes, fallbacks: Iterable[RingKey] = ()):
        self._app, self._keys = app, checked(key, fallbacks)

    async def __call__(self, scope: Message, receive: Receive, send: Send) -> None:
        if scope["type"] not in ("http", "websocket"):
            await self._app(scope, receive, send)
            return
        # (HTTP/2 may send a field for each cookie)
        header = b"; ".join(value for name, value in scope["headers"] if name.lower() == b"cookie")
        session = ResponseSession(header, keys=self._keys)
        response = _Response(session, send)
        await self._app({**scope, NAME: session}, receive, response.send)
        await response.begin()


class _Response:
    """What is sent, whose status and fields are kept until its body begins."""

    def __init__(self, session: ResponseSession, send: Send):
        self._session, self._send = session, send
        self._kept: Optional[Message] = None

    async def send(self, message: Message) -> None:
        if message["type"] in _BEGIN:
            self._kept = message
            return
        await self.begin()
        await self._send(self._with_lines(message) if message["type"] == _ACCEPT else message)

    async def begin(self) -> None:
        """Has status and fields go out."""
        kept, self._kept = self._kept, None
        if kept is not None:
            await self._send(self._with_lines(kept))

    def _with_lines(self, message: Message) -> Message:
        lines = [(b"set-cookie", line.encode()) for line in self._session.send()]
        return {**message, "headers": [*message.get("headers", ()), *lines]}

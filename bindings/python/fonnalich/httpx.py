"""A client for `httpx`: what requests go out by, which puts a client's header and takes the lines of each answer.

    httpx.Client(transport=Transport(client), cookies=EmptyJar())
    httpx.AsyncClient(transport=AsyncTransport(client), cookies=EmptyJar())

At a redirect it does so for each hop. The client's header takes the place of any other one, as that of `cookies=`. What
a request gets goes by its URL, whatever its `Host` header says. Without an `EmptyJar` `httpx` keeps the cookies of the
answers too, to no end, and fails by those that have other characters than ASCII. A `Fleet` of the module `fleet` may
stand in the client's place.
"""
from __future__ import annotations

import contextlib
from types import TracebackType
from typing import TYPE_CHECKING, Any, Callable, Iterator, Optional, Type, TypeVar, Union

import anyio.to_thread
import httpx

from . import _URL_NUMBER, Client, Refused, is_plain_url
from .http.cookiejar import EmptyJar, _begin_sending, _mark_as_sent, _tell_of_proxy

if TYPE_CHECKING:
    from .fleet import Fleet

__all__ = ["AsyncTransport", "EmptyJar", "Transport"]

_Told = TypeVar("_Told")


@contextlib.contextmanager
def _telling_of_proxies() -> Iterator[None]:
    try:
        yield
    except httpx.ProxyError as why:
        _tell_of_proxy(why)
        raise


class Transport(httpx.BaseTransport):
    """A transport by a client, over another one, else over an `HTTPTransport` of `httpx` that is made of the other
    words."""

    def __init__(self, client: Union[Client, Fleet], over: Optional[httpx.BaseTransport] = None, **how: Any):
        self.client = client
        self.over = httpx.HTTPTransport(**how) if over is None else over
        _begin_sending(client)

    def handle_request(self, request: httpx.Request) -> httpx.Response:
        """Sends a request with the client's header, and has the client take the lines of the answer."""
        url = _put(self.client, request)
        with _telling_of_proxies():
            response = self.over.handle_request(request)
        try:
            _take(self.client, url, response)
        except BaseException:
            # (nobody else gives its connection back)
            response.close()
            raise
        return response

    def close(self) -> None:
        """Closes what requests go out by."""
        self.over.close()

    def __enter__(self) -> Transport:
        self.over.__enter__()
        return self

    def __exit__(self, kind: Optional[Type[BaseException]] = None, why: Optional[BaseException] = None,
                 trace: Optional[TracebackType] = None) -> None:
        self.over.__exit__(kind, why, trace)


class AsyncTransport(httpx.AsyncBaseTransport):
    """The same for tasks, over an `AsyncHTTPTransport` where no other one is given. A fleet's store may wait for a
    server: so its calls are made by a thread, and other tasks go on meanwhile."""

    def __init__(self, client: Union[Client, Fleet], over: Optional[httpx.AsyncBaseTransport] = None, **how: Any):
        self.client = client
        self.over = httpx.AsyncHTTPTransport(**how) if over is None else over
        _begin_sending(client)

    async def handle_async_request(self, request: httpx.Request) -> httpx.Response:
        """Sends a request with the client's header, and has the client take the lines of the answer."""
        url = await self._called(_put, request)
        with _telling_of_proxies():
            response = await self.over.handle_async_request(request)
        try:
            await self._called(_take, url, response)
        except BaseException:
            await response.aclose()
            raise
        return response

    async def _called(self, call: Callable[..., _Told], *words: Any) -> _Told:
        """What a call by the client tells."""
        if isinstance(self.client, Client):
            return call(self.client, *words)
        return await anyio.to_thread.run_sync(call, self.client, *words)

    async def aclose(self) -> None:
        """Closes what requests go out by."""
        await self.over.aclose()

    async def __aenter__(self) -> AsyncTransport:
        await self.over.__aenter__()
        return self

    async def __aexit__(self, kind: Optional[Type[BaseException]] = None, why: Optional[BaseException] = None,
                        trace: Optional[TracebackType] = None) -> None:
        await self.over.__aexit__(kind, why, trace)


def _asked(url: httpx.URL) -> str:
    """The URL of what `httpx` connects to and asks there. It is refused where the client could read another site, as
    of a path without a slash, behind which a text goes on with the host."""
    host = url.raw_host.decode("ascii")
    port = f":{url.port}" if url.port is not None else ""
    # (a WebSocket's cookies are those of its handshake)
    scheme = {"ws": "http", "wss": "https"}.get(url.scheme, url.scheme)
    site = f"{scheme}://{f'[{host}]' if ':' in host else host}{port}"
    path: str = url.raw_path.decode("ascii")
    if not is_plain_url(f"{site}/") or not path.startswith("/"):
        raise Refused(_URL_NUMBER)
    return site + path


def _put(client: Union[Client, Fleet], request: httpx.Request) -> str:
    """Puts the client's header into a request, byte for byte, and returns the URL."""
    url = _asked(request.url)
    header = client.header(url).encode("utf-8", "surrogateescape")
    others = [(name, value) for name, value in request.headers.raw if name.lower() != b"cookie"]
    request.headers = httpx.Headers([*others, *([(b"Cookie", header)] if header else [])])
    _mark_as_sent(request, client)
    return url


def _take(client: Union[Client, Fleet], url: str, response: httpx.Response) -> None:
    lines = [value for name, value in response.headers.raw if name.lower() == b"set-cookie"]
    # (a line feed, which HTTP/2 could bring, would make two of one)
    client.receive(url, [line for line in lines if b"\n" not in line])

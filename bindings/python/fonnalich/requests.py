"""A client for `requests`: `Jar` for the cookies of a session, and `Adapter`, which its requests go out by.

    session.cookies = Jar(client)
    session.mount("https://", Adapter(client))
    session.mount("http://", Adapter(client))
"""
from __future__ import annotations

from typing import TYPE_CHECKING, Any, Union

from . import Client
from .http.cookiejar import (EmptyJar, Jar, NotSent, _asked, _begin_sending, _mark_as_sent, _Sendable, _Shown,
                             _tell_of_proxy)

if TYPE_CHECKING:
    from .fleet import Fleet

__all__ = ["Adapter", "Jar"]


def _refuse_others(request: Any) -> None:
    """Raises where a request has other cookies than the client's, which `requests` copies. Behind that its table stays
    empty, into which `requests` would put the lines of a redirect too."""
    if any(not isinstance(it, _Shown) for it in request._cookies or ()):
        raise NotSent("cookies= of a request isn't sent, and session.cookies has to be a Jar(client): put a cookie in "
                      "by session.cookies.set(name, value, domain=host), or by fleet.receive(url, lines), or send a "
                      "header, headers={'Cookie': ..}")
    if not isinstance(request._cookies, Jar):
        request._cookies = EmptyJar()


class Adapter:
    """An adapter for `requests`: mount it for `http://` and `https://` of a session whose `cookies` are `Jar(client)`.
    A `Fleet` may stand in the client's place.

    It puts the header of each request, at a redirect anew. A `Cookie` header of the caller's own goes out instead, up
    to a redirect. `cookies=` of a request raises `NotSent`. What a request gets goes by its URL, whatever its `Host`
    header says, while `requests` has the lines of the answer taken as from that host.
    A URL whose host isn't plain is refused as `Url`. Requests go out by `over`, else by an `HTTPAdapter` of `requests`
    that is made of the other words.
    """

    def __init__(self, client: Union[Client, Fleet], over: Any = None, **how: Any):
        # (nobody else loads `requests`)
        from requests.adapters import HTTPAdapter
        self.client = client
        self.over = HTTPAdapter(**how) if over is None else over
        _begin_sending(client)

    def send(self, request: Any, *words: Any, **how: Any) -> Any:
        """Sends a request with the client's header, but where the caller put one."""
        _refuse_others(request)
        given = request.headers.get("Cookie")
        if given is None or isinstance(given, _Sendable):
            self._put(request)
        _mark_as_sent(request, self.client)
        from requests.exceptions import ProxyError
        try:
            return self.over.send(request, *words, **how)
        except ProxyError as why:
            _tell_of_proxy(why)
            raise

    def close(self) -> None:
        """Closes what requests go out by."""
        self.over.close()

    def _put(self, request: Any) -> None:
        header = self.client.header(_asked(request.url, False))
        if header:
            request.headers["Cookie"] = _Sendable(header)
        else:
            request.headers.pop("Cookie", None)

"""Flask's session as a sealed cookie: `init_app(app, key)`.

What `flask.session` holds is JSON, as Flask writes it, in the cookie `__Host-session`. It is encrypted, so that its
user can't read it, and under that prefix no neighbour site can set, shadow or expire it. A client takes it over https
alone: for a trial by http at `localhost` name it `sid`.
"""
from __future__ import annotations

import datetime
import functools
import json
import time
import warnings
from typing import TYPE_CHECKING, Any, Callable, Iterable, Optional

from flask.sessions import SecureCookieSession, SessionInterface, session_json_serializer

from . import Bytes, RingKey, _site
from ._sealed import SealedCookie, attributes_of

if TYPE_CHECKING:
    from flask import Flask, Request, Response

__all__ = ["SealedSession", "Sessions", "init_app"]

# What a client has to keep of a name and a value (RFC 6265, section 6.1).
_LONGEST = 4096
# What Flask writes of values that JSON has, and of those of one type: by Flask itself it takes three times as long.
_ENCODER = json.JSONEncoder(separators=(",", ":"))
_text: Callable[[str], str] = getattr(json.encoder, "encode_basestring_ascii", json.encoder.py_encode_basestring_ascii)
_WRITERS: dict[type, Callable[[Any], str]] = {str: _text, int: repr, bool: {False: "false", True: "true"}.__getitem__}
# The value at a place of a JSON, and where it ends; `StopIteration` where there is none.
_scan: Callable[[str, int], tuple[Any, int]] = getattr(json.JSONDecoder(), "scan_once")
# What Flask asks of each value that it writes, where nobody added to that.
_TAGS = [*session_json_serializer.order]
# How Flask begins what stands for a value that JSON hasn't, as a date.
_TAGGED = '{" '
# The name that Flask's own settings have.
_FLASK_NAME = "session"


def init_app(app: Flask, key: Bytes, name: Optional[str] = None, fallbacks: Iterable[RingKey] = ()) -> None:
    """Has the sessions of an application be sealed by this key of 64 bytes.

    `fallbacks` are keys that were the key before, as Flask's `SECRET_KEY_FALLBACKS`, each alone or with the moment from
    which it counts no more: sessions are opened by them too, and sealed by the key.

    `SESSION_COOKIE_HTTPONLY`, `SESSION_COOKIE_SAMESITE` (none is `Lax`), `SESSION_COOKIE_PARTITIONED`,
    `SESSION_REFRESH_EACH_REQUEST` and `PERMANENT_SESSION_LIFETIME` count as Flask says. The cookie has the name of
    `SESSION_COOKIE_NAME`, which is `__Host-session` where that is Flask's own `session`; another `name` beside it is
    refused as `ValueError`. So are a domain and a path, since the cookie is its host's, and `SESSION_COOKIE_SECURE`
    where it isn't True, as Flask has it by default. These are read here: set them before.
    """
    config, set_name = app.config, app.config["SESSION_COOKIE_NAME"]
    wrong = []
    if not config["SESSION_COOKIE_SECURE"]:
        wrong.append('SESSION_COOKIE_SECURE has to be True: say app.config["SESSION_COOKIE_SECURE"] = True before this '
                     "call. The cookie goes by https alone, or from localhost where its name has no __Host-")
    if config["SESSION_COOKIE_DOMAIN"]:
        wrong.append("SESSION_COOKIE_DOMAIN has to be None: the cookie is of its host alone")
    if (config["SESSION_COOKIE_PATH"] or config["APPLICATION_ROOT"]) != "/":
        wrong.append("SESSION_COOKIE_PATH has to be /: the cookie is of all paths, also beside an APPLICATION_ROOT")
    if not set_name or name == "":
        wrong.append("SESSION_COOKIE_NAME has to be a name")
    if name is not None and set_name not in (_FLASK_NAME, name):
        wrong.append(f"SESSION_COOKIE_NAME is {set_name!r}, and init_app is given the name {name!r}: say one")
    try:
        _same_site_of(config["SESSION_COOKIE_SAMESITE"])
    except ValueError as why:
        wrong.append(f"SESSION_COOKIE_SAMESITE: {why}")
    if wrong:
        raise ValueError("; ".join(wrong))
    name = name or (set_name if set_name != _FLASK_NAME else "__Host-session")
    app.session_interface, config["SESSION_COOKIE_NAME"] = Sessions(key, name, fallbacks), name


def _same_site_of(told: Optional[str]) -> str:
    """The word of `SameSite` that a setting has, which may have it in any case, as in Flask."""
    word = "Lax" if told is None else str(told).title()
    _site(word)
    return word


class SealedSession(SecureCookieSession):
    """What `flask.session` is: a dict that keeps whether it was read and changed."""

    # That of its request.
    _header = b""

    def __init__(self, initial: Any = None):
        # (Flask's own makes a function for each session)
        dict.__init__(self, initial or ())
        self.on_update = _mark

    def __setitem__(self, name: str, value: Any) -> None:
        # (Flask's own does the same, and takes six times as long)
        dict.__setitem__(self, name, value)
        self.modified = self.accessed = True


def _mark(session: Any) -> None:
    """Has a session be one that was changed."""
    session.modified = session.accessed = True


class Sessions(SessionInterface):
    """Opens and saves the sessions of an application, under one name and by a key of 64 bytes. What an earlier key
    sealed is opened too."""

    def __init__(self, key: Bytes, name: str = "__Host-session", fallbacks: Iterable[RingKey] = ()):
        self._cookie = SealedCookie([key, *fallbacks], name)

    def open_session(self, app: Flask, request: Request) -> SealedSession:
        """The session of a request, empty where it has none by this key, or one past its lifetime."""
        # (a header has a character for each byte)
        header: bytes = request.environ.get("HTTP_COOKIE", "").encode("latin-1")
        now = int(time.time())
        text = self._cookie.opened(header, now)
        session = SealedSession(None if text is None else _content(app, text, now))
        session._header = header
        return session

    def save_session(self, app: Flask, session: Any, response: Response) -> None:
        """Puts the line of the session's cookie into a response, where there is something to set or to remove."""
        # (older versions count it as an access too that is asked here whether the session is permanent)
        accessed, line = session.accessed, None
        if session:
            if self.should_set_cookie(app, session):
                line = self._sealed(app, session)
        elif session.modified:
            line = self._cookie.removal(session._header, int(time.time()))
        headers = response.headers
        if accessed or line is not None:
            # (a cache that keeps the answer mustn't hand it to others)
            if headers.getlist("Vary"):
                response.vary.add("Cookie")
            else:
                headers.add("Vary", "Cookie")
        if line is None:
            return
        headers.add("Set-Cookie", line)
        if line.index(";") > _LONGEST:
            warnings.warn(f"the session is over {_LONGEST} bytes, which clients needn't keep", stacklevel=2)

    def _sealed(self, app: Flask, session: SealedSession) -> str:
        now = int(time.time())
        attributes = attributes_of(bool(self.get_cookie_httponly(app)), _same_site_of(self.get_cookie_samesite(app)),
                                   bool(app.config.get("SESSION_COOKIE_PARTITIONED")))
        return self._cookie.line(_written(now, session), now, attributes,
                                 app.permanent_session_lifetime if session.permanent else None)


def _written(second: int, content: dict[str, Any]) -> str:
    """The JSON that Flask writes of a second and what a session holds."""
    plain = _plain(content)
    if plain is not None:
        return f"[{second},{plain}]"
    value = [second, dict(content)]
    try:
        return _ENCODER.encode(session_json_serializer.tag(value))
    except TypeError:
        # (the application's own JSON may have more)
        text: str = session_json_serializer.dumps(value)
        return text


def _plain(content: dict[str, Any]) -> Optional[str]:
    """The JSON of texts, whole numbers and truths under several names, each of which Flask writes as JSON does: under
    one name they may stand for something else. None where a session holds other values."""
    if len(content) < 2 or session_json_serializer.order != _TAGS:
        return None
    try:
        items = [f"{_text(name)}:{_WRITERS[type(value)](value)}" for name, value in content.items()]
    except (KeyError, TypeError):
        return None
    return f"{{{','.join(items)}}}"


def _content(app: Flask, text: str, now: int) -> Optional[dict[str, Any]]:
    """What a cookie holds, where it isn't past its lifetime, which Flask counts for a session of the browser too."""
    value: Any
    try:
        value, end = (None, -1) if _TAGGED in text or text[:1] != "[" else _scan(text, 0)
        second, content = value if end == len(text) else session_json_serializer.loads(text)
        return None if second + _seconds_of(app.permanent_session_lifetime) < now else dict(content)
    except (StopIteration, TypeError, ValueError):
        # (another program's text under this key)
        return None


@functools.lru_cache(maxsize=8)
def _seconds_of(lifetime: datetime.timedelta) -> int:
    """The whole seconds of a lifetime, as Flask counts them."""
    return int(lifetime.total_seconds())

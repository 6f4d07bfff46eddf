"""Django's session as a sealed cookie. In the settings:

    SESSION_ENGINE = "fonnalich.django"
    SESSION_COOKIE_NAME, SESSION_COOKIE_SECURE = "__Host-session", True
    FONNALICH_KEY = Path("KEY_FILE").read_bytes()

where `FONNALICH_KEY_FALLBACKS` may be a list of keys that were the key before, as Django's `SECRET_KEY_FALLBACKS`, each
alone or with the moment from which it counts no more. And in MIDDLEWARE "fonnalich.django.SessionMiddleware" in the
place of Django's, which reads a neighbour's `\\u00a0__Host-session` as the site's.

It is as `django.contrib.sessions.backends.signed_cookies`, but encrypted, so that its user can't read it; and no
neighbour site can set, shadow or expire it. As there, a cookie that was stolen holds until its end, whatever was logged
out since. That is `SESSION_COOKIE_AGE` from when it was set, or what `set_expiry` says, which the other backend tells
to the browser alone.
"""
from __future__ import annotations

import datetime
import time
from typing import Any, Optional

import django
from django.conf import settings
from django.contrib.sessions import middleware
from django.contrib.sessions.backends.base import SessionBase
from django.core.exceptions import ImproperlyConfigured

from . import RingKey
from ._sealed import SealedCookie

__all__ = ["SessionMiddleware", "SessionStore"]

_PREFIXES = ("__Host-", "__Secure-")
_OLDEST = (3, 2)

if django.VERSION < _OLDEST:
    raise ImproperlyConfigured(f"fonnalich.django asks for Django 3.2 or later, and this is {django.get_version()}")


def _cookie() -> SealedCookie:
    """The cookie of the settings, by their key and its fallbacks, where these say what the prefix `__Host-` asks."""
    wrong = []
    if not settings.SESSION_COOKIE_NAME.startswith("__Host-"):
        wrong.append("SESSION_COOKIE_NAME has to begin with __Host-")
    if not settings.SESSION_COOKIE_SECURE or settings.SESSION_COOKIE_DOMAIN or settings.SESSION_COOKIE_PATH != "/":
        wrong.append("SESSION_COOKIE_SECURE has to be True, SESSION_COOKIE_DOMAIN None and SESSION_COOKIE_PATH /")
    key = getattr(settings, "FONNALICH_KEY", None)
    if not isinstance(key, bytes) or len(key) != 64:
        wrong.append("FONNALICH_KEY has to be 64 secret bytes: os.urandom(64) makes one, which the site keeps")
    if wrong:
        raise ImproperlyConfigured("; ".join(wrong))
    keys: list[RingKey] = [bytes(key or b""), *getattr(settings, "FONNALICH_KEY_FALLBACKS", ())]
    try:
        return SealedCookie(keys, settings.SESSION_COOKIE_NAME)
    except (TypeError, ValueError) as why:
        raise ImproperlyConfigured(f"FONNALICH_KEY_FALLBACKS: {why}") from why


class SessionStore(SessionBase):
    """A session whose key is the sealed text of all that it holds, so that nothing is kept at the site."""

    def __init__(self, session_key: Optional[str] = None):
        self._cookie = _cookie()
        super().__init__(session_key)

    def load(self) -> dict[str, Any]:
        """What the cookie holds; a new session where it holds nothing by this key, or is past its age or its expiry."""
        now, header = time.time(), f"{settings.SESSION_COOKIE_NAME}={self.session_key}"
        text = self._cookie.opened(header.encode("utf-8", "surrogateescape"), int(now))
        try:
            second, _, content = (text or "").partition(" ")
            found: dict[str, Any] = self.serializer().loads(content.encode("latin-1"))
            began = datetime.datetime.fromtimestamp(int(second), datetime.timezone.utc if settings.USE_TZ else None)
            age = self.get_expiry_age(modification=began, expiry=found.get("_session_expiry"))
            if int(second) + age >= now:
                return found
        except Exception:  # (whatever a serializer of the settings raises)
            pass
        self.create()
        return {}

    def create(self) -> None:
        """Has a cookie be set."""
        self.modified = True

    def save(self, must_create: bool = False) -> None:
        """Seals what the session holds."""
        self._session_key = self._get_session_key()
        self.modified = True

    def exists(self, session_key: Optional[str] = None) -> bool:
        """Tells that no session is kept at the site."""
        return False

    def delete(self, session_key: Optional[str] = None) -> None:
        """Empties the session, so that the cookie is removed."""
        self._session_key = ""
        self._session_cache: dict[str, Any] = {}
        self.modified = True

    def cycle_key(self) -> None:
        """Seals what the session holds anew."""
        self.save()

    def _get_session_key(self) -> str:
        now = int(time.time())
        line = self._cookie.line(f"{now} {self.serializer().dumps(self._session).decode('latin-1')}", now)
        return line.partition(";")[0].partition("=")[2]

    @classmethod
    def clear_expired(cls) -> None:
        """Does nothing, since no session is kept at the site."""


def _hides_prefix(pair: str) -> bool:
    """Whether Django, which reads UTF-8 and strips all white space, reads a name under a prefix that a browser keeps
    otherwise. A header has a character for each byte."""
    name = pair.encode("latin-1").decode(errors="replace").partition("=")[0].strip(" \t")
    return name.strip().startswith(_PREFIXES) and not name.startswith(_PREFIXES)


class SessionMiddleware(middleware.SessionMiddleware):
    """Django's, which first takes out of a request's cookies those whose names Django reads as under a prefix, and a
    browser doesn't. So a neighbour may set them.

    Settings by which no `SessionStore` of this module can be are refused as the site starts, by
    `ImproperlyConfigured`."""

    def __init__(self, get_response: Any):
        super().__init__(get_response)
        # (another engine needs no key)
        if issubclass(self.SessionStore, SessionStore):
            _cookie()

    def process_request(self, request: Any) -> None:
        """Puts the session into a request."""
        header = request.META.get("HTTP_COOKIE")
        if header:
            request.META["HTTP_COOKIE"] = ";".join(it for it in header.split(";") if not _hides_prefix(it))
            # (where another middleware had Django read them)
            vars(request).pop("COOKIES", None)
        super().process_request(request)

"""What the modules for sites share: a session whose lines go out with a response's fields."""
from __future__ import annotations

from typing import Iterable

from . import Bytes, RingKey, Session

NAME = "fonnalich.session"
"""What a session stands under in a request."""


class Sent(RuntimeError):
    """A cookie was set or removed behind the response's fields, which had gone out with the first byte of its body."""


class ResponseSession(Session):
    """A session that sets no cookie any more once the response's fields have gone out: that raises `Sent`."""

    _is_sent = False

    def send(self) -> list[str]:
        """The `Set-Cookie` lines of the fields that go out now."""
        self._is_sent = True
        return self.close() if self._commands else []

    def _add(self, whole: bytes, command: bytes, nonce: bytes) -> None:
        if self._is_sent:
            raise Sent("the response's fields have gone out: set cookies before the first byte of its body")
        super()._add(whole, command, nonce)


def checked(key: Bytes, fallbacks: Iterable[RingKey]) -> list[RingKey]:
    """A key, and those that were the key before with their ends: they are refused here, not at the first request."""
    keys: list[RingKey] = [key, *fallbacks]
    # (an exchange looks at the ends)
    Session("", keys=keys).close()
    return keys

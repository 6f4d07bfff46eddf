"""What the modules for Flask and Django share: the sealed cookie that a framework keeps its session in.

It does what a `Session` does with one name, in fewer steps of Python.
"""
from __future__ import annotations

import ctypes
import functools
import os
import struct
from typing import Any, Iterable, Optional

from . import (_KEY_LENGTH, _LIB, _NONCE_LENGTH, _ROOM, Life, RingKey, Way, _answered, _escaped, _raise, _ring,
               _seconds_of, _site)

_LENGTH = struct.Struct("<q")
_SIZE = _LENGTH.size
# It gets its numbers as C's types, of which each is made once: what `argtypes` make of all at each call takes as long
# as the sealing.
_EXCHANGE = _LIB["fonnalich_exchange"]
# The same, during which no other thread of Python runs: to let them takes up to 3 µs, a fifth of a call of few bytes.
# Python's own `hashlib` lets them from as many bytes on.
_SHORT_EXCHANGE = ctypes.PyDLL(_LIB._name, handle=_LIB._handle)["fonnalich_exchange"]
_SHORT = 2047
_EXCHANGE.restype = _SHORT_EXCHANGE.restype = ctypes.c_ssize_t
_NO_SIZE, _KEY_SIZE, _NONCE_SIZE, _ROOM_SIZE = map(ctypes.c_size_t, (0, _KEY_LENGTH, _NONCE_LENGTH, _ROOM))
_SAME_SITES = {it: f"; SameSite={it}".encode() for it in ("Strict", "Lax", "None")}


class _Room:
    """What a call has to itself: where it is answered, and numbers of its own."""

    __slots__ = ("answer", "second", "header_size", "command_size")

    def __init__(self) -> None:
        self.answer: Any = ctypes.create_string_buffer(_ROOM)
        self.second, self.header_size, self.command_size = ctypes.c_int64(), ctypes.c_size_t(), ctypes.c_size_t()


class SealedCookie:
    """The sealed cookie of a name, by a ring of keys as those of `Session`. Threads may share it."""

    def __init__(self, keys: Iterable[RingKey], name: str):
        self._keys, ends = _ring(keys)
        self._key, self._ends = self._keys[:_KEY_LENGTH], (ctypes.c_int64 * (len(ends) + 1))(*ends)
        self._earlier = len(ends)
        self._name, escaped = name.encode(), _escaped(name)
        way = Way.SEALED.value
        self._get, self._set, self._remove = b"G" + way + escaped, b"S" + way + escaped + b"=", b"R" + way + escaped
        # The rooms that no call has now: each takes one out, whatever runs meanwhile.
        self._rooms: list[_Room] = []
        # An end that is none is refused here, and not at the first reading.
        self._read_by_ring(b"", 0, b"")

    def opened(self, header: bytes, now: int) -> Optional[str]:
        """The text that the cookie of a header has at this second, as `Session.get` reads it."""
        if self._name not in header and b"%" not in header:
            return None
        text = self._told(header, now, self._get)
        # (the current key is the first of the ring, and the others are seldom asked)
        return self._read_by_ring(header, now, self._get) if text is None and self._earlier else text

    def line(self, text: str, now: int, attributes: bytes = b"", max_age: Optional[Life] = None) -> str:
        """The `Set-Cookie` line that seals a text, as `Session.set` makes it. Other attributes are those of
        `attributes_of`."""
        command = self._set + _quoted(text) + attributes
        if max_age is not None:
            command += b"; Max-Age=%d" % _seconds_of(max_age)
        line = self._told(b"", now, command, os.urandom(_NONCE_LENGTH), _NONCE_SIZE)
        assert line is not None
        return line

    def removal(self, header: bytes, now: int) -> Optional[str]:
        """The line that removes the cookie of a header, where it has one."""
        return self._told(header, now, self._remove)

    def _told(self, header: bytes, now: int, command: bytes, nonce: bytes = b"",
              nonce_size: ctypes.c_size_t = _NO_SIZE) -> Optional[str]:
        """The one item of an exchange's answer by the current key, where it has one with a text."""
        try:
            room = self._rooms.pop()
        except IndexError:
            room = _Room()
        room.second.value = now
        room.header_size.value = header_length = len(header)
        room.command_size.value = command_length = len(command)
        exchange = _SHORT_EXCHANGE if header_length + command_length < _SHORT else _EXCHANGE
        length = exchange(self._key, _KEY_SIZE, header, room.header_size, room.second, command, room.command_size,
                          nonce, nonce_size, room.answer, _ROOM_SIZE)
        if length > _ROOM:
            # (nothing was written)
            text = _item(_answered(_LIB.fonnalich_exchange, self._key, header, now, command, nonce))
        elif length > _SIZE:
            text = room.answer[_SIZE:length].decode()
        else:
            _raise(length)
            text = _item(room.answer[:length])
        self._rooms.append(room)
        return text

    def _read_by_ring(self, header: bytes, now: int, command: bytes) -> Optional[str]:
        """The first item of an exchange's answer by all keys."""
        return _item(_answered(_LIB.fonnalich_exchange_on_ring, self._keys, self._ends, self._earlier, header, now,
                               command, b""))


def _item(answer: bytes) -> Optional[str]:
    """The first item of an answer, where there is one and it has a text."""
    if not answer:
        return None
    size, = _LENGTH.unpack_from(answer)
    return None if size < 0 else answer[_SIZE:_SIZE + size].decode()


@functools.lru_cache(maxsize=None)
def attributes_of(http_only: bool, same_site: Optional[str], partitioned: bool) -> bytes:
    """The attributes of a line that a site sets by these words of `Session.set`."""
    _site(same_site)
    return (b"; HttpOnly" * http_only + (b"" if same_site is None else _SAME_SITES[same_site])
            + b"; Partitioned" * partitioned)


def _quoted(text: str) -> bytes:
    """A text as a command has it, which is decoded. Of printable ASCII, as JSON is, little has to be escaped."""
    if text.isascii() and text.isprintable() and text == text.strip():
        return text.replace("%", "%25").replace(";", "%3B").encode()
    return _escaped(text)

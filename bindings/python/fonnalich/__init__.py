"""Cookies of an HTTP client and of a site (RFC 6265), by the library fonnalich, whose sources are proved.

`Session` is what a site reads and sets within one request, `Cookie` a cookie by itself. `Client` is a client, by a
public suffix `List`; `Jar` is one for `urllib`, and `Adapter` one for `requests`. The modules `flask`, `django`,
`wsgi`, `asgi`, `requests`, `httpx` and `http.cookiejar` of this package put them into what these names say. Set
FONNALICH_LIB to the path of the shared library where it lies neither beside this module nor in out/.
"""
from __future__ import annotations

import ctypes
import dataclasses
import datetime
import enum
import math
import os
import threading
import time
import urllib.parse
import weakref
from typing import Any, Callable, Iterable, Iterator, NoReturn, Optional, Tuple, TypeVar, Union

__all__ = ["Adapter", "Client", "Cookie", "End", "HeldCookie", "Imported", "Jar", "List", "NoList", "NoRules",
           "NotSent", "Reader", "Refused", "RefusedLine", "Rules", "Session", "Stopped", "Way", "is_plain_url", "shard",
           "shard_of_url", "suffix"]

_HERE = os.path.dirname(os.path.abspath(__file__))


def _path() -> str:
    """Where the shared library is: in a package beside this module, in the repository in out/."""
    beside = os.path.join(_HERE, "libfonnalich.so")
    return beside if os.path.exists(beside) else os.path.join(_HERE, "..", "..", "..", "out", "libfonnalich.so")


Bytes = Union[bytes, bytearray, memoryview]
"""What a call takes as bytes."""
Text = Union[str, Bytes]
"""What a call takes as a text: a `str` goes in as UTF-8."""
Moment = Union[int, float, datetime.datetime]
"""A moment: seconds since 1970, of which the whole part counts, or a `datetime` that has a zone."""
RingKey = Union[Bytes, Tuple[Bytes, Optional[Moment]]]
"""A key of 64 bytes, or, behind the current one, such a key with the moment from which it counts no more, or none."""
Life = Union[int, float, datetime.timedelta]
"""How long a cookie lives: seconds, of which the whole part counts, or a `timedelta`. One below 0 is 0."""


def _loaded() -> ctypes.CDLL:
    """The shared library."""
    try:
        return ctypes.CDLL(os.environ.get("FONNALICH_LIB") or _path())
    except OSError as why:
        places = f"beside this module, in {_HERE}, or where FONNALICH_LIB says, for this machine's processor"
        places += " (in a clone bindings/build makes it)"
        raise ImportError(f"fonnalich: the library libfonnalich.so has to lie {places}: {why}") from None


_LIB = _loaded()
# (the system may tell nothing of the processor, or tell of another one)
if _LIB.fonnalich_processor() < 0:
    raise ImportError("fonnalich: this processor lacks SSE 4.2, which the library needs")
_TEXT: list[Any] = [ctypes.c_char_p, ctypes.c_size_t]
_LIB.fonnalich_size.restype = ctypes.c_size_t
_LIB.fonnalich_version.argtypes = [ctypes.c_void_p, ctypes.c_size_t]
_LIB.fonnalich_version.restype = ctypes.c_ssize_t
_LIB.fonnalich_text.argtypes = [ctypes.c_int64, ctypes.c_void_p, ctypes.c_size_t]
_LIB.fonnalich_text.restype = ctypes.c_ssize_t
_LIB.fonnalich_place.argtypes = [ctypes.c_void_p]
_LIB.fonnalich_place.restype = None
_LIB.fonnalich_end.argtypes = [ctypes.c_void_p]
_LIB.fonnalich_end.restype = None
_LIB.fonnalich_act.argtypes = [ctypes.c_void_p, ctypes.c_uint32, ctypes.c_int64, *_TEXT, *_TEXT, ctypes.c_void_p,
                               ctypes.c_size_t]
_LIB.fonnalich_act.restype = ctypes.c_ssize_t
_LIB.fonnalich_one.argtypes = [ctypes.c_void_p, ctypes.c_uint32, ctypes.c_int64, *_TEXT, *_TEXT, *_TEXT,
                               ctypes.c_void_p, ctypes.c_size_t]
_LIB.fonnalich_one.restype = ctypes.c_ssize_t
_LIB.fonnalich_receive_for.argtypes = _LIB.fonnalich_one.argtypes
_LIB.fonnalich_receive_for.restype = ctypes.c_ssize_t
_LIB.fonnalich_exchange.argtypes = [*_TEXT, *_TEXT, ctypes.c_int64, *_TEXT, *_TEXT, ctypes.c_void_p, ctypes.c_size_t]
_LIB.fonnalich_exchange.restype = ctypes.c_ssize_t
_LIB.fonnalich_exchange_on_ring.argtypes = [*_TEXT, ctypes.POINTER(ctypes.c_int64), ctypes.c_size_t, *_TEXT,
                                            ctypes.c_int64, *_TEXT, *_TEXT, ctypes.c_void_p, ctypes.c_size_t]
_LIB.fonnalich_exchange_on_ring.restype = ctypes.c_ssize_t
_LIB.fonnalich_share.argtypes = [ctypes.c_void_p, ctypes.c_void_p]
_LIB.fonnalich_share.restype = ctypes.c_ssize_t
_LIB.fonnalich_is_plain_url.argtypes = _TEXT
_LIB.fonnalich_is_plain_url.restype = ctypes.c_ssize_t


class _Attributes(ctypes.Structure):
    """A cookie's attributes. A number or a text counts where its flag is set."""

    _fields_ = [
        ("max_age", ctypes.c_int64), ("expires", ctypes.c_int64), ("has_max_age", ctypes.c_bool),
        ("has_expires", ctypes.c_bool), ("has_path", ctypes.c_bool), ("has_domain", ctypes.c_bool),
        ("http_only", ctypes.c_bool), ("secure", ctypes.c_bool), ("partitioned", ctypes.c_bool),
        ("same_site", ctypes.c_uint8),
    ]


_LIB.fonnalich_parse.argtypes = [ctypes.c_bool, *_TEXT, ctypes.POINTER(_Attributes), ctypes.c_void_p, ctypes.c_size_t]
_LIB.fonnalich_parse.restype = ctypes.c_ssize_t
_LIB.fonnalich_print.argtypes = [ctypes.c_bool, ctypes.POINTER(_Attributes), *_TEXT, *_TEXT, *_TEXT, *_TEXT,
                                 ctypes.c_void_p, ctypes.c_size_t]
_LIB.fonnalich_print.restype = ctypes.c_ssize_t

_ANSWER, _HEADER, _SAVE, _RESTART, _RULES = 0, 4, 5, 6, 7
_SAVE_ALL, _RELOAD, _COUNT, _COOKIES, _CLEAR, _HEADER_BY_PAGE, _HEADER_BY_NAVIGATION = range(8, 15)
_KEEP_LIST, _CLIENT, _LOAD_BY, _SUFFIX_BY, _SHARD_BY, _SHARD_OF_URL_BY, _IMPORT, _EXPORT = range(15, 23)
_EXPORT_LASTING = 25
_GET, _REMOVE = 0, 1
_BY_USER, _BY_PAGE, _BY_NAVIGATION = 0, 1, 2
_STOPPED = -100
_ROOM = 4096
_KEY_LENGTH, _NONCE_LENGTH = 64, 12
_EARLIER_KEYS, _NO_END = 16, (1 << 63) - 1
_LIST_NUMBER, _URL_NUMBER, _SAVED_NUMBER, _EXPIRY, _HOST_NUMBER, _NO_RULE = -4, -6, -7, -13, -16, -24
_YEAR_100 = -59011459200
_EPOCH = datetime.datetime(1970, 1, 1, tzinfo=datetime.timezone.utc)


class End(enum.IntEnum):
    """What became of a line."""

    INSERTED = 0
    EXPIRED_EXISTING = 1
    UPDATED_EXISTING = 2
    NOT_TEXT = 3
    HOST_PREFIX = 4
    NON_HTTP_SCHEME = 10
    NON_RELATIVE_SCHEME = 11
    DOMAIN_MISMATCH = 12
    EXPIRED = 13
    PARSE = 14
    PUBLIC_SUFFIX = 15
    # A rule refused it.
    BY_CONTROL = 20
    BY_TOO_LONG = 21
    BY_SECURE_PREFIX = 22
    BY_HOST_PREFIX = 23
    BY_SECURE_FROM_HTTP = 24
    BY_SECURE_OVERLAY = 25
    BY_LACKS_SECURE = 26
    # Its `SameSite` did.
    BY_CROSS_SITE = 27
    BY_NONE_LACKS_SECURE = 28


class Rules(enum.IntFlag):
    """The rules of user agents (the draft that follows RFC 6265, sections 5.5 to 5.7), joined by `|`.

    The first six refuse a line: with a control character, with over 4,096 bytes of name and value, against a prefix in
    any case, Secure from a URL that isn't secure, over a Secure cookie from such a URL. The others change it:
    attributes of over 1,024 bytes are passed over, dates are read as servers send them, lives are cut at 400 days.
    With `CONTROL` a header leaves out each cookie in whose name or value such a character stands, as one of a saved
    text may have it.
    No browser has `SECURE_WINS`: a header leaves out what isn't Secure and has the name, decoded, of a Secure cookie in
    it, and one of `SameSite=None` or `Partitioned` that isn't Secure is refused from a URL that isn't secure. It rests
    on `SECURE_FROM_HTTP`.
    Two are of the draft, and `BROWSER` leaves them out, as Firefox and Safari do. `LAX_BY_DEFAULT`: where a page of
    another site starts a request, a cookie without `SameSite` is one with `SameSite=Lax`. `NONE_NEEDS_SECURE`: one with
    `SameSite=None` that isn't Secure is refused.
    """

    NONE = 0
    CONTROL = 1
    TOO_LONG = 2
    SECURE_PREFIX = 4
    HOST_PREFIX = 8
    SECURE_FROM_HTTP = 16
    SECURE_OVERLAY = 32
    LONG_ATTRIBUTES = 64
    DATES = 128
    LONG_LIVES = 256
    BROWSER = 511
    SECURE_WINS = 512
    LAX_BY_DEFAULT = 1024
    NONE_NEEDS_SECURE = 2048


def _made(kind: type[BaseException], *args: Any) -> BaseException:
    """An error of these args, whatever its constructor asks for."""
    return kind.__new__(kind, *args)


class _Passed:
    """An error that is copied and pickled as it is, so that it passes between processes: Python by itself would hand
    its text to its constructor."""

    args: tuple[Any, ...]

    def __reduce__(self) -> tuple[Any, ...]:
        return _made, (type(self), *self.args), vars(self)


class Refused(_Passed, ValueError):
    """A call was refused; `number` is that of the header file. Of several causes the number nearest to 0 is told."""

    NAMES = {-2: "Word", -3: "NoClient", -4: "List", -5: "Moment", -6: "Url", -7: "Saved", -8: "Year", -9: "Read",
             -10: "Key", -11: "Command", -12: "EmptyName", -13: "Expiry", -14: "TooLong", -15: "Nonces", -16: "Host",
             -17: "Text", -18: "Pair", -19: "Site", -20: "Rules", -21: "Line", -24: "NoRule", -25: "NoList",
             -26: "ManyKeys", -27: "Keys", -28: "KeyEnd"}

    def __init__(self, number: int):
        name, told = self.NAMES.get(number, str(number)), _told(number)
        more = f": {_INSTEAD_OF_NO_LIST}" if number == _LIST_NUMBER else ""
        super().__init__(f"{name}: {told}{more}" if told else name)
        self.number = number

    @property
    def text(self) -> str:
        """What the number says, in English."""
        return _told(self.number)


def _told(number: int) -> str:
    """What the number of a refusal says."""
    room = ctypes.create_string_buffer(128)
    return ctypes.string_at(room, _LIB.fonnalich_text(number, room, len(room))).decode()


_INSTEAD_OF_NO_LIST = "hand in what the file holds, or List.from_file(path)"
_WHOLE_LIST = "put there the whole one, of publicsuffix.org, or take List.system()"


class NoRules(Refused):
    """A public suffix list was refused that has no rule: by it no suffix would be public. So is the name of a file."""

    def __init__(self) -> None:
        super().__init__(_NO_RULE)
        self.args = (f"the text of the list has no rule: {_INSTEAD_OF_NO_LIST}",)


class NoList(FileNotFoundError):
    """The system has no public suffix list."""


class Stopped(_Passed, MemoryError):
    """Memory was refused at a line, counted from 1: those before it were taken. At 0 none was."""

    def __init__(self, line: int):
        super().__init__(f"at line {line}" if line else "before the first line")
        self.line = line


def _bytes(text: Text) -> bytes:
    if isinstance(text, str):
        return text.encode("utf-8", "surrogateescape")
    # (a class of its own may tell another length than its own)
    if type(text) is bytes:
        return text
    if not _has_bytes(text):
        raise TypeError(f"a text is wanted, in str or bytes, not {type(text).__name__}")
    # By way of a view, since `bytes` makes something of a number too.
    return memoryview(text).tobytes()


def _counted(number: int) -> int:
    """The number, where 64 bits hold it: ctypes would cut it."""
    if not -1 << 63 <= number < 1 << 63:
        # (it isn't told, since it may have thousands of digits)
        raise OverflowError("a number has over 64 bits")
    return number


def _second_of(moment: Moment) -> int:
    """The whole second in which a moment is."""
    if isinstance(moment, datetime.datetime):
        if moment.tzinfo is None:
            raise ValueError("a datetime without a zone")
        moment = (moment - _EPOCH) // datetime.timedelta(seconds=1)
    return _counted(math.floor(moment))


def _seconds_of(life: Life) -> int:
    """The whole seconds of a life. One below 0 has none, as it is read (RFC 6265, section 5.2.2)."""
    if isinstance(life, datetime.timedelta):
        life = life // datetime.timedelta(seconds=1)
    return max(_counted(math.floor(life)), 0)


def _second(now: Optional[Moment]) -> int:
    return _second_of(time.time() if now is None else now)


def _has_bytes(it: Any) -> bool:
    """Whether this is bytes of any kind, as an `array` and a `mmap` are too."""
    try:
        with memoryview(it):
            return True
    except TypeError:
        return False


def _lines(lines: Iterable[Text]) -> list[bytes]:
    """The bytes of each line. A single text is no list of lines, though each of its characters would be one."""
    if isinstance(lines, str) or _has_bytes(lines):
        raise TypeError("lines are a list: hand in [line]")
    each = [_bytes(line) for line in lines]
    if any(b"\n" in line for line in each):
        raise ValueError("a line feed in a line")
    return each


def _raise(number: int) -> None:
    """Raises what a number below 0 says."""
    if number <= _STOPPED:
        raise Stopped(_STOPPED - number)
    if number == -1:
        raise MemoryError
    if number == _NO_RULE:
        raise NoRules
    if number < 0:
        raise Refused(number)


def _answered(call: Callable[..., int], *words: Union[bytes, int, _Attributes, ctypes.Array[ctypes.c_int64]]
              ) -> bytes:
    """The answer of a call without a handle; where it has no room, the same call is made again with more."""
    given = [it for word in words for it in ([word, len(word)] if isinstance(word, bytes) else [word])]
    length = _ROOM
    while True:
        room = ctypes.create_string_buffer(length)
        length = call(*given, room, len(room))
        _raise(length)
        if length <= len(room):
            return ctypes.string_at(room, length)


def _items(answer: bytes) -> list[Optional[str]]:
    """The texts of an answer, each behind its length; one of the length -1 isn't there."""
    at, items = 0, []
    while at < len(answer):
        length = int.from_bytes(answer[at:at + 8], "little", signed=True)
        items.append(None if length < 0 else answer[at + 8:at + 8 + length].decode())
        at += 8 + max(length, 0)
    return items


__version__ = _answered(_LIB.fonnalich_version).decode()


_Result = TypeVar("_Result")


class _Locked:
    """What has a lock, so that threads may share it. A thread in a call of it makes no other, for which it would wait
    for itself. It is torn in a process that was forked while another thread had the lock."""

    def __init__(self) -> None:
        self._lock = threading.Lock()
        # The threads that have the lock, or wait for it.
        self._callers: set[int] = set()
        self._is_torn = False
        _LOCKED.add(self)

    def _alone(self, call: Callable[..., _Result], *words: Any) -> _Result:
        """What a call answers, during which no other is made of this."""
        caller = threading.get_ident()
        # (before Python 3.10 a call that an exception of a handler cut off may be left there)
        if caller in self._callers and self._lock.locked():
            raise RuntimeError("this thread is in a call of this already, as where a signal's handler makes another")
        try:
            self._callers.add(caller)
            with self._lock:
                return call(*words)
        finally:
            self._callers.discard(caller)

    def _refuse_torn(self) -> None:
        if self._is_torn:
            raise RuntimeError("this was in a call of another thread as this process was forked")


_LOCKED: weakref.WeakSet[_Locked] = weakref.WeakSet()


def _after_fork() -> None:
    """Gives each a lock again, and marks those whose own no thread of this process will open."""
    for it in list(_LOCKED):
        # (`locked` may say no of a lock that a thread which waited was just given)
        if not it._lock.acquire(blocking=False):
            it._is_torn = True
        it._lock, it._callers = threading.Lock(), set()


if hasattr(os, "register_at_fork"):
    os.register_at_fork(after_in_child=_after_fork)


class _Handle(_Locked):
    """A handle of the library. Calls of one wait for one another, so threads may share it."""

    def __init__(self) -> None:
        super().__init__()
        self._room = ctypes.create_string_buffer(_ROOM)
        self._at = ctypes.create_string_buffer(_LIB.fonnalich_size() + 16)
        self._place: Optional[int] = -(-ctypes.addressof(self._at) // 16) * 16
        _LIB.fonnalich_place(self._place)

    def _call(self, word: int, number: int, subject: bytes, text: bytes) -> bytes:
        return self._answer(_LIB.fonnalich_act, word, number, subject, text)

    def _answer(self, call: Callable[..., int], word: int, number: int, *texts: bytes) -> bytes:
        return self._alone(self._asked, call, word, number, texts)

    def _asked(self, call: Callable[..., int], word: int, number: int, texts: tuple[bytes, ...]) -> bytes:
        """The same for who is alone."""
        place = self._usable()
        given = [it for text in texts for it in (text, len(text))]
        length = call(place, word, number, *given, self._room, len(self._room))
        if length > len(self._room):
            self._room = ctypes.create_string_buffer(length)
            length = _LIB.fonnalich_act(place, _ANSWER, 0, b"", 0, b"", 0, self._room, length)
        _raise(length)
        return ctypes.string_at(self._room, length)

    def _share(self, other: _Handle) -> None:
        """Keeps the list that another keeps. Nobody else has this handle yet."""
        _raise(other._alone(lambda: int(_LIB.fonnalich_share(self._usable(), other._usable()))))

    def _usable(self) -> int:
        self._refuse_torn()
        if self._place is None:
            raise ValueError(f"this {type(self).__name__} is closed: begin another, as with what save() gave before")
        return self._place

    def _end(self) -> None:
        self._alone(self._ended)

    def _ended(self) -> None:
        """The same for who is alone."""
        if self._place is not None and not self._is_torn:
            _LIB.fonnalich_end(self._place)
        self._place = None

    def __del__(self) -> None:
        if getattr(self, "_place", None) is not None:
            self._end()


class List(_Handle):
    """A public suffix list, by its text as publicsuffix.org publishes it. `text` has it in bytes.

    It is read once, and its rules lie in memory once, however many clients have it. What is no list, as a path, is
    refused as `List`, and one without a rule, or the name of a file, as `NoRules`: by it a site could set cookies for
    `Domain=com`. That it has all rules isn't looked at.
    Threads may share it. In a process that was forked while another thread was in a call of the list, each call of it
    raises `RuntimeError`, and so does a `Client` that begins by it. So does a call within another of the same thread.
    """

    SYSTEM = "/usr/share/publicsuffix/public_suffix_list.dat"

    def __init__(self, text: Text):
        if not isinstance(text, str) and not _has_bytes(text):
            kind = type(text).__name__
            raise TypeError(f"a list's text is wanted, in str or bytes, or List.from_file(path), not {kind}")
        super().__init__()
        self.text = _bytes(text)
        self._call(_KEEP_LIST, 0, b"", self.text)
        if _is_path(self.text):
            raise NoRules

    def _ask(self, word: int, text: Text) -> str:
        """What is asked of it for a host or a URL."""
        return self._call(word, 0, _bytes(text), b"").decode("utf-8", "surrogateescape")

    def __reduce__(self) -> tuple[type[List], tuple[bytes]]:
        """Another of the same text."""
        return type(self), (self.text,)

    @classmethod
    def from_file(cls, path: Union[str, os.PathLike[str]]) -> List:
        """The list of a file."""
        with open(path, "rb") as file:
            text = file.read()
        try:
            # (as a line that is ended one rule alone isn't looked for as a file)
            return cls(text if text.endswith(b"\n") else text + b"\n")
        except Refused as why:
            why.args = (f"{os.fspath(path)}: {why.text}: {_WHOLE_LIST}",)
            raise

    @classmethod
    def system(cls) -> List:
        """The list that the system keeps up to date, as Debian's package `publicsuffix` does; `NoList` where there is
        none."""
        try:
            return cls.from_file(cls.SYSTEM)
        except FileNotFoundError as why:
            told = "no public suffix list: install Debian's package publicsuffix, or hand in List.from_file(path)"
            raise NoList(why.errno, told, cls.SYSTEM) from None


def _is_path(text: bytes) -> bool:
    """Whether a text is of one line and names a file, which could be a rule: one that is there, or any that ends in
    `.dat` or `.txt`, in any case and with white space around it."""
    # (Unicode's white space ends a rule too)
    name = text.decode("utf-8", "surrogateescape").strip().lower()
    if name.endswith((".dat", ".txt")):
        return "\n" not in name and "\0" not in name
    # Before a line feed it is a rule, whatever is there.
    return b"\n" not in text and b"\0" not in text and os.path.isfile(text)


Suffixes = Union[List, Text]
"""A public suffix list, or the text of one, which each call reads anew."""


def _list(suffixes: Suffixes) -> List:
    return suffixes if isinstance(suffixes, List) else List(suffixes)


def suffix(suffixes: Suffixes, host: str) -> str:
    """The public suffix of a host, which is in IDNA ASCII form and lower case, by a list or the text of one, which is
    read anew."""
    return _list(suffixes)._ask(_SUFFIX_BY, host)


def shard(suffixes: Suffixes, host: str) -> str:
    """The shard of a host, which is in IDNA ASCII form and lower case, by a list or the text of one: the shortest of it
    and the texts behind its dots that is no public suffix of the list; the whole host where each of them is one, and
    for an address. Hosts that can share a cookie have one shard."""
    return _list(suffixes)._ask(_SHARD_BY, host)


def shard_of_url(suffixes: Suffixes, url: Text) -> str:
    """The shard of the host of a URL, as a `Client` reads it."""
    return _list(suffixes)._ask(_SHARD_OF_URL_BY, url)


def is_plain_url(url: Text) -> bool:
    """Whether a text is a plain URL, which each program reads as the same web address.

    Ask it of a URL before you hand it to another program, as curl, a browser or a proxy. Programs read odd URLs
    differently: of `https://shop.test\\@evil.test/x` a `Client` reads the host `shop.test`, and curl `evil.test`.
    """
    text = _bytes(url)
    number: int = _LIB.fonnalich_is_plain_url(text, len(text))
    _raise(number)
    return number == 1


_SITES = [None, "Strict", "Lax", "None"]


def _site(told: Optional[str]) -> int:
    """The number of a word of `SameSite`, or of none."""
    if told not in _SITES:
        raise ValueError(f"same_site is {told!r}, none of 'Strict', 'Lax' and 'None'")
    return _SITES.index(told)


@dataclasses.dataclass
class Cookie:
    """A cookie: a name, a value and attributes. `str` gives its `Set-Cookie` line, in which nothing is escaped.

    `max_age` is in seconds or a `timedelta`, `expires` in seconds since 1970 or a `datetime` with a zone, `same_site`
    one of `Strict`, `Lax` and `None`. A year below 100 is printed as it stands, and read as one from 1970 to 2069.
    """

    name: str
    value: str
    path: Optional[str] = None
    domain: Optional[str] = None
    max_age: Optional[Life] = None
    expires: Optional[Moment] = None
    http_only: bool = False
    secure: bool = False
    partitioned: bool = False
    same_site: Optional[str] = None

    @classmethod
    def parse(cls, text: Text) -> "Cookie":
        """The cookie of a `Set-Cookie` line, or of a pair of a `Cookie` header; the domain has lost one leading dot."""
        return cls._read(False, _bytes(text))

    @classmethod
    def parse_encoded(cls, text: Text) -> "Cookie":
        """The same, whose name and value are percent-decoded."""
        return cls._read(True, _bytes(text))

    def encoded(self) -> str:
        """The line with the name and the value percent-encoded."""
        return self._printed(True)

    def __str__(self) -> str:
        return self._printed(False)

    @classmethod
    def _read(cls, decode: bool, text: bytes) -> "Cookie":
        read = _Attributes()
        name, value, path, domain = _items(_answered(_LIB.fonnalich_parse, decode, text, read))
        return cls(name or "", value or "", path, domain, read.max_age if read.has_max_age else None,
                   read.expires if read.has_expires else None, read.http_only, read.secure, read.partitioned,
                   _SITES[read.same_site])

    def _printed(self, encode: bool) -> str:
        attributes = _Attributes(
            0 if self.max_age is None else _seconds_of(self.max_age),
            0 if self.expires is None else _second_of(self.expires), self.max_age is not None,
            self.expires is not None, self.path is not None, self.domain is not None, self.http_only, self.secure,
            self.partitioned, _site(self.same_site))
        texts = [_bytes(text) for text in (self.name, self.value, self.path or "", self.domain or "")]
        return _answered(_LIB.fonnalich_print, encode, attributes, *texts).decode()


@dataclasses.dataclass(frozen=True)
class HeldCookie:
    """A cookie that a client holds. Its name and value are as they were received.

    The domain is a host's, without a leading dot, and `host_only` where the hosts below it don't get the cookie.
    `expires` is in seconds since 1970; without one the cookie ends with the session. No two of a client have the same
    domain, path and name.
    """

    domain: str
    path: str
    name: str
    value: str
    expires: Optional[int]
    host_only: bool
    secure: bool
    http_only: bool
    partitioned: bool
    same_site: Optional[str]


def _records(answer: bytes) -> Iterator[bytes]:
    """The records of an answer, one of a cookie: six items each, the last two of the second of its end and of its
    flags."""
    at = 0
    while at < len(answer):
        start = at
        for _ in range(6):
            at += 8 + int.from_bytes(answer[at:at + 8], "little")
        yield answer[start:at]


def _held(answer: bytes) -> list[HeldCookie]:
    """The cookies of an answer."""
    return [_held_of(*_parts(record)) for record in _records(answer)]


def _parts(record: bytes) -> list[bytes]:
    """The items of a record."""
    at, items = 0, []
    while at < len(record):
        end = at + 8 + int.from_bytes(record[at:at + 8], "little")
        items.append(record[at + 8:end])
        at = end
    return items


def _held_of(domain: bytes, path: bytes, name: bytes, value: bytes, end: bytes, flags: bytes) -> HeldCookie:
    has_end, host_only, secure, http_only, partitioned = (it == 1 for it in flags[:5])
    return HeldCookie(domain.decode(), path.decode(), name.decode(), value.decode(),
                      int.from_bytes(end, "little", signed=True) if has_end else None, host_only, secure, http_only,
                      partitioned, _SITES[flags[5]])


class Reader(enum.IntEnum):
    """Who reads a `cookies.txt`.

    `WGET` takes `#HttpOnly_` for a comment, so no line says to it that a cookie is HttpOnly. `PYTHON` is
    `http.cookiejar.MozillaCookieJar`, whose `load` takes session cookies with `ignore_discard=True` alone: to it no
    expiry is empty, since it takes 0 for a second of 1970.
    """

    CURL = 0
    WGET = 1
    PYTHON = 2


@dataclasses.dataclass(frozen=True)
class RefusedLine:
    """A line of a `cookies.txt` that wasn't taken: `line` is its number, counted from 1, and `number` says why, as
    FONNALICH_ROW_.. of the header file does."""

    line: int
    number: int

    @property
    def text(self) -> str:
        """Why, in English."""
        return _told(self.number)


@dataclasses.dataclass(frozen=True)
class Imported:
    """What became of the lines of a `cookies.txt` that are neither blank nor comments: how many were taken, how many
    were passed over since their cookies are expired, and which were refused."""

    taken: int
    expired: int
    refused: list[RefusedLine]


def _imported(answer: bytes) -> Imported:
    lines, taken = (int.from_bytes(answer[at:at + 8], "little") for at in (0, 8))
    refused = [RefusedLine(int.from_bytes(answer[at:at + 8], "little"), -answer[at + 8])
               for at in range(16, len(answer), 9)]
    return Imported(taken, lines - taken - len(refused), refused)


# How many names a session reads of a header one by one, before it reads all names of the header at once.
_FEW = 4


class Way(enum.Enum):
    """How a site keeps a cookie. Where a way is asked its name does too, as `"sealed"`."""

    PLAIN = b"0"
    HOST = b"1"
    SECURE = b"2"
    SIGNED = b"3"
    SEALED = b"4"


WayOrName = Union[Way, str]
"""A way, or its name."""
_WAYS = ", ".join(Way.__members__).lower()
_PREFIXES = {Way.HOST.value: b"__Host-", Way.SECURE.value: b"__Secure-"}
# How values that end are kept in a way.
_ENDING = {Way.SIGNED: b"5", Way.SEALED: b"6"}


def _way(way: WayOrName) -> Way:
    if isinstance(way, Way):
        return way
    if not isinstance(way, str):
        raise TypeError(f"a way is a Way or the name of one, not {type(way).__name__}: the names are {_WAYS}")
    found = Way.__members__.get(way.upper())
    if found is None:
        raise ValueError(f"no way is named {way!r}: the names are {_WAYS}")
    return found


def _ending(way: WayOrName) -> bytes:
    kept = _ENDING.get(_way(way))
    if kept is None:
        raise ValueError(f"{way!r}: a value that ends is signed or sealed")
    return kept


def _readings(answer: bytes, count: int) -> list[Optional[tuple[str, int]]]:
    """The first values of an answer, each with the place of its key in the eight bytes of an item behind it."""
    items = _items(answer)
    return [None if value is None else (value, int.from_bytes((place or "").encode(), "little"))
            for value, place in zip(items[:2 * count:2], items[1:2 * count:2])]


def _value(read: Optional[tuple[str, int]]) -> Optional[str]:
    return read[0] if read else None


_KEYS = "keys are a list, as [new, old, (older, end)]"
_KEY_MADE = "os.urandom(64) makes one, which the site keeps"


def _key_bytes(key: Bytes) -> bytes:
    if not _has_bytes(key):
        raise TypeError(f"a key is of 64 bytes, not {type(key).__name__}: {_KEY_MADE}; {_KEYS}")
    key = _bytes(key)
    if len(key) != _KEY_LENGTH:
        raise ValueError(f"a key of {len(key)} bytes, and not of 64: {_KEY_MADE}")
    return key


def _with_end(key: RingKey) -> tuple[bytes, Optional[Moment]]:
    """The bytes of a key, and its end where it has one."""
    if not isinstance(key, tuple):
        return _key_bytes(key), None
    if len(key) != 2:
        raise ValueError(f"a tuple of {len(key)} is no key; {_KEYS}")
    return _key_bytes(key[0]), key[1]


def _ring(keys: Iterable[RingKey]) -> tuple[bytes, list[int]]:
    """The keys one behind another, and the ends of the earlier ones."""
    each = [_with_end(key) for key in keys]
    if not each or each[0][1] is not None:
        raise ValueError("a ring begins with its current key, which has no end")
    if len(each) > _EARLIER_KEYS + 1:
        raise ValueError(f"{len(each) - 1} earlier keys")
    ends = [_NO_END if end is None else min(_second_of(end), _NO_END - 1) for _, end in each[1:]]
    return b"".join(key for key, _ in each), ends


def _escaped(text: Text) -> bytes:
    return urllib.parse.quote_from_bytes(_bytes(text), safe="").encode()


def _whole(way: Way, name: str) -> bytes:
    """The name of a cookie with the prefix of its way."""
    return _PREFIXES.get(way.value, b"") + _bytes(name)


# Unicode's white space, of which none around a name is a part of it.
_WHITE = "\t\n\v\f\r \x85\xa0\u1680" + "".join(map(chr, range(0x2000, 0x200B))) + "\u2028\u2029\u202f\u205f\u3000"


def _possible(header: bytes) -> set[bytes]:
    """What may be a name in a header: what stands before the first `=` of each pair, as it stands and decoded."""
    names = {pair.partition(b"=")[0].strip() for pair in header.split(b";")}
    names |= {name.decode("utf-8", "surrogateescape").strip(_WHITE).encode("utf-8", "surrogateescape")
              for name in names if not name.isascii()}
    return names | {urllib.parse.unquote_to_bytes(name) for name in names if b"%" in name}


def _is_utf8(text: bytes) -> bool:
    try:
        text.decode()
    except UnicodeDecodeError:
        return False
    return True


def _date(second: int) -> bytes:
    """The date of an expiry, whose year has three digits or four."""
    if second < _YEAR_100:
        raise Refused(_EXPIRY)
    return str(Cookie("a", "", expires=second)).partition("; Expires=")[2].encode()


class Session:
    """The cookies of one request of a site: those of its header, and what was set and removed since.

    A header that has a character for each byte, as those of `http.server` and WSGI, goes in as
    `header.encode("latin-1")`.
    `key` has 64 secret bytes, and is the same for all requests. So that it can be replaced, hand in `keys` for it: the
    current key and behind it at most 16 earlier ones, each alone or with the moment from which it counts no more, as
    `keys=[new, (old, next_week)]`. What is set is signed or sealed by the current key; what is read is what the first
    of the keys gives that counts at the moment of the request. This is `now`, in seconds since 1970 or a `datetime`
    with a zone; none is now. A set cookie gets `Secure` and `Path=/`. Nothing is kept behind a session, and none has to
    be closed.
    """

    def __init__(self, header: Text, key: Optional[Bytes] = None, now: Optional[Moment] = None, *,
                 keys: Optional[Iterable[RingKey]] = None):
        if keys is None and key is not None:
            keys = [key]
        elif keys is None or key is not None:
            raise TypeError("a session has a key of bytes, or keys")
        self._header, self._now = _bytes(header), _second(now)
        self._keys, ends = _ring(keys)
        self._earlier, self._ends = len(ends), (ctypes.c_int64 * (len(ends) + 1))(*ends)
        self._commands: list[bytes] = []
        self._nonces = b""
        # The lines of the last command alone.
        self._lines: list[str] = []
        # The last command of each cookie with its nonce; what may be a name in the header, what was read of it, and the
        # ways in which all was.
        self._last: dict[bytes, tuple[bytes, bytes]] = {}
        self._names: Optional[set[bytes]] = None
        self._read: dict[bytes, Optional[tuple[str, int]]] = {}
        self._ahead: set[bytes] = set()

    def get(self, way: WayOrName, name: str) -> Optional[str]:
        """The value of a name, as it was set in this way: set last here, else in the header."""
        return _value(self.get_with_place(way, name))

    def get_with_place(self, way: WayOrName, name: str) -> Optional[tuple[str, int]]:
        """The same with the place of its key: 0 is the current one, 1 the first of the earlier ones. Where it isn't 0,
        set the value anew. In the ways without a key it is 0."""
        way = _way(way)
        return self._get(way.value, _whole(way, name), name)

    def get_until(self, way: WayOrName, name: str) -> Optional[str]:
        """The value of a name that was set with an `until` in this way, before that moment; none from then on, whatever
        the client kept. Neither `get` nor this reads what was set for the other."""
        return _value(self.get_until_with_place(way, name))

    def get_until_with_place(self, way: WayOrName, name: str) -> Optional[tuple[str, int]]:
        """The same with the place of its key."""
        return self._get(_ending(way), _bytes(name), name)

    def _get(self, way: bytes, whole: bytes, name: str) -> Optional[tuple[str, int]]:
        asked = b"G" + way + _escaped(name)
        if whole in self._last:
            # What a cookie was set to last decides, whatever the header has and other names were set to.
            command, nonce = self._last[whole]
            return _readings(self._exchange(b"", [command, asked], nonce), 1)[0]
        if asked not in self._read:
            self._read_header(way, whole, asked)
        return self._read[asked]

    def _read_header(self, way: bytes, whole: bytes, asked: bytes) -> None:
        """Keeps what the header has of this name, and of all its names in this way once many were asked."""
        if self._names is None:
            self._names = _possible(self._header)
        if whole not in self._names:
            # (so it isn't read for a name that it can't have)
            self._keep(b"", [asked])
            return
        if len(self._read) >= _FEW and way not in self._ahead:
            self._ahead.add(way)
            prefix = _PREFIXES.get(way, b"")
            names = {it[len(prefix):] for it in self._names if it.startswith(prefix) and _is_utf8(it)} - {b""}
            self._keep(self._header, [b"G" + way + _escaped(name) for name in names])
        if asked not in self._read:
            self._keep(self._header, [asked])

    def _keep(self, header: bytes, asked: list[bytes]) -> None:
        self._read.update(zip(asked, _readings(self._exchange(header, asked, b""), len(asked))))

    def set(self, way: WayOrName, name: str, value: str, max_age: Optional[Life] = None,
            expires: Optional[Moment] = None, http_only: bool = False, same_site: Optional[str] = None,
            partitioned: bool = False, *, until: Optional[Moment] = None) -> None:
        """Sets a cookie in a way. `max_age` is in seconds or a `timedelta`, `expires` in seconds since 1970 or a
        `datetime` with a zone, `same_site` one of `Strict`, `Lax` and `None`. By `Way.SEALED` it takes a nonce of
        `os.urandom`.

        An expiry before the year 100 is refused as `Expiry`, since its year would be read as one from 1970 to 2069, and
        one past 9999 as `Moment`. The years 100 to 1600, by the Gregorian calendar carried back, are written as they
        stand, and a `Client` takes such a cookie as expired. But by RFC 6265, section 5.1.1, step 5, a client passes
        over such an expiry, and so keeps the cookie until its session ends. `remove` ends a cookie in either.

        With `until` the value ends: from that moment on no session reads it, whatever the client kept. It is signed or
        sealed with the moment and the name in it, `get_until` reads it, and the moment is the cookie's expiry."""
        _site(same_site)
        way = _way(way)
        if until is not None and (max_age, expires) != (None, None):
            raise ValueError("a value with an end has no other expiry")
        kept = way.value if until is None else _ending(way)
        expires = expires if until is None else until
        self._refuse_name(kept, name)
        line = b"S" + kept + _escaped(name) + b"=" + _escaped(value)
        line += b"; HttpOnly" if http_only else b""
        line += f"; SameSite={same_site}".encode() if same_site else b""
        line += b"; Partitioned" if partitioned else b""
        line += b"; Max-Age=%d" % _seconds_of(max_age) if max_age is not None else b""
        line += b"; Expires=" + _date(_second_of(expires)) if expires is not None else b""
        self._add(_whole(way, name), line, os.urandom(_NONCE_LENGTH) if way is Way.SEALED else b"")

    def _refuse_name(self, kept: bytes, name: str) -> None:
        """Refuses a name that can't be read, as a reading of it does: what sets it would be no command."""
        if not name or not _is_utf8(_bytes(name)):
            self._exchange(b"", [b"G" + kept + _escaped(name)], b"")

    def remove(self, way: WayOrName, name: str) -> None:
        """Removes the cookie of a name that was set in a way."""
        way = _way(way)
        self._add(_whole(way, name), b"R" + way.value + _escaped(name), b"")

    def close(self) -> list[str]:
        """The `Set-Cookie` line of each cookie that was set or removed, in no promised order."""
        if len(self._commands) == 1 and self._commands[0].startswith(b"S"):
            # (a cookie that is set has this line whatever the header has)
            return list(self._lines)
        items = _items(self._exchange(self._header, self._commands, self._nonces))
        return [line for line in items if line is not None]

    def __reduce__(self) -> NoReturn:
        """Raises, since a nonce is used once, and a key is kept from files."""
        raise TypeError("a Session is neither copied nor pickled: open another on the header")

    def _add(self, whole: bytes, command: bytes, nonce: bytes) -> None:
        # What a command is refused for is in itself, and so is asked of it alone.
        self._lines = [line for line in _items(self._exchange(b"", [command], nonce)) if line is not None]
        self._commands.append(command)
        self._nonces += nonce
        self._last[whole] = command, nonce

    def _exchange(self, header: bytes, commands: list[bytes], nonces: bytes) -> bytes:
        return _answered(_LIB.fonnalich_exchange_on_ring, self._keys, self._ends, self._earlier, header, self._now,
                         b"\n".join(commands), nonces)


class Client(_Handle):
    """A client that keeps what it is sent, and gives each request what it holds for it.

    A line as `str` goes in as UTF-8, and a header comes out so. What has a character for each byte, as a header from
    `http.client`, goes in as `line.encode("latin-1")`, and out as `header.encode().decode("latin-1")`: `Jar` does so.
    `suffixes` is a `List`, which the client shares, or the text of one, as publicsuffix.org publishes it, in `str` or
    bytes; one without a rule is refused as `NoRules`. Where `saved` is given, the client begins with the cookies of
    that text that aren't expired now. A moment is in seconds since 1970, of which the whole part counts, or a
    `datetime` with a zone; none is now.
    Lines come behind `rules`, by default those of browsers; `Rules.NONE` asks for none. They judge none of the cookies
    that are there, but in headers.
    Calls of one client wait for one another, so threads may share it. In a process that was forked while another thread
    was in a call of the client, each call of it raises `RuntimeError`. So does a call within another of the same
    thread, as a signal's handler may make it.
    """

    def __init__(self, suffixes: Suffixes, saved: Optional[Bytes] = None, now: Optional[Moment] = None,
                 rules: int = Rules.BROWSER):
        shared = _list(suffixes)
        super().__init__()
        self._share(shared)
        if saved is None:
            self._call(_CLIENT, 0, b"", b"")
        else:
            self._call(_LOAD_BY, _second(now), _bytes(saved), b"")
        self._put(rules)

    @property
    def rules(self) -> Rules:
        """The rules that lines come behind."""
        return self._rules

    @rules.setter
    def rules(self, rules: int) -> None:
        self._put(rules)

    def _put(self, rules: int) -> None:
        if not isinstance(rules, int):
            raise TypeError(f"rules are Rules, as Rules.BROWSER, not {type(rules).__name__}")
        self._call(_RULES, _counted(rules), b"", b"")
        self._rules = Rules(rules)

    def _one(self, word: int, second: int, domain: Text, path: Text, name: Text) -> Optional[HeldCookie]:
        held = _held(self._answer(_LIB.fonnalich_one, word, second, _bytes(domain), _bytes(path), _bytes(name)))
        return held[0] if held else None

    def receive(self, url: str, lines: Iterable[Text], now: Optional[Moment] = None, *,
                initiator: Optional[str] = None, navigates: bool = False) -> list[End]:
        """Takes the Set-Cookie lines of an answer from this URL, and says what became of each.

        `initiator` is the URL of the document at the top of the frames, where the one that started the request and each
        above it are of one site with it; else `data:,`, as for a frame of ads.com in a page of shop.com. Without it the
        user did. Where it is of another site, the answer sets no cookie whose `SameSite` is `Strict` or `Lax`, unless
        the request `navigates` the top level, by whatever method, so by a form's POST too, of which `header` isn't told
        so (the draft that follows RFC 6265, section 5.7)."""
        each = _lines(lines)
        started = _BY_USER if initiator is None else _BY_NAVIGATION if navigates else _BY_PAGE
        texts = _bytes(url), _bytes(initiator or ""), b"\n".join(each)
        answer = self._answer(_LIB.fonnalich_receive_for, started, _second(now), *texts)
        # One empty line is no text, of which nothing is told, and no cookie.
        return [End.PARSE] if each == [b""] else [End(number) for number in answer]

    def header(self, url: str, now: Optional[Moment] = None, *, initiator: Optional[str] = None,
               navigates: bool = False) -> str:
        """The Cookie header of a request to this URL; empty where it gets none.

        It is one line: behind the rule `CONTROL` a cookie that would put a control character there is left out. Without
        that rule the header is refused as `Line`, which a neighbour's line can bring about.
        `initiator` is the URL of the document at the top of the frames, where the one that starts the request and each
        above it are of one site with it; else `data:,`, as for a frame of ads.com in a page of shop.com. Without it the
        user does. Where it is of another site, cookies are left out whose `SameSite` is `Strict`, and unless the
        request `navigates` the top level with a safe method, as a link by GET, those whose is `Lax`: of a form that is
        sent by POST `navigates` is left out here, and given at `receive` (the draft that follows RFC 6265, section
        5.8.3)."""
        word = _HEADER if initiator is None else _HEADER_BY_NAVIGATION if navigates else _HEADER_BY_PAGE
        answer = self._call(word, _second(now), _bytes(url), _bytes(initiator or ""))
        return answer.decode("utf-8", "surrogateescape")

    def save(self, now: Optional[Moment] = None) -> bytes:
        """The saved text of the cookies that have an expiry and aren't expired."""
        return self._call(_SAVE, _second(now), b"", b"")

    def restart(self, now: Optional[Moment] = None) -> None:
        """Ends the session cookies, as saving and loading does."""
        self._call(_RESTART, _second(now), b"", b"")

    def import_cookies_txt(self, text: Text, now: Optional[Moment] = None) -> Imported:
        """Puts the cookies of a `cookies.txt` into the client, as curl, wget and `MozillaCookieJar.save` write it, and
        says what became of its lines.

        Each line is read by itself. Of two of one domain, path and name the later takes the place of the earlier, as of
        those that the client holds. Neither the suffix list nor `rules` judge a line, so trust the file: they don't
        keep a cookie of `Domain=com` out."""
        return _imported(self._call(_IMPORT, _second(now), b"", _bytes(text)))

    def export_cookies_txt(self, reader: Reader = Reader.CURL, *, sessions: bool = True,
                           now: Optional[Moment] = None) -> bytes:
        """The cookies that it holds and that aren't expired, as a `cookies.txt` for this reader: with those that end
        with the session, or without. Those that no line can hold are left out, as one with a tab in its value."""
        word = (_EXPORT if sessions else _EXPORT_LASTING) + Reader(reader)
        return self._call(word, _second(now), b"", b"")

    def cookies(self, now: Optional[Moment] = None) -> list[HeldCookie]:
        """The cookies that it holds and that aren't expired."""
        return _held(self._call(_COOKIES, _second(now), b"", b""))

    def count(self, now: Optional[Moment] = None) -> int:
        """How many they are."""
        return int.from_bytes(self._call(_COUNT, _second(now), b"", b""), "little")

    def get(self, domain: str, path: str, name: str, now: Optional[Moment] = None) -> Optional[HeldCookie]:
        """The cookie of this domain, path and name, where it holds one that isn't expired."""
        return self._one(_GET, _second(now), domain, path, name)

    def remove(self, domain: str, path: str, name: str) -> Optional[HeldCookie]:
        """Takes the cookie of this domain, path and name out; none where it holds none. An expired one that it still
        keeps counts too."""
        return self._one(_REMOVE, 0, domain, path, name)

    def clear(self) -> None:
        """Takes all cookies out."""
        self._call(_CLEAR, 0, b"", b"")

    def __iter__(self) -> Iterator[HeldCookie]:
        return iter(self.cookies())

    def __len__(self) -> int:
        return self.count()

    def __contains__(self, cookie: object) -> bool:
        return cookie in self.cookies()

    def __bool__(self) -> bool:
        """True, with cookies and without."""
        return True

    def close(self) -> None:
        """Gives all memory back. No other call may follow."""
        self._end()

    def __reduce__(self) -> NoReturn:
        """Raises, since two would give the same memory back."""
        raise TypeError("a Client is neither copied nor pickled: save it, and begin another with the saved text")

    def __enter__(self) -> "Client":
        return self

    def __exit__(self, *_: object) -> None:
        self.close()


# (these stand on what is above)
from .http.cookiejar import Jar, NotSent
from .requests import Adapter

"""One client on many machines: cut into shards, which lie in a store that all workers share.

    fleet = Fleet(List.system(), RedisStore(redis.Redis(retry=Retry(NoBackoff(), 0))))
    ends = fleet.receive("https://shop.com/", lines)
    header = fleet.header("https://shop.com/cart")

A shard has the cookies of all hosts that can share one, as a saved text. It lies under `fonnalich:SUM:SHARD`: sixteen
digits of the SHA-256 of the suffix list's text, and what `fonnalich.shard_of_url` says of the URL, or where that has
over 200 bytes `sha256:` and the digits of its SHA-256. A call reads one shard; `receive` puts it back where nobody
changed it meanwhile, and else begins anew. So the lines of each answer are put as a whole, one after another, and a
header is that of a moment between two. `RedisStore` and `PostgresStore` are two stores, `MemoryStore` is one for tests,
and any with the three calls of `Store` will do.
"""
from __future__ import annotations

import contextlib
import functools
import hashlib
import itertools
import os
import random
import time
from typing import Any, Callable, Iterable, Iterator, Optional, Protocol, TypeVar

from . import (_HOST_NUMBER, _LOAD_BY, _RELOAD, _SAVE_ALL, _SAVED_NUMBER, Client, End, HeldCookie, Life, Moment,
               Refused, Rules, Suffixes, Text, _bytes, _counted, _lines, _list, _Locked, _Passed, _second, _seconds_of,
               is_plain_url, shard, shard_of_url)

__all__ = ["BadShard", "Conflict", "Fleet", "MemoryStore", "PostgresStore", "RedisStore", "Store"]

# How often a shard is put before `receive` gives up, and the longest wait before that, in seconds.
_TRIES, _LONGEST = 40, 0.2
# Of how many URLs a fleet keeps the key, and of how many bytes such a URL has at most.
_URLS, _LONGEST_URL = 10000, 300
# How many bytes a shard's name in a key has at most: an index of PostgreSQL takes no longer key than 2,704 bytes.
_LONGEST_SHARD = 200
# The schemes of URLs whose hosts are as the theorem on shards asks.
_SCHEMES = {b"http", b"https", b"ws", b"wss", b"ftp"}

_Told = TypeVar("_Told")


class Conflict(_Passed, RuntimeError):
    """A shard was changed by others at each try to put it back: nothing was put. `key` is where it lies."""

    def __init__(self, key: str):
        super().__init__(f"{key} was changed at each of {_TRIES} tries")
        self.key = key


class BadShard(Refused):
    """What lies in the store is no saved text. It was left as it is. `key` is where it lies."""

    def __init__(self, key: str):
        super().__init__(_SAVED_NUMBER)
        self.args = (f"what lies under {key} is no saved text",)
        self.key = key


class Store(Protocol):
    """Where shards lie: texts under keys. A version is whatever the store tells them apart by: no two puts have one,
    even of the same text, and there is one of an absent text.

    Each call is whole: no other call is seen to come between. It may be made by several threads where a `Fleet` is.
    What it raises comes out of the fleet's call; where that was `put_if`, the text may have been put or not.
    """

    def get(self, key: str) -> tuple[Optional[bytes], Any]:
        """The text under a key, if there is one, and the version."""

    def put_if(self, key: str, version: Any, text: bytes) -> bool:
        """Puts a text under a key where the version still is this one, and says whether it did."""

    def expire(self, key: str, version: Any) -> bool:
        """Lets go of the text under a key where the version still is this one, and says whether it did."""


class Fleet:
    """A client whose cookies lie in a store. Each worker has a fleet of its own over the same list and store.

    Its calls are those of a `Client`, with the same words, outcomes and errors, and `BadShard` and `Conflict` beside
    them. A URL without a host is refused as `Host`, and so is one whose scheme isn't http, https, ws, wss or ftp. Lines
    come behind `rules`, by default those of browsers, which each worker has of its own. Threads may share a fleet where
    the store lets them. A store doesn't list its keys: so `cookies`, `clear` and `drop_expired` are of one URL's shard.

    It differs from a `Client` in three things, which come of the saved text that a shard is between two calls, and of
    the cut:

    - A cookie with `SameSite=None` or `Partitioned` that lacks `Secure` is Secure from then on, so http doesn't get it.
    - `Rules.SECURE_OVERLAY` sees the cookies of the shard alone: not those of `https://github.io/` for a line of
      `http://a.github.io/`, where `github.io` is a public suffix.
    - A cookie with an expiry before the year 0, as a `now` of that time gives it, is refused as `Year`.

    All cookies stay, expired ones too, as in a client that isn't restarted, so that each keeps its place in a header.
    `drop_expired` is for a site whose shard grows by them.
    """

    def __init__(self, suffixes: Suffixes, store: Store, rules: int = Rules.BROWSER):
        self.store, self._suffixes = store, _list(suffixes)
        self._sum = hashlib.sha256(self._suffixes.text).hexdigest()[:16]
        self._key_of = functools.lru_cache(_URLS)(self._read_key)
        # Clients that no call uses, which have read the list.
        self._clients: list[Client] = []
        self.rules = Rules(_counted(rules))

    @property
    def rules(self) -> Rules:
        """The rules that lines come behind."""
        return self._rules

    @rules.setter
    def rules(self, rules: int) -> None:
        with Client(self._suffixes, rules=rules) as client:
            self._rules, self._empty = client.rules, _text(client)

    def receive(self, url: str, lines: Iterable[Text], now: Optional[Moment] = None, *,
                initiator: Optional[str] = None, navigates: bool = False) -> list[End]:
        """Takes the Set-Cookie lines of an answer from this URL as `Client.receive` does, and says what became of each.

        They are in the store once it returns. It raises `Conflict` where others came between too often; nothing is put
        then, nor where it raises `Refused` or `Stopped`."""
        each, second = _lines(lines), _second(now)

        def change(client: Client) -> list[End]:
            return client.receive(url, each, second, initiator=initiator, navigates=navigates)

        return self._change(self._key(url), change) if each else []

    def header(self, url: str, now: Optional[Moment] = None, *, initiator: Optional[str] = None,
               navigates: bool = False) -> str:
        """The Cookie header of a request to this URL, as `Client.header` tells it; empty where it gets none. Nothing is
        put into the store."""
        second = _second(now)
        return self._read(url, lambda client: client.header(url, second, initiator=initiator, navigates=navigates))

    def cookies(self, url: str, now: Optional[Moment] = None) -> list[HeldCookie]:
        """The cookies of the URL's shard that aren't expired: those of all hosts that can share one with it."""
        second = _second(now)
        return self._read(url, lambda client: client.cookies(second))

    def remove(self, domain: str, path: str, name: str) -> Optional[HeldCookie]:
        """Takes the cookie of this domain, path and name out, as `Client.remove` does. It raises as `receive` does."""
        key = self._key_of_shard(shard(self._suffixes, domain))
        return self._change(key, lambda client: client.remove(domain, path, name))

    def clear(self, url: str) -> None:
        """Takes all cookies of the URL's shard out. It raises as `receive` does."""
        self._change(self._key(url), Client.clear)

    def drop_expired(self, url: str, now: Optional[Moment] = None) -> None:
        """Drops the cookies of the URL's shard that are expired, and keeps all others, those without an expiry too.

        No `Client` has such a call: a cookie that is set anew behind it comes last among its like in a header, where
        one client would give it the place of the expired one. It raises as `receive` does."""
        second = _second(now)
        self._change(self._key(url), lambda client: client._call(_LOAD_BY, second, _text(client), b""))

    def _read(self, url: str, told: Callable[[Client], _Told]) -> _Told:
        """What is told of a URL's shard."""
        key = self._key(url)
        text, _ = self.store.get(key)
        with self._loaded(key, text) as client:
            return told(client)

    def _change(self, key: str, change: Callable[[Client], _Told]) -> _Told:
        """What a change of the shard under a key tells, once it is in the store."""
        for tried in range(_TRIES):
            text, version = self.store.get(key)
            with self._loaded(key, text) as client:
                told = change(client)
                new = _text(client)
            if self._is_put(key, version, text, new):
                return told
            time.sleep(random.uniform(0, min(_LONGEST, 0.001 * 2 ** tried)))
        raise Conflict(key)

    def _is_put(self, key: str, version: Any, old: Optional[bytes], new: bytes) -> bool:
        """Whether a shard lies in the store as it is now. One without a cookie doesn't."""
        if new == (self._empty if old is None else old):
            return True
        return self.store.expire(key, version) if new == self._empty else self.store.put_if(key, version, new)

    def _key(self, url: str) -> str:
        """The key of a URL's shard. That of a plain URL up to its path is kept, since the list is long."""
        text = _bytes(url)
        text = b"/".join(text.split(b"/", 3)[:3]) if is_plain_url(text) else text
        return self._key_of(text) if len(text) <= _LONGEST_URL else self._read_key(text)

    def _read_key(self, url: bytes) -> str:
        name = shard_of_url(self._suffixes, url)
        if not _is_web(url):
            raise Refused(_HOST_NUMBER)
        return self._key_of_shard(name)

    def _key_of_shard(self, name: str) -> str:
        # (a host has no colon but between brackets)
        digits = hashlib.sha256(name.encode()).hexdigest() if len(name.encode()) > _LONGEST_SHARD else None
        return f"fonnalich:{self._sum}:{f'sha256:{digits}' if digits else name}"

    @contextlib.contextmanager
    def _loaded(self, key: str, text: Optional[bytes]) -> Iterator[Client]:
        """A client with all cookies of a shard, which nobody else uses meanwhile."""
        try:
            client = self._clients.pop()
        except IndexError:
            client = Client(self._suffixes)
        try:
            client.rules = self._rules
            client._call(_RELOAD, 0, self._empty if text is None else text, b"")
        except Refused as why:
            raise BadShard(key) if why.number == _SAVED_NUMBER else why from None
        yield client
        self._clients.append(client)


def _is_web(url: bytes) -> bool:
    """Whether a URL that can be read has one of `_SCHEMES`. A reader passes over spaces and controls before it, and
    over tabs and line breaks within (the URL Standard, section 4.4)."""
    return url.lstrip(bytes(range(33))).translate(None, b"\t\n\r").partition(b":")[0].lower() in _SCHEMES


def _text(client: Client) -> bytes:
    """The saved text of all cookies of a client."""
    return client._call(_SAVE_ALL, 0, b"", b"")


class MemoryStore(_Locked):
    """Shards in this process, for tests. A process that was forked has its own, of what was put before."""

    def __init__(self) -> None:
        super().__init__()
        self._count = itertools.count(1)
        self._texts: dict[str, tuple[bytes, int]] = {}

    def get(self, key: str) -> tuple[Optional[bytes], int]:
        """The text under a key, and its version: 0 where there is none."""
        return self._texts.get(key, (None, 0))

    def put_if(self, key: str, version: int, text: bytes) -> bool:
        """Puts a text where the version still is this one."""
        return self._alone(self._put, key, version, text)

    def _put(self, key: str, version: int, text: bytes) -> bool:
        if self.get(key)[1] != version:
            return False
        self._texts[key] = text, next(self._count)
        return True

    def expire(self, key: str, version: int) -> bool:
        """Lets go of a text where the version still is this one."""
        return self._alone(lambda: self.get(key)[1] == version and self._texts.pop(key, None) is not None)


class RedisStore:
    """Shards in Redis, by a `Redis` of the package `redis`, from version 4 on, that hands out bytes.

    A value is a version, sixteen random bytes, and the text. Each change is one script of one key. A `Redis` that sends
    again what it got no reply to is refused as `ValueError`: where a reply was lost, and another worker put meanwhile,
    the script that comes again would be told of a change of others, and the lines would be put twice, the second time
    over the other's. Versions 4 and 5 send nothing again unless `retry`, `retry_on_error` or `retry_on_timeout` say so,
    and none does by `retry=Retry(NoBackoff(), 0)`. A `RedisCluster` isn't asked: that of version 4 always sends again.
    Where only the reply was lost, and nobody came between, what a script put itself counts as put.

    With `life`, of a second or more, a shard that nobody changed for so long, in seconds or as a `timedelta`, is
    dropped. What was put outlives Redis only where that keeps a file: set `appendonly yes` and `appendfsync always`.
    """

    PUT = """local old = redis.call('GETRANGE', KEYS[1], 0, 15)
        if old == string.sub(ARGV[2], 1, 16) then return 1 end
        if old ~= ARGV[1] then return 0 end
        redis.call('SET', KEYS[1], unpack(ARGV, 2))
        return 1"""
    EXPIRE = """if redis.call('GETRANGE', KEYS[1], 0, 15) ~= ARGV[1] then return 0 end
        return redis.call('DEL', KEYS[1])"""

    def __init__(self, redis: Any, life: Optional[Life] = None):
        if redis.get_encoder().decode_responses:
            raise TypeError("this Redis hands out str: make it without decode_responses")
        if _is_sent_again(redis):
            raise ValueError("this Redis sends again what it got no reply to, so lines may be put twice: make it with "
                             "retry=Retry(NoBackoff(), 0), without retry_on_error and retry_on_timeout")
        if life is not None and _seconds_of(life) < 1:
            raise ValueError(f"a life of {life} is under a second")
        self.redis = redis
        self._life: list[Any] = [] if life is None else ["EX", _seconds_of(life)]

    def get(self, key: str) -> tuple[Optional[bytes], bytes]:
        """The text under a key, and its version: no byte where there is none."""
        value = self.redis.get(key)
        return (None, b"") if value is None else (value[16:], value[:16])

    def put_if(self, key: str, version: bytes, text: bytes) -> bool:
        """Puts a text where the version still is this one."""
        return bool(self.redis.eval(self.PUT, 1, key, version, self.fresh() + text, *self._life) == 1)

    def expire(self, key: str, version: bytes) -> bool:
        """Lets go of a text where the version still is this one."""
        return bool(self.redis.eval(self.EXPIRE, 1, key, version) == 1)

    def fresh(self) -> bytes:
        """A version that no other put has."""
        return os.urandom(16)


def _is_sent_again(redis: Any) -> bool:
    """Whether a connection of this `Redis` sends again what it got no reply to. (A `RedisCluster` has no pool.)"""
    pool = getattr(redis, "connection_pool", None)
    return pool is not None and pool.connection_class(**pool.connection_kwargs).retry._retries != 0


class PostgresStore(_Locked):
    """Shards in PostgreSQL, by a connection of `psycopg2`, in the table `fonnalich`, which `create` makes.

    The connection is the store's alone, at any level of isolation, with `autocommit` or without: each call is one
    statement, and a transaction of it. One that PostgreSQL refuses since others came between (`pgcode` 40001) did
    nothing, and is made again. Where the connection is lost each call raises: make a new store then, and in a process
    that was forked, since two can't share a connection. Where it was forked while another thread was in a call of the
    store, each call of it there raises `RuntimeError`.
    A row's `changed` is when it was put, so `DELETE FROM fonnalich WHERE changed < now() - interval '90 days'` drops
    what nobody changed since then.
    """

    TABLE = """CREATE TABLE IF NOT EXISTS fonnalich (key text PRIMARY KEY, version bigserial NOT NULL,
        text bytea NOT NULL, changed timestamptz NOT NULL DEFAULT now())"""
    READ = "SELECT text, version FROM fonnalich WHERE key = %s"
    INSERT = "INSERT INTO fonnalich (key, text) VALUES (%s, %s) ON CONFLICT DO NOTHING"
    # (either locks the row before it looks at the version, as SELECT .. FOR UPDATE does)
    UPDATE = "UPDATE fonnalich SET text = %s, version = DEFAULT, changed = now() WHERE key = %s AND version = %s"
    DELETE = "DELETE FROM fonnalich WHERE key = %s AND version = %s"
    # What PostgreSQL says of a transaction that it can't put into an order with others.
    SERIALIZATION_FAILURE = "40001"

    def __init__(self, connection: Any):
        super().__init__()
        self.connection = connection

    def create(self) -> None:
        """Makes the table where it isn't there."""
        self._asked(self.TABLE)

    def get(self, key: str) -> tuple[Optional[bytes], int]:
        """The text under a key, and its version: 0 where there is none."""
        _, row = self._asked(self.READ, key)
        return (None, 0) if row is None else (bytes(row[0]), row[1])

    def put_if(self, key: str, version: int, text: bytes) -> bool:
        """Puts a text where the version still is this one."""
        count, _ = self._asked(self.INSERT, key, text) if version == 0 else self._asked(self.UPDATE, text, key, version)
        return count == 1

    def expire(self, key: str, version: int) -> bool:
        """Lets go of a text where the version still is this one."""
        return self._asked(self.DELETE, key, version)[0] == 1

    def _asked(self, words: str, *values: Any) -> tuple[int, Any]:
        """How many rows a statement found, and the first one that it selects."""
        return self._alone(self._tried, words, values)

    def _tried(self, words: str, values: tuple[Any, ...]) -> tuple[int, Any]:
        """The same for who is alone."""
        self._refuse_torn()
        for _ in range(_TRIES):
            try:
                return self._run(words, values)
            except Exception as why:
                told = why
                if getattr(why, "pgcode", None) != self.SERIALIZATION_FAILURE:
                    raise
        raise told

    def _run(self, words: str, values: tuple[Any, ...]) -> tuple[int, Any]:
        """The same by one transaction."""
        try:
            with self.connection.cursor() as cursor:
                cursor.execute(words, values)
                found = cursor.rowcount, cursor.fetchone() if cursor.description else None
            self.connection.commit()
            return found
        except BaseException:
            # (a connection that is lost has nothing to take back)
            with contextlib.suppress(Exception):
                self.connection.rollback()
            raise

"""Tests the stores of `fonnalich.fleet`, over servers of Redis and PostgreSQL where these are there."""
import concurrent.futures
import contextlib
import datetime
import functools
import importlib.util
import os
import shutil
import sys
import tempfile
import unittest
import unittest.mock

from fonnalich import Client, End, List
from fonnalich.fleet import Fleet, MemoryStore, PostgresStore, RedisStore

TOP = os.path.dirname(os.path.dirname(os.path.dirname(os.path.dirname(os.path.abspath(__file__)))))
sys.path.append(f"{TOP}/tools")

from gate import servers

from frameworks.kit import blocks

LIST, URL, NOW = "com\n", "https://example.com/", 1700000000
KEY, BYTES = "fonnalich:00:example.com", bytes(range(256))


class Contract:
    """What each store has to do. `store` gives another one over the same texts."""

    def setUp(self):
        self.one, self.other = self.store(), self.store()

    def test_tells_versions(self):
        text, absent = self.one.get(KEY)
        self.assertIsNone(text)
        self.assertFalse(self.one.expire(KEY, absent))
        self.assertTrue(self.one.put_if(KEY, absent, BYTES))
        self.assertFalse(self.other.put_if(KEY, absent, b"2"))
        text, first = self.other.get(KEY)
        self.assertEqual(text, BYTES)
        self.assertTrue(self.other.put_if(KEY, first, b"3"))
        self.assertFalse(self.one.put_if(KEY, first, b"4"))
        self.assertFalse(self.one.expire(KEY, first))
        text, second = self.one.get(KEY)
        self.assertEqual(text, b"3")
        self.assertTrue(self.other.expire(KEY, second))
        self.assertEqual(self.one.get(KEY), (None, absent))
        # No text that was put later has the version of an earlier one.
        self.assertFalse(self.one.put_if(KEY, second, b"5"))
        self.assertTrue(self.one.put_if(KEY, absent, BYTES))
        for version in [absent, first, second]:
            self.assertFalse(self.one.put_if(KEY, version, b"6"))
            self.assertFalse(self.one.expire(KEY, version))
        self.assertEqual(self.other.get(KEY)[0], BYTES)

    def test_keeps_keys_apart(self):
        absent = self.one.get(KEY)[1]
        self.assertTrue(self.one.put_if(KEY, absent, b"1"))
        self.assertEqual(self.one.get(f"{KEY}2")[0], None)
        self.assertTrue(self.one.put_if(f"{KEY}2", absent, b"2"))
        self.assertEqual([self.other.get(it)[0] for it in (KEY, f"{KEY}2")], [b"1", b"2"])

    def test_puts_one_of_many(self):
        stores = [self.store() for _ in range(6)]
        with concurrent.futures.ThreadPoolExecutor(len(stores)) as threads:
            for i in range(15):
                version = self.one.get(KEY)[1]
                texts = [b"%d %d" % (i, j) for j in range(len(stores))]
                is_put = [*threads.map(lambda store, text: store.put_if(KEY, version, text), stores, texts)]
                self.assertEqual(is_put.count(True), 1)
                self.assertEqual(self.one.get(KEY)[0], texts[is_put.index(True)])

    def test_is_a_fleets(self):
        fleets = [Fleet(LIST, self.store()) for _ in range(4)]
        names = [[f"{name}{i}" for i in range(15)] for name in "abcd"]
        with concurrent.futures.ThreadPoolExecutor(len(fleets)) as threads:
            list(threads.map(lambda fleet, them: [fleet.receive(URL, [f"{it}=1"], NOW) for it in them], fleets, names))
        had = fleets[0].header(URL, NOW)
        with Client(LIST) as client:
            client.receive(URL, had.split("; "), NOW)
            self.assertEqual(client.header(URL, NOW), had)
        self.assertEqual(sorted(had.split("; ")), sorted(f"{it}=1" for them in names for it in them))


class Memory(Contract, unittest.TestCase):
    def store(self):
        self.whole = getattr(self, "whole", None) or MemoryStore()
        return self.whole


class Served(Contract):
    """A store of a server, which is begun once."""

    @classmethod
    def setUpClass(cls):
        cls.room = contextlib.ExitStack()
        cls.addClassCleanup(cls.room.close)
        cls.server = cls.kind(cls.room.enter_context(tempfile.TemporaryDirectory(prefix="stores-")))
        cls.server.start()
        cls.room.callback(lambda: cls.server.kill())


@unittest.skipUnless(importlib.util.find_spec("redis") and shutil.which("redis-server"), "Redis isn't there")
class Redis(Served, unittest.TestCase):
    kind = servers.Redis

    def store(self, **how):
        return RedisStore(self.redis(), **how)

    def redis(self, **how):
        """One that sends nothing again, in any version, unless it is told how."""
        import redis
        from redis.backoff import NoBackoff
        from redis.retry import Retry
        asked = redis.Redis(port=self.server.port, **{"retry": Retry(NoBackoff(), 0), **how})
        self.addCleanup(asked.close)
        self.addCleanup(asked.flushall)
        return asked

    def test_counts_what_it_put_itself(self):
        """A put whose reply is lost, and that is made again by whoever sends it."""
        for call in [self.one.redis.eval, lambda *words: self.one.redis.execute_command("EVAL", *words)]:
            absent = self.one.get(KEY)[1]
            once, fresh = RedisStore(self.one.redis), os.urandom(16)
            once.fresh = lambda: fresh
            self.assertEqual(call(once.PUT, 1, KEY, absent, fresh + b"1"), 1)
            self.assertTrue(once.put_if(KEY, absent, b"1"))
            self.assertEqual(self.other.get(KEY), (b"1", fresh))
            self.assertTrue(self.other.expire(KEY, fresh))

    def test_drops_after_a_life(self):
        store, absent = self.store(life=90.5), self.one.get(KEY)[1]
        self.assertTrue(store.put_if(KEY, absent, b"1"))
        self.assertIn(self.one.redis.ttl(KEY), [89, 90])
        self.assertTrue(self.one.put_if(KEY, self.one.get(KEY)[1], b"2"))
        self.assertEqual(self.one.redis.ttl(KEY), -1)

    # (the server of the page lies at Redis's own port)
    def test_of_the_page_runs(self):
        import redis
        port, names = functools.partial(redis.Redis, port=self.server.port), {}
        with unittest.mock.patch("redis.Redis", port), unittest.mock.patch.object(List, "system", lambda: List(LIST)):
            exec(blocks("Many machines")[0], names)
        self.addCleanup(self.redis)
        self.assertEqual((names["ends"], names["header"]), ([End.INSERTED], "cart=3"))

    def test_refuses_what_decodes(self):
        self.assertRaisesRegex(TypeError, "decode", RedisStore, self.redis(decode_responses=True))

    def test_refuses_what_sends_again(self):
        import redis
        from redis.backoff import NoBackoff
        from redis.retry import Retry
        lost = [redis.ConnectionError]
        for how in [{"retry_on_timeout": True}, {"retry_on_error": lost},
                    {"retry_on_error": lost, "retry": Retry(NoBackoff(), 3)},
                    {"retry_on_error": lost, "retry": Retry(NoBackoff(), -1)}]:
            asked = redis.Redis(port=self.server.port, **how)
            self.assertRaisesRegex(ValueError, "sends again", RedisStore, asked)
        url = f"redis://127.0.0.1:{self.server.port}?retry_on_timeout=true"
        self.assertRaisesRegex(ValueError, "sends again", RedisStore, redis.Redis.from_url(url))
        for how in [{}, {"retry": Retry(NoBackoff(), 0)}, {"retry_on_error": [], "retry_on_timeout": False}]:
            self.assertTrue(RedisStore(self.redis(**how)).put_if(f"{KEY}{how}", b"", b"1"))

    def test_refuses_a_life_under_a_second(self):
        for life in [0, 0.5, -1, datetime.timedelta(milliseconds=999)]:
            self.assertRaisesRegex(ValueError, "under a second", self.store, life=life)
        self.assertTrue(self.store(life=1).put_if(KEY, b"", b"1"))

    def test_tells_that_it_is_away(self):
        import redis
        fleet = Fleet(LIST, self.one)
        fleet.receive(URL, ["a=1"], NOW)
        self.server.kill()
        self.assertRaises(redis.ConnectionError, fleet.header, URL, NOW)
        self.assertRaises(redis.ConnectionError, fleet.receive, URL, ["a=2"], NOW)
        self.server.start()
        self.assertEqual(fleet.header(URL, NOW), "a=1")


def interrupt(connection, call):
    """Has a call be made before the connection's next change of a row, and behind a look of its own."""
    import psycopg2.extensions
    calls = [call]

    class Cursor(psycopg2.extensions.cursor):
        def execute(self, words, values=None):
            if calls and not words.startswith("SELECT"):
                super().execute("SELECT * FROM fonnalich")
                calls.pop()()
            super().execute(words, values)
    connection.cursor_factory = Cursor


@unittest.skipUnless(importlib.util.find_spec("psycopg2"), "psycopg2 isn't there")
class Postgres(Served, unittest.TestCase):
    kind = servers.Postgres
    MODES = [{}, {"autocommit": True}, {"isolation_level": "REPEATABLE READ"}, {"isolation_level": "SERIALIZABLE"}]

    @classmethod
    def setUpClass(cls):
        import psycopg2
        if why := servers.Postgres.missing():
            print(f"skipped: a fleet in PostgreSQL: {why}", flush=True)
            raise unittest.SkipTest(why)
        # A connection that is still open as the server has to end.
        cls.addClassCleanup(lambda: cls.held.close())
        super().setUpClass()
        cls.held = psycopg2.connect(cls.server.name)

    def setUp(self):
        self.store().create()
        self.ask("DELETE FROM fonnalich")
        super().setUp()

    def store(self, **how):
        import psycopg2
        connection = psycopg2.connect(self.server.name)
        connection.set_session(**how)
        self.addCleanup(connection.close)
        return PostgresStore(connection)

    def ask(self, words):
        connection = self.store().connection
        with connection, connection.cursor() as cursor:
            cursor.execute(words)
            return cursor.fetchall() if cursor.description else None

    def test_is_made_once(self):
        self.one.put_if(KEY, 0, b"1")
        self.other.create()
        self.assertEqual(self.one.get(KEY)[0], b"1")

    def test_holds_no_transaction(self):
        self.one.put_if(KEY, 0, b"1")
        self.one.put_if(KEY, 0, b"2")
        self.one.get(KEY)
        self.assertEqual(self.ask("SELECT count(*) FROM pg_stat_activity WHERE state LIKE 'idle in%'"), [(0,)])

    def test_puts_nothing_over_anothers(self):
        """Where another store puts between a call's look at the row and its own change, in each mode."""
        for how in self.MODES:
            for key, is_there, change in [("a", True, "put_if"), ("b", True, "expire"), ("c", False, "put_if")]:
                with self.subTest(key, how=how):
                    one, version = self.store(**how), 0
                    if is_there:
                        one.put_if(key, 0, b"1")
                        version = one.get(key)[1]
                    interrupt(one.connection, lambda: self.other.put_if(key, version, b"other"))
                    self.assertFalse(getattr(one, change)(key, version, *[b"2"] * (change == "put_if")))
                    self.assertEqual(self.one.get(key)[0], b"other")
                    self.assertTrue(one.put_if(key, one.get(key)[1], b"3"))
                    self.assertEqual(self.one.get(key)[0], b"3")
            self.ask("DELETE FROM fonnalich")

    def test_tells_that_a_connection_is_lost(self):
        import psycopg2
        self.one.put_if(KEY, 0, b"1")
        self.ask(f"SELECT pg_terminate_backend({self.one.connection.get_backend_pid()})")
        for _ in range(2):
            self.assertRaises(psycopg2.Error, self.one.get, KEY)
        self.assertEqual(self.store().get(KEY)[0], b"1")

    def test_goes_on_behind_an_error(self):
        import psycopg2
        self.ask("ALTER TABLE fonnalich RENAME TO elsewhere")
        self.assertRaises(psycopg2.Error, self.one.get, KEY)
        self.assertRaises(psycopg2.Error, self.one.put_if, KEY, 0, b"1")
        self.ask("ALTER TABLE elsewhere RENAME TO fonnalich")
        self.assertTrue(self.one.put_if(KEY, 0, b"1"))


if __name__ == "__main__":
    unittest.main()

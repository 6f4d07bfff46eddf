"""A play of a fleet: its exchanges, its site, its workers, some of which end, as Redis does, and the one client beside.

An exchange has a number, by which the site draws its lines. So what a fleet did is known from the order in which Redis
was given its shards, which a list there tells, and from what the workers wrote down of each exchange.
"""
import contextlib
import http.client
import json
import multiprocessing
import os
import random
import re
import signal
import struct
import tempfile
import threading
import time
from collections import defaultdict

from . import servers
from .bounded import patience
from .kit import read
from .site import Handler, Quiet

WORKERS = 8
# Of a play of a thousand exchanges, in seconds on a calm machine.
SECONDS = 10
LIST, NOW = "test\nco.test\n", 1700000000
PATHS = ("/", "/p", "/p/q")
NAMES = ("a", "b", "c")
# A row of a saved text.
ROW = re.compile(rb"^    \(\n.*?^    \),\n", re.M | re.S)


# ---- exchanges

class Exchange:
    """What an exchange is, by its number: its host, which is one of a few in every second, its path and its moment."""

    def __init__(self, number, hosts):
        self.number, self.draw = number, random.Random(number * 2654435761)
        host = self.draw.randrange(min(hosts, 8) if self.draw.random() < 0.5 else hosts)
        self.site = f"s{host // 4}{'.co' if host % 8 < 4 else ''}.test"
        self.host = f"h{host % 4}.{self.site}" if host % 4 else self.site
        self.path, self.now = self.draw.choice(PATHS), NOW + number // 4
        self.url = f"http://{self.host}{self.path}"
        # The lines of its answer. The first sets a cookie anew at each exchange, so each changes the shard.
        first = self.line("n", "/", False, self.draw.choice([None, 100000]))
        self.lines = [first, *(self.drawn() for _ in range(self.draw.randrange(4)))]

    def drawn(self):
        age = self.draw.choice([None, None, -1, 0, 3, 50, 100000])
        line = self.line(self.draw.choice(NAMES), self.draw.choice(PATHS), self.draw.random() < 0.4, age)
        return line + self.draw.choice(["", "; HttpOnly"])

    def line(self, name, path, is_shared, age):
        attributes = [f"Path={path}", *[f"Domain={self.site}"] * is_shared]
        attributes += [f"Max-Age={age}"] if age is not None else []
        return "; ".join([f"{name}={self.number}", *attributes])


# ---- the site

class Site(Handler):
    """Answers each request with the lines of its exchange.

    Its server knows how many `hosts` there are, the process of `redis`, and what `ends` at which exchange: that, or the
    worker a moment after it asked."""

    def do_GET(self):
        number = int(self.headers["X-Exchange"])
        what = self.server.ends.pop(number, None)
        if what:
            its = self.server.redis if what == "redis" else int(self.headers["X-Worker"])
            threading.Timer(random.random() / 100, os.kill, (its, signal.SIGKILL)).start()
        self.send_response(200)
        for it in Exchange(number, self.server.hosts).lines:
            self.send_header("Set-Cookie", it)
        self.send_header("Content-Length", "0")
        self.end_headers()


# ---- workers

def work(mine, hosts, ports, path):
    """Makes these exchanges, and writes down the header of each and the version at which it was read, and what became
    of its lines once it is told."""
    import redis
    from fonnalich import fleet
    from redis.backoff import NoBackoff
    from redis.retry import Retry

    class Noted(fleet.RedisStore):
        """A store that keeps the version of what was got last, and numbers what it puts."""

        # (beside each shard that is put there stands in which order they were)
        PUT = fleet.RedisStore.PUT.replace("redis.call('SET'", "redis.call('RPUSH', 'puts', KEYS[1], ARGV[2]) "
                                                               "redis.call('SET'")
        number, tries, got = 0, 0, b""

        def get(self, key):
            text, self.got = super().get(key)
            # (so that others come between reading a shard and putting it)
            time.sleep(0.002)
            return text, self.got

        def fresh(self):
            self.tries += 1
            return struct.pack(">QQ", self.number, os.getpid() << 32 | self.tries)

    store = Noted(redis.Redis(port=ports[0], socket_timeout=60, retry=Retry(NoBackoff(), 0)))
    shared, site = fleet.Fleet(LIST, store), http.client.HTTPConnection("127.0.0.1", ports[1])

    log = os.open(path, os.O_WRONLY | os.O_CREAT, 0o600)

    def note(number, **what):
        os.write(log, json.dumps({"number": number, **what}).encode() + b"\n")

    for number in mine:
        exchange, store.number, store.tries, header = Exchange(number, hosts), number, 0, None
        while header is None:
            with contextlib.suppress(redis.ConnectionError):
                header = shared.header(exchange.url, exchange.now)
            time.sleep(0.001)
        note(number, version=store.got.hex(), header=header)
        fields = {"X-Exchange": str(number), "X-Worker": str(os.getpid()), **({"Cookie": header} if header else {})}
        site.request("GET", exchange.path, headers=fields)
        with site.getresponse() as answer:
            lines = answer.headers.get_all("Set-Cookie")
        # (where the connection is lost it may be put or not)
        with contextlib.suppress(redis.ConnectionError):
            note(number, ends=shared.receive(exchange.url, lines, exchange.now))


# ---- the one client

class Judge:
    """Tells what is wrong with a play, by one client that takes its exchanges in the order in which they were put.

    `puts` has the key and the value of each put, and `notes` those of each worker in their order. At `least` so many
    exchanges have to be told of. What is wrong stands in `wrong`, in words."""

    def __init__(self, puts, notes, hosts, least):
        self.versions, self.texts = [value[:16] for _, value in puts], {key: value[16:] for key, value in puts}
        self.hosts, self.wrong = hosts, []
        self.place_of = {stamp_of(version)[0]: i for i, version in enumerate(self.versions)}
        # The numbers and headers that were read at each place, and what was told of each exchange's lines.
        self.headers, self.ends = defaultdict(list), {}
        for each in notes:
            self.follow(each)
        self.count(least)
        self.replay()

    def follow(self, notes):
        for note in notes:
            number = note["number"]
            if "header" in note:
                self.headers[self.read_at(number, bytes.fromhex(note["version"]))].append((number, note["header"]))
            else:
                self.ends[number] = note["ends"]

    def read_at(self, number, version):
        """The place of the put that an exchange read, or -1 where it read that there is none."""
        place = self.place_of.get(stamp_of(version)[0], -1) if version else -1
        if version and (place < 0 or self.versions[place] != version):
            self.wrong.append(f"{number} read what was never put")
        return place

    def count(self, least):
        """Looks whether each exchange was put once, if it was told that it is, and whether so many were."""
        if len(self.place_of) < len(self.versions):
            self.wrong.append(f"{len(self.versions) - len(self.place_of)} were put twice")
        self.wrong += [f"{it} was told to be put, and isn't" for it in sorted(self.ends.keys() - self.place_of.keys())]
        if len(self.ends) < least:
            self.wrong.append(f"{len(self.ends)} were told to be put, and not {least}")

    def replay(self):
        """Has one client take all, and compares each header and what became of the lines."""
        from fonnalich import Client
        with Client(LIST) as client:
            self.compare(client, -1)
            for place, version in enumerate(self.versions):
                exchange = Exchange(stamp_of(version)[0], self.hosts)
                ends = client.receive(exchange.url, exchange.lines, exchange.now)
                if self.ends.get(exchange.number, ends) != ends:
                    self.wrong.append(f"{exchange.number} was told {self.ends[exchange.number]}, not {ends}")
                self.compare(client, place)
            self.compare_texts(client)

    def compare_texts(self, client):
        """Looks whether the last texts of the shards have the client's rows, each once."""
        from fonnalich.fleet import _SAVE_ALL
        whole = client._call(_SAVE_ALL, 0, b"", b"")
        shards, alone = (sorted(ROW.findall(it)) for it in (b"".join(self.texts.values()), whole))
        if shards != alone:
            self.wrong.append(f"the shards' rows are {shards!r}, of one client {alone!r}")

    def compare(self, client, place):
        for number, header in self.headers[place]:
            exchange = Exchange(number, self.hosts)
            alone = client.header(exchange.url, exchange.now)
            if header != alone:
                self.wrong.append(f"{number} had {header!r}, one client {alone!r}")


def stamp_of(value):
    """The number of the exchange that put this, and how often it was tried until then."""
    number, tries = struct.unpack(">QQ", value[:16])
    return number, tries & 0xFFFFFFFF


# ---- the play

class Play:
    """A play: its Redis, its site and its workers, each with the exchanges that it has to make.

    `ends` says what ends, and at which exchange: a worker, or Redis."""

    def __init__(self, room, exchanges, hosts, ends):
        self.room, self.exchanges, self.hosts = room, exchanges, hosts
        self.redis, self.workers, self.logs = servers.Redis(room), {}, []
        self.killed, self.restarts, self.failed, self.puts, self.conflicts = 0, 0, [], 0, 0
        server = Quiet(("127.0.0.1", 0), Site)
        self.redis.start()
        server.hosts, server.ends, server.redis, self.port = hosts, ends, self.redis.process.pid, server.server_port
        self.site = begun(server.serve_forever)
        server.socket.close()

    def begin(self, mine):
        """Has a worker make these exchanges."""
        path = f"{self.room}/{len(self.logs)}.log"
        self.logs.append(path)
        self.workers[begun(work, mine, self.hosts, (self.redis.port, self.port), path)] = mine, path

    def run(self):
        """Has all workers make their exchanges."""
        for number in range(WORKERS):
            self.begin(range(number, self.exchanges, WORKERS))
        began = time.monotonic()
        while self.workers:
            time.sleep(0.01)
            if time.monotonic() - began > patience(SECONDS):
                raise TimeoutError("the workers have not ended")
            self.reap()
            if self.redis.process.poll() is not None:
                self.redis.start()
                self.restarts += 1

    def reap(self):
        """Looks which workers have ended, and has another one go on behind one that was killed."""
        for worker, (mine, path) in [*self.workers.items()]:
            if worker.exitcode is None:
                continue
            del self.workers[worker]
            if worker.exitcode == -signal.SIGKILL:
                self.killed += 1
                # (it was killed behind a request, which it had written down)
                self.begin(range(notes_of(path)[-1]["number"] + WORKERS, mine.stop, WORKERS))
            elif worker.exitcode:
                self.failed.append(f"a worker ended by {worker.exitcode}")

    def judge(self):
        """Looks what is wrong, how many exchanges were put, and in how many tries one came behind another one.

        A worker that is killed may not be told of one exchange, and each of them of one where Redis is."""
        import redis
        with redis.Redis(port=self.redis.port) as asked:
            puts = asked.lrange("puts", 0, -1)
        puts = [*zip(puts[::2], puts[1::2])]
        lost = self.killed + WORKERS * self.restarts
        self.wrong = Judge(puts, map(notes_of, self.logs), self.hosts, self.exchanges - lost).wrong
        self.puts, self.conflicts = len(puts), sum(stamp_of(it)[1] - 1 for _, it in puts)

    def end(self):
        for it in [*self.workers, self.site]:
            it.kill()
            it.join()
        self.redis.kill()


def notes_of(path):
    """What a worker wrote down. (The last line of one that was killed may be cut off.)"""
    return [json.loads(line) for line in read(path).splitlines(True) if line.endswith(b"\n")]


def begun(call, *given):
    """A child that makes this call."""
    child = multiprocessing.get_context("fork").Process(target=call, args=given, daemon=True)
    child.start()
    return child


def played(exchanges, hosts, killed):
    """A play that is over, in which so many workers are killed, and Redis, none so late that all have ended before."""
    numbers = random.sample(range(exchanges * 3 // 4), killed + 1)
    ends = dict(zip(numbers, ["redis", *["worker"] * killed]))
    with tempfile.TemporaryDirectory(prefix="fleet-") as room:
        play = Play(room, exchanges, hosts, ends)
        try:
            play.run()
            play.judge()
            return play
        finally:
            play.end()

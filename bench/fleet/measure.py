#!/usr/bin/env python3
"""What a fleet costs: exchanges a second by its workers, beside one process with a file, and what a shard takes.

usage: bench/fleet/measure.py

By the library of FONNALICH_LIB, else that of out/, and by the Redis that is here with its Python module.
"""
import os
import statistics
import sys
import tempfile
import time

sys.dont_write_bytecode = True
TOP = os.path.join(os.path.dirname(os.path.abspath(__file__)), "../..")
sys.path[:0] = [f"{TOP}/bindings/python", f"{TOP}/tools"]

from gate import servers
from gate.fleet import forked

NOW = 1700000000
# Exchanges of each worker, hosts, and the cookies that a host sets.
EXCHANGES, HOSTS, COOKIES = 300, 1000, 3
ROUNDS = 5
# (a look-up of a new host's shard reads the whole list, which has a line of its own)
LIST = "com\n"


def main():
    """Prints the figures, each with the machine's load at its end."""
    import redis  # noqa: F401 (so that no worker's time is that of loading it)
    with tempfile.TemporaryDirectory(prefix="figures-") as room:
        server = servers.Redis(room)
        server.start()
        try:
            for workers in (1, 2, 4, 8):
                tell(f"{workers} workers", rate(server, workers))
            sizes(server)
        finally:
            server.kill()
        parts()
        for rows in (100, 1000, 10000):
            tell(f"one process, a file of {rows} cookies", in_file(room, rows))
        for rows in (10, 100, 1000, 10000):
            long_shard(rows)


def tell(what, figure):
    print(f"{what}: {figure} (load {os.getloadavg()[0]:.1f})", flush=True)


def fleet_over(server):
    import redis
    from fonnalich.fleet import Fleet, RedisStore
    from redis.backoff import NoBackoff
    from redis.retry import Retry
    return Fleet(LIST, RedisStore(redis.Redis(port=server.port, retry=Retry(NoBackoff(), 0))))


def lines_of(number):
    return [f"name{i}={number:032x}; Path=/; Max-Age=2592000; Secure; HttpOnly" for i in range(COOKIES)]


def exchange(client, number):
    url = f"https://shop{number % HOSTS}.com/"
    client.header(url, NOW)
    client.receive(url, lines_of(number), NOW)


def rate(server, workers):
    """How many exchanges all workers make in a second: each reads a header and puts three cookies of a host. And the
    processor time that an exchange takes of a worker."""
    def work(first):
        fleet = fleet_over(server)
        exchange(fleet, first)
        os.read(begin[0], 1)
        for i in range(EXCHANGES):
            exchange(fleet, first + i * workers)

    begin = os.pipe()
    pids = [forked(lambda first=first: work(first)) for first in range(workers)]
    time.sleep(1)
    began = time.monotonic()
    os.write(begin[1], bytes(workers))
    ended, used = zip(*(os.wait4(pid, 0)[1:] for pid in pids))
    seconds = time.monotonic() - began
    for it in begin:
        os.close(it)
    if any(ended):
        raise RuntimeError(f"workers ended by {ended}")
    used = sum(it.ru_utime + it.ru_stime for it in used) / workers / EXCHANGES
    return f"{workers * EXCHANGES / seconds:.0f} exchanges a second, {used * 1000:.2f} ms of a worker's processor each"


def sizes(server):
    """How many bytes a shard has, and takes in Redis."""
    import redis
    with redis.Redis(port=server.port) as asked:
        keys = asked.keys("fonnalich:*")
        texts = [len(asked.get(it)) - 16 for it in keys[:500]]
        taken = [asked.memory_usage(it) for it in keys[:500]]
        tell(f"a shard of {COOKIES} cookies", f"{statistics.mean(texts):.0f} bytes of text, "
             f"{statistics.mean(taken):.0f} in Redis, of {len(keys)} keys of {len(keys[0])} bytes")


def least(call, times):
    """The least processor time of a call among rounds, in microseconds."""
    rounds = []
    for _ in range(ROUNDS):
        began = time.process_time()
        for i in range(times):
            call(i)
        rounds.append((time.process_time() - began) / times * 1e6)
    return min(rounds)


def parts():
    """What an exchange takes over a store in memory."""
    from fonnalich import List, is_plain_url, shard_of_url
    from fonnalich.fleet import Fleet, MemoryStore
    suffixes = List.system()
    fleet = Fleet(suffixes, MemoryStore())
    fleet.receive("https://shop.com/", lines_of(0), NOW)
    tell("a header, in memory", f"{least(lambda i: fleet.header('https://shop.com/', NOW), 300):.0f} us")
    tell("lines, in memory",
         f"{least(lambda i: fleet.receive('https://shop.com/', lines_of(i), NOW), 300):.0f} us")
    tell("whether a URL is plain", f"{least(lambda i: is_plain_url('https://shop.com/'), 300):.1f} us")
    tell("the shard of a new host", f"{least(lambda i: shard_of_url(suffixes, 'https://shop.com/'), 5):.0f} us")


def in_file(room, rows):
    """How many exchanges one process makes in a second, which saves its file at each, and its processor time."""
    from fonnalich import Client
    with Client(LIST) as client:
        for number in range(rows // COOKIES + 1):
            exchange(client, number)
        times, began, used = 100, time.monotonic(), time.process_time()
        for number in range(times):
            exchange(client, number)
            put(f"{room}/jar", client.save(NOW))
        rate, used = times / (time.monotonic() - began), (time.process_time() - used) / times
        return f"{rate:.0f} exchanges a second, {used * 1000:.2f} ms of its processor each"


def put(path, text):
    """Puts a text into a file, and on the disk, or nothing of it."""
    with open(f"{path}.new", "wb") as file:
        file.write(text)
        file.flush()
        os.fsync(file.fileno())
    os.replace(f"{path}.new", path)


def long_shard(rows):
    """What a call takes where a shard has so many cookies, of so many hosts of a site."""
    from fonnalich import List
    from fonnalich.fleet import Fleet, MemoryStore
    store = MemoryStore()
    fleet = Fleet(List.system(), store)
    for i in range(0, rows, 100):
        names = [f"name{j}=0123456789abcdef0123456789abcdef; Path=/; Max-Age=2592000" for j in range(min(100, rows))]
        fleet.receive(f"https://h{i // 100}.shop.com/", names, NOW)
    times = max(3, 1000 // rows)
    header = least(lambda i: fleet.header("https://h0.shop.com/none", NOW), times)
    lines = least(lambda i: fleet.receive("https://h0.shop.com/", [f"name0={i}; Path=/; Max-Age=2592000"], NOW), times)
    (text, _), = store._texts.values()
    tell(f"a shard of {rows} cookies", f"{len(text)} bytes, a header {header:.0f} us, lines {lines:.0f} us")


if __name__ == "__main__":
    main()

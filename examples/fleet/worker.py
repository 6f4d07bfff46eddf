"""A worker of a crawler, which shares its cookies with all other workers by a store in Redis.

usage: REDIS=redis://127.0.0.1:6379 python3 worker.py

It takes URLs from the list `urls` in Redis, gets each with the cookies that any worker got of its site, and prints the
URL, the status and how many bytes the body has, or why it failed. It ends where no URL is left, and waits where Redis
is away. Run as many as you like, on as many machines: to the sites they are one client. LIST names a file with a public
suffix list, in the place of the system's; all workers need the same one.

    redis-cli rpush urls https://shop.test/login https://shop.test/cart
    python3 worker.py & python3 worker.py &

Redis has to keep what it was told: `redis-server --appendonly yes --appendfsync always`.
"""
import os
import resource
import sys
import time
import urllib.error
import urllib.request
from datetime import timedelta

import redis
from fonnalich import Jar, List
from fonnalich.fleet import Fleet, RedisStore
from redis.backoff import NoBackoff
from redis.retry import Retry

# A site that nobody visited for so long is as one that was never visited.
LIFE = timedelta(days=90)
# Of each wait for a site, and between two tries to reach Redis, in seconds.
SECONDS, PAUSE = 30, 0.5
# How many bytes of memory a worker may have, whatever a site sends it.
MEMORY = 2 << 30


def fleet_of(server):
    """The client that all workers are."""
    suffixes = List.from_file(os.environ["LIST"]) if "LIST" in os.environ else List.system()
    return Fleet(suffixes, RedisStore(server, life=LIFE))


def visited(opener, url):
    """What came of a URL, in words."""
    try:
        with opener.open(url.decode(), timeout=SECONDS) as answer:
            return f"{answer.status} {len(answer.read())}"
    except urllib.error.HTTPError as why:
        with why:
            return f"{why.code}"
    except Exception as why:
        # What a site sends may have nearly anything raised, and Redis may be away. Neither may end a worker.
        return f"failed: {why!r}"


def taken(server):
    """The next URL, or None where none is left. (One whose reply is lost is lost.)"""
    while True:
        try:
            return server.lpop("urls")
        except (redis.ConnectionError, redis.TimeoutError):
            time.sleep(PAUSE)


def main():
    most = resource.getrlimit(resource.RLIMIT_AS)[1]
    if most == resource.RLIM_INFINITY:
        resource.setrlimit(resource.RLIMIT_AS, (MEMORY, most))
    address = os.environ.get("REDIS", "redis://127.0.0.1:6379")
    server = redis.Redis.from_url(address, retry=Retry(NoBackoff(), 0))
    opener = urllib.request.build_opener(urllib.request.HTTPCookieProcessor(Jar(fleet_of(server))))
    while (url := taken(server)) is not None:
        print(url.decode(errors="backslashreplace"), visited(opener, url), flush=True)


if __name__ == "__main__":
    sys.exit(main())

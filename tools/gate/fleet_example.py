"""Visits a site by workers of examples/fleet, which asks all for the cookie that one got, and runs README's block.

Other visits are to a site that sends what is no answer, and while Redis is away: neither may end a worker.
"""
import sys
import tempfile
import time
from concurrent.futures import ThreadPoolExecutor
from urllib.parse import urlsplit

from . import bounded, pages, servers, site
from .kit import TOP, written
from .peers import environment

# Of a worker on a calm machine, and how long Redis is away, in seconds.
SECONDS, AWAY = 30, 1
LIST, COOKIE = b"test\n", "sid=a3f"
WORKER = [sys.executable, "-B", f"{TOP}/examples/fleet/worker.py"]
# What a site may send that isn't an answer, or leads to no URL.
MANGLED = (
    b"", b"junk\n200 2\r\n\r\n", b"HTTP/1.1 200 OK\r\nContent-Length: 1" + b"0" * 30 + b"\r\n\r\nok",
    b"HTTP/1.1 302 Found\r\nLocation: http://a:b/\r\n\r\n",
    b"HTTP/1.1 302 Found\r\nLocation: /\r\nContent-Length: 1" + b"0" * 17 + b"\r\n\r\n",
)
NO_URLS = ("shop", "", b"http://\xff.test/", "http://a b/", "http://[/", "ftp://[::1]:1/")


class Shop(site.Handler):
    """A proxy, where shop.test sets a cookie at /login and asks for it elsewhere. At `?away` Redis goes away."""

    def do_GET(self):
        url, had = urlsplit(self.path), self.headers.get("Cookie")
        if url.hostname == "mangled.test":
            self.close_connection = True
            self.wfile.write(MANGLED[int(url.path[1:])])
            return
        if url.query == "away":
            self.server.redis.kill()
        is_login = url.path == "/login"
        is_right = is_login or had == (COOKIE if url.hostname.endswith("shop.test") else None)
        self.send_response(200 if is_right else 403)
        if is_login:
            self.send_header("Set-Cookie", f"{COOKIE}; Domain=shop.test")
        self.send_header("Content-Length", "2")
        self.end_headers()
        self.wfile.write(b"ok")


def wrong():
    with tempfile.TemporaryDirectory(prefix="example-") as room:
        server, shop = servers.Redis(room), site.begun(Shop)
        server.start()
        shop.redis = server
        env = {**environment(), "REDIS": f"redis://127.0.0.1:{server.port}", "LIST": written(f"{room}/list", LIST),
               "http_proxy": f"http://127.0.0.1:{shop.server_port}", "no_proxy": "",
               "PYTHONPATH": f"{TOP}/bindings/python"}
        try:
            return [it for visits in (shared, mangled, without_redis) for it in visits(server, env)]
        finally:
            server.kill()
            shop.shutdown()


def shared(server, env):
    """What is wrong with visits before a log-in, the log-in, and visits of two workers behind it."""
    urls = [f"http://{host}/{i}" for i in range(20) for host in ("shop.test", "www.shop.test", "b.test")]
    for workers, urls, status in ((1, ["http://shop.test/a"], "403"), (1, ["http://shop.test/login"], "200 2"),
                                  (2, urls, "200 2")):
        said = visited(server, workers, urls, env)
        if sorted(said) != sorted(f"{url} {status}" for url in urls):
            yield f"of {urls} was said {said}"
    block = pages.filled("# README: README.md python 2\n")
    said = bounded.run([sys.executable, "-B", "-c", block], SECONDS, env=env)
    if said != (0, b"cart=3\n", b""):
        yield f"README's block said {said}"


def mangled(server, env):
    """What is wrong with visits of one worker to what isn't an answer, and to what is no URL."""
    urls = [*(f"http://mangled.test/{i}" for i in range(len(MANGLED))), *NO_URLS]
    *said, last = visited(server, 1, [*urls, "http://b.test/last"], env)
    if len(said) != len(urls) or not all(" failed: " in it for it in said) or last != "http://b.test/last 200 2":
        yield f"a worker said {said}, and {last}"


def without_redis(server, env):
    """What is wrong with a worker from which Redis goes away in a visit, and for a while."""
    with ThreadPoolExecutor() as pool:
        ran = pool.submit(visited, server, 1, ["http://b.test/login?away", "http://b.test/1"], env)
        bounded.is_awaited(lambda: ran.done() or server.process.poll() is not None, SECONDS)
        server.kill()
        time.sleep(AWAY)
        server.start()
        said = ran.result()
    if len(said) != 2 or " failed: ConnectionError" not in said[0] or said[1] != "http://b.test/1 200 2":
        yield f"a worker without Redis said {said}"


def visited(server, workers, urls, env):
    """The lines of workers that visit these URLs, and how one ended where it didn't end well."""
    import redis
    with redis.Redis(port=server.port) as asked:
        asked.rpush("urls", *urls)
    with ThreadPoolExecutor(workers) as pool:
        ended = [*pool.map(lambda _: bounded.run(WORKER, SECONDS, env=env), range(workers))]
    lines = [line for _, out, told in ended for line in (out + told).decode().splitlines()]
    return lines + [f"status {status}" for status, *_ in ended if status != 0]

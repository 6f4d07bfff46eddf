"""Tests `fonnalich.httpx`, and what `fonnalich.requests` hands on where that is there, against a site on loopback."""
import asyncio
import contextlib
import importlib.util
import pickle
import threading
import unittest
import unittest.mock

import httpx

import fonnalich.httpx
from fonnalich import Client, End, NotSent, Refused
from fonnalich.fleet import Fleet, MemoryStore
from fonnalich.httpx import AsyncTransport, EmptyJar, Transport

from frameworks.kit import Site, blocks


class Told(Client):
    """A client that keeps what became of lines."""

    def receive(self, *words):
        ends = super().receive(*words)
        self.ends = [*getattr(self, "ends", []), *ends]
        return ends


class Loopback(unittest.TestCase):
    def setUp(self):
        site = Site()
        self.site, self.client = site.__enter__(), Told("test\n")
        self.addCleanup(site.__exit__)
        self.addCleanup(self.client.close)

    def getters(self):
        """What gets the body of a path, each by a new client: with and without tasks."""
        how_it_asks = {"cookies": EmptyJar(), "follow_redirects": True, "timeout": 60}
        with httpx.Client(transport=Transport(self.client), **how_it_asks) as asked:
            yield lambda path, **how: asked.get(self.site.url + path, **how).content
        self.client = Told("test\n")
        yield lambda path, **how: asyncio.run(self.task(path, **how))

    async def task(self, path, **how):
        how_it_asks = {"cookies": EmptyJar(), "follow_redirects": True, "timeout": 60}
        async with httpx.AsyncClient(transport=AsyncTransport(self.client), **how_it_asks) as asked:
            return (await asked.get(self.site.url + path, **how)).content


class Bytes(Loopback):
    def test_come_back_as_they_came(self):
        for get in self.getters():
            # The byte 0x85 of the first is a line's end among characters.
            self.site.lines["/"] = ["k=\u6148\u65e5".encode(), b"b=\xff", b"\xc3\xa9=\xf0\x9f\x8d\xaa"]
            self.assertEqual(get("/"), b"")
            self.assertEqual(self.client.ends, [End.INSERTED, End.NOT_TEXT, End.INSERTED])
            self.site.lines.clear()
            self.assertEqual(get("/"), "k=\u6148\u65e5; \u00e9=\U0001f36a".encode())


class Hops(Loopback):
    def test_have_the_header_and_the_lines_of_each(self):
        for get in self.getters():
            self.site.lines.update({"/go": [b"a=1; Path=/"], "/": [b"a=; Path=/; Max-Age=0", b"b=2"]})
            self.assertEqual(get("/go"), b"a=1")
            self.assertEqual(self.client.header(self.site.url), "b=2")
            self.site.lines.clear()
            self.assertEqual(get("/go"), b"b=2")

    def test_go_without_other_cookies(self):
        for get in self.getters():
            self.assertEqual(get("/", headers={"Cookie": "own=1"}), b"")
            self.client.receive(self.site.url, ["a=1"])
            self.assertEqual(get("/go", headers={"Cookie": "own=1"}), b"a=1")

    # Its own table is filled too, from which it makes a header.
    def test_of_a_client_with_a_table(self):
        self.site.lines["/"] = [b"a=1; Path=/"]
        with httpx.Client(transport=Transport(self.client), cookies={"own": "1"}, timeout=60) as asked:
            asked.get(self.site.url)
            self.site.lines.clear()
            self.client.receive(self.site.url, ["a=2; Path=/"])
            self.assertEqual(asked.cookies.get("a"), "1")
            self.assertEqual(asked.get(self.site.url).content, b"a=2")

    def test_leave_an_empty_jar(self):
        self.site.lines["/"] = [b"a=1; Path=/"]
        with httpx.Client(transport=Transport(self.client), cookies=EmptyJar(), timeout=60) as asked:
            self.assertEqual(asked.get(self.site.url).cookies["a"], "1")
            self.assertEqual([*asked.cookies.jar], [])

    def test_go_by_the_url(self):
        for get in self.getters():
            self.client.receive(self.site.url, ["a=1"])
            self.client.receive("http://shop.test/", ["b=2"])
            self.assertEqual(get("/", headers={"Host": "shop.test"}), b"a=1")


class Proxies(Loopback):
    def test_that_open_no_tunnel_are_told(self):
        async def task(transport):
            async with httpx.AsyncClient(transport=transport, cookies=EmptyJar()) as asked:
                await asked.get("https://shop.test/")

        proxy, told = httpx.Proxy(self.site.url), "501 .*: where the proxy asks who you are, name it as http://USER"
        with httpx.Client(transport=Transport(self.client, proxy=proxy), cookies=EmptyJar()) as asked:
            with self.assertRaisesRegex(httpx.ProxyError, told):
                asked.get("https://shop.test/")
        with self.assertRaisesRegex(httpx.ProxyError, told):
            asyncio.run(task(AsyncTransport(self.client, proxy=proxy)))


class Slow(MemoryStore):
    """A store whose server answers once something else was done meanwhile."""

    def __init__(self):
        super().__init__()
        self.is_asked, self.is_free = threading.Event(), threading.Event()

    def get(self, key):
        self.is_asked.set()
        if not self.is_free.wait(5):
            raise TimeoutError
        return super().get(key)


class Fleets(Loopback):
    def test_let_other_tasks_go_on(self):
        self.site.lines["/"] = [b"a=1; Path=/"]

        async def again(store):
            store.is_asked.clear()
            while not store.is_asked.is_set():
                await asyncio.sleep(0.01)
            store.is_free.set()

        async def play():
            store = Slow()
            transport = AsyncTransport(Fleet("test\n", store))
            async with httpx.AsyncClient(transport=transport, cookies=EmptyJar(), timeout=60) as asked:
                for wanted in [b"", b"a=1"]:
                    answer, _ = await asyncio.gather(asked.get(self.site.url), again(store))
                    self.assertEqual(answer.content, wanted)
                    store.is_free.clear()

        asyncio.run(play())


class Transports(unittest.TestCase):
    def setUp(self):
        self.client = Client("test\n")
        self.addCleanup(self.client.close)

    # Of the first `httpx` 0.23 asks shop.test for a path without a slash, and a text of both would have the host
    # evil.test: it is refused. 0.28 asks evil.test, as the client then reads it too.
    def test_ask_no_odd_url(self):
        asked = []

        def answer(request):
            asked.append((request.url.host, request.headers.get("Cookie")))
            return httpx.Response(200, headers=[("Set-Cookie", "b=2; Path=/")])

        self.client.receive("https://shop.test/", ["a=1; Path=/"])
        with httpx.Client(transport=Transport(self.client, over=httpx.MockTransport(answer))) as its:
            for url in ["https://127.1/", "https://shop.test.\\evil.test/"]:
                with self.assertRaises((Refused, httpx.InvalidURL), msg=url):
                    its.get(url)
            with contextlib.suppress(Refused):
                its.get("https://shop.test\\@evil.test/x")
            self.assertIn(asked, [[], [("evil.test", None)]])
            headers = [self.client.header(f"https://{host}/") for host in ("shop.test", "evil.test")]
            self.assertEqual(headers, ["a=1", "b=2" if asked else ""])
            asked.clear()
            for url in ["https://shop.test/a/../b", "https://u:p@shop.test/", "https://SHOP.test:443/?a=b#c",
                        "https://shop.test/\u00e9"]:
                self.assertEqual(its.get(url).request.headers["Cookie"][:3], "a=1", url)
            its.get("http://[::1]:8000/")
        self.assertEqual(len(asked), 5)
        self.assertEqual(self.client.header("https://shop.test/"), "a=1; b=2")
        self.assertEqual(self.client.header("http://[::1]/"), "b=2")

    # Packages for WebSockets hand in these schemes, whose handshake is by http or https.
    def test_ask_by_websocket(self):
        heard = []

        def answer(request):
            heard.append((str(request.url), request.headers.get("Cookie")))
            return httpx.Response(200, headers=[("Set-Cookie", f"{request.url.scheme}=1; Path=/; HttpOnly")])

        self.client.receive("https://shop.test/", ["a=1; Path=/; Secure; HttpOnly"])
        with httpx.Client(transport=Transport(self.client, over=httpx.MockTransport(answer))) as its:
            for scheme in ("wss", "ws"):
                its.get(f"{scheme}://shop.test/")
        self.assertEqual(heard, [("wss://shop.test/", "a=1"), ("ws://shop.test/", "wss=1")])
        self.assertEqual(self.client.header("https://shop.test/"), "a=1; wss=1; ws=1")

    def test_close_what_they_go_over(self):
        class Over(httpx.BaseTransport, httpx.AsyncBaseTransport):
            closed = 0

            def close(self):
                self.closed += 1

            async def aclose(self):
                self.closed += 1

        async def tasks(over):
            async with httpx.AsyncClient(transport=AsyncTransport(self.client, over=over)):
                pass

        for run in [lambda over: httpx.Client(transport=Transport(self.client, over=over)).close(),
                    lambda over: asyncio.run(tasks(over))]:
            over = Over()
            run(over)
            self.assertEqual(over.closed, 1)

    # Nobody else would give its connection back.
    def test_close_an_answer_that_is_not_taken(self):
        class Body(httpx.SyncByteStream, httpx.AsyncByteStream):
            closed = 0

            def close(self):
                self.closed += 1

            async def aclose(self):
                self.closed += 1

        async def task(over):
            async with httpx.AsyncClient(transport=AsyncTransport(down, over=over), cookies=EmptyJar()) as asked:
                await asked.get("https://shop.test/")

        down, body = unittest.mock.Mock(), Body()
        down.header.return_value, down.receive.side_effect = "", ConnectionError
        over = httpx.MockTransport(lambda request: httpx.Response(200, stream=body))
        with httpx.Client(transport=Transport(down, over=over), cookies=EmptyJar()) as asked:
            self.assertRaises(ConnectionError, asked.get, "https://shop.test/")
            self.assertEqual(body.closed, 1)
        self.assertRaises(ConnectionError, asyncio.run, task(over))
        self.assertEqual(body.closed, 2)

    def test_pass_over_a_line_of_two(self):
        headers = [("Set-Cookie", "a=1\nb=2"), ("Set-Cookie", "c=3")]
        over = httpx.MockTransport(lambda request: httpx.Response(200, headers=headers))
        with httpx.Client(transport=Transport(self.client, over=over), cookies=EmptyJar()) as asked:
            asked.get("https://shop.test/")
        self.assertEqual(self.client.header("https://shop.test/"), "c=3")

    # As `httpx` makes one for each proxy.
    def test_tell_where_another_one_sent(self):
        over = httpx.MockTransport(lambda request: httpx.Response(200))
        with httpx.Client(transport=Transport(self.client, over=over), mounts={"http://": over},
                          cookies=EmptyJar()) as asked:
            asked.get("https://shop.test/")
            self.assertRaises(NotSent, asked.get, "http://shop.test/")

    def test_leave_answers_that_can_be_kept(self):
        over = httpx.MockTransport(lambda request: httpx.Response(200, text="b"))
        with httpx.Client(transport=Transport(self.client, over=over), cookies=EmptyJar()) as asked:
            self.assertEqual(pickle.loads(pickle.dumps(asked.get("https://shop.test/"))).text, "b")

    def test_are_made_of_other_words(self):
        with self.assertRaises(TypeError):
            Transport(self.client, none=1)
        Transport(self.client, retries=1).close()


class Tasks(Loopback):
    def test_share_a_client(self):
        self.site.server.lines = {f"/{i}": [b"n%d=%d; Path=/" % (i, i)] for i in range(40)}

        async def main():
            async with httpx.AsyncClient(transport=AsyncTransport(self.client), timeout=60) as asked:
                await asyncio.gather(*(asked.get(f"{self.site.url}/{i}") for i in range(40)))
                return (await asked.get(self.site.url)).text

        self.assertEqual({*asyncio.run(main()).split("; ")}, {f"n{i}={i}" for i in range(40)})


class Page(Loopback):
    @unittest.skipUnless(importlib.util.find_spec("requests"), "requests isn't there")
    def test_of_requests_runs(self):
        import requests
        with requests.Session() as session:
            session.trust_env = False
            exec(blocks("requests and httpx")[0], {"session": session, "client": self.client})
            self.site.lines["/"] = [b"a=1; Path=/"]
            for wanted in [b"", b"a=1"]:
                self.assertEqual(session.get(self.site.url, timeout=60).content, wanted)

    def test_of_httpx_runs(self):
        names = {"client": self.client}
        exec(blocks("requests and httpx")[1], names)
        self.site.lines["/"] = [b"a=1; Path=/"]
        with names["browser"] as browser:
            browser.get(self.site.url, timeout=60)

        async def again():
            async with names["tasks"] as tasks:
                return (await tasks.get(self.site.url, timeout=60)).content

        self.assertEqual(asyncio.run(again()), b"a=1")


if __name__ == "__main__":
    unittest.main()

"""Tests that `httpx` with a `Jar` and no transport of ours, which would send nothing of the client's, tells it."""
import asyncio
import unittest

import httpx

import fonnalich.httpx
from fonnalich import Client, Jar, NotSent

from frameworks.kit import Site

INSTEAD = r"transport=fonnalich\.httpx\.Transport\(client\), cookies=fonnalich\.httpx\.EmptyJar\(\)"


class Unsent(unittest.TestCase):
    def setUp(self):
        site = Site()
        self.site, self.client = site.__enter__(), Client("test\n")
        self.addCleanup(site.__exit__)
        self.addCleanup(self.client.close)

    def getters(self, **how):
        """What gets a path by these words of `httpx`, with and without tasks."""
        def get(path, **more):
            with httpx.Client(timeout=60, **how) as asked:
                return asked.get(self.site.url + path, **more)

        async def task(path, **more):
            async with httpx.AsyncClient(timeout=60, **how) as asked:
                return await asked.get(self.site.url + path, **more)

        return [get, lambda path, **more: asyncio.run(task(path, **more))]

    # Nothing is to be sent, and so the answer tells it, whatever it has. What it has is taken.
    def test_of_an_empty_client_is_told_by_the_answer(self):
        for get in self.getters(cookies=Jar(self.client)):
            with self.assertRaisesRegex(NotSent, f"^httpx sends no cookie of a Jar.*{INSTEAD}"):
                get("/")
        self.site.lines["/"] = [b"a=1"]
        with self.assertRaises(NotSent):
            self.getters(cookies=Jar(self.client))[0]("/")
        self.assertEqual(self.client.header(self.site.url), "a=1")

    def test_of_a_full_client_is_told_by_the_request(self):
        self.client.receive(self.site.url, ["a=1"])
        asked = []
        over = httpx.MockTransport(lambda request: asked.append(request) or httpx.Response(200))
        with httpx.Client(cookies=Jar(self.client), transport=over) as its:
            with self.assertRaisesRegex(NotSent, INSTEAD):
                its.get(self.site.url)
            self.assertEqual(len(list(its.cookies.jar)), 1)
        with httpx.Client(transport=over) as its, self.assertRaisesRegex(NotSent, INSTEAD):
            its.cookies = Jar(self.client)
            its.get(self.site.url)
        self.assertEqual(asked, [])

    # Something sends for the client, and not this.
    def test_beside_a_client_with_a_transport(self):
        self.client.receive(self.site.url, ["a=1"])
        with fonnalich.httpx.Transport(self.client):
            for get in self.getters(cookies=Jar(self.client)):
                with self.assertRaisesRegex(NotSent, "^httpx sends"):
                    get("/")

    # The transport sends, and its lines may come in twice.
    def test_isn_t_told_of_what_is_sent(self):
        self.site.lines["/"] = [b"a=1"]
        transport = fonnalich.httpx.Transport(self.client)
        with httpx.Client(transport=transport, cookies=Jar(self.client), timeout=60) as its:
            self.assertEqual([its.get(self.site.url).content for _ in range(2)], [b"", b"a=1"])
            self.assertEqual(its.get(self.site.url + "/go", follow_redirects=True).content, b"a=1")


if __name__ == "__main__":
    unittest.main()

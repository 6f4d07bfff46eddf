"""Tests `fonnalich.asgi` by Starlette."""
import asyncio
import time
import unittest

from starlette.applications import Starlette
from starlette.background import BackgroundTask
from starlette.responses import PlainTextResponse, StreamingResponse
from starlette.routing import Route, WebSocketRoute

from fonnalich import Client, Refused, Rules, Session, Way
from fonnalich.asgi import Middleware, Sent

from frameworks.kit import KEY, NOW, blocks, forged

SITE = "https://shop.test/"


async def count(request):
    session = request.scope["fonnalich.session"]
    visits = int(session.get(Way.SEALED, "__Host-count") or 0) + 1
    session.set(Way.SEALED, "__Host-count", str(visits))
    return PlainTextResponse(str(visits))


async def read(request):
    return PlainTextResponse(repr(request.scope["fonnalich.session"].get(Way.PLAIN, "b")))


async def stream(request):
    session = request.scope["fonnalich.session"]

    async def parts():
        session.set(Way.SIGNED, "early", "1")
        yield b"part"
        try:
            session.set(Way.PLAIN, "late", "1")
        except Sent:
            yield b" sent"

    return StreamingResponse(parts())


async def fail(request):
    request.scope["fonnalich.session"].set(Way.PLAIN, "a", "1")
    raise KeyError("seen")


late = []


async def background(request):
    session = request.scope["fonnalich.session"]

    async def task():
        try:
            session.set(Way.PLAIN, "late", "1")
        except Sent as why:
            late.append(why)

    return PlainTextResponse("ok", background=BackgroundTask(task))


async def socket(websocket):
    websocket.scope["fonnalich.session"].set(Way.PLAIN, "a", "1")
    await websocket.accept()
    try:
        websocket.scope["fonnalich.session"].set(Way.PLAIN, "b", "1")
    except Sent:
        await websocket.close(4000)


ROUTES = [Route("/", count), Route("/read", read), Route("/stream", stream), Route("/fail", fail),
          Route("/background", background), WebSocketRoute("/socket", socket)]


def starlette(key=KEY, fallbacks=()):
    app = Starlette(routes=ROUTES)
    app.add_middleware(Middleware, key=key, fallbacks=fallbacks)
    return app


def sent(app, path, fields=(), kind="http", first="http.request"):
    """The messages that an application sends to a request of these fields."""
    messages, events = [], [{"type": first, "body": b"", "more_body": False}]

    async def receive():
        # (a client that stays)
        return events.pop() if events else await asyncio.sleep(3600)

    async def send(message):
        messages.append(message)

    scope = {"type": kind, "asgi": {"version": "3.0"}, "http_version": "1.1", "method": "GET", "path": path,
             "raw_path": path.encode(), "root_path": "", "scheme": "https", "query_string": b"", "headers": [*fields],
             "client": None, "server": None, "subprotocols": []}
    asyncio.run(app(scope, receive, send))
    return messages


def lines(message):
    return [value for name, value in message["headers"] if name.lower() == b"set-cookie"]


class Asked(unittest.TestCase):
    def setUp(self):
        self.app, self.client = starlette(), Client("test\n", rules=Rules.BROWSER)
        self.addCleanup(self.client.close)

    def get(self, path):
        """The body of an answer, and its lines."""
        header = self.client.header(SITE).encode()
        head, *parts = sent(self.app, path, [(b"cookie", header)] if header else [])
        self.assertEqual(head["type"], "http.response.start")
        self.client.receive(SITE, lines(head))
        return b"".join(it["body"] for it in parts), lines(head)


class Requests(Asked):
    def test_have_a_session_each(self):
        self.assertEqual([self.get("/")[0] for _ in range(3)], [b"1", b"2", b"3"])
        self.assertEqual(self.get("/read"), (b"None", []))

    def test_outlive_their_key(self):
        self.get("/")
        header, new, later = self.client.header(SITE).encode(), bytes(range(64, 128)), time.time() + 3600
        for fallbacks, text in [([], b"1"), ([(KEY, later - 3601)], b"1"), ([KEY], b"2"), ([(KEY, later)], b"2")]:
            told = sent(starlette(new, fallbacks), "/", [(b"cookie", header)])
            self.assertEqual(told[1]["body"], text, fallbacks)

    def test_have_the_cookies_of_all_fields(self):
        for fields in [[(b"cookie", b"a=1"), (b"cookie", b"b=2")], [(b"Cookie", b"a=1; b=2")]]:
            self.assertEqual(sent(self.app, "/read", fields)[1]["body"], b"'2'")

    def test_have_the_names_that_browsers_know(self):
        self.get("/")
        pair = self.client.header(SITE)
        for it in forged(pair):
            self.assertEqual(sent(self.app, "/", [(b"cookie", it.encode())])[1]["body"], b"1", it)
            self.assertEqual(sent(self.app, "/", [(b"cookie", f"{it}; {pair}".encode())])[1]["body"], b"2", it)

    def test_may_stream(self):
        body, told = self.get("/stream")
        self.assertEqual((body, len(told)), (b"part sent", 1))
        self.assertEqual(Session(self.client.header(SITE), KEY).get(Way.SIGNED, "early"), "1")

    def test_set_nothing_behind_the_response(self):
        late.clear()
        self.assertEqual((self.get("/background"), len(late)), ((b"ok", []), 1))

    def test_that_fail_set_nothing(self):
        messages = []

        async def send(message):
            messages.append(message)

        async def receive():
            return {"type": "http.request", "body": b""}

        scope = {"type": "http", "method": "GET", "path": "/fail", "headers": [], "query_string": b"", "server": None}
        with self.assertRaisesRegex(KeyError, "seen"):
            asyncio.run(self.app(scope, receive, send))
        self.assertEqual([it.get("status") for it in messages], [500, None])
        self.assertEqual(lines(messages[0]), [])

    def test_of_a_websocket_set_as_it_is_accepted(self):
        accepted, closed = sent(self.app, "/socket", kind="websocket", first="websocket.connect")
        self.assertEqual(lines(accepted), [b"a=1; Secure; Path=/"])
        self.assertEqual((accepted["type"], closed["code"]), ("websocket.accept", 4000))

    def test_of_another_kind_pass(self):
        seen = []

        async def app(scope, receive, send):
            seen.append(scope)

        scope = {"type": "lifespan"}
        asyncio.run(Middleware(app, KEY)(scope, None, None))
        self.assertIs(seen[0], scope)

    def test_without_a_body_end(self):
        async def app(scope, receive, send):
            await send({"type": "http.response.start", "status": 204})
            scope["fonnalich.session"].set(Way.PLAIN, "a", "1")

        self.assertEqual(lines(sent(Middleware(app, KEY), "/")[0]), [b"a=1; Secure; Path=/"])

    def test_refuse_a_bad_key_at_once(self):
        with self.assertRaises(ValueError):
            Middleware(None, bytes(63))
        with self.assertRaises(ValueError):
            Middleware(None, KEY, [bytes(63)])

    def test_refuse_an_end_in_milliseconds_at_once(self):
        with self.assertRaisesRegex(Refused, "KeyEnd"):
            Middleware(None, KEY, [(KEY, NOW * 1000)])

    def test_of_the_page_run(self):
        names = {"app": Starlette(routes=ROUTES), "key": KEY}
        exec(blocks("WSGI and ASGI")[1], names)
        self.app = names["app"]
        self.assertEqual([self.get("/")[0] for _ in range(2)], [b"1", b"2"])


if __name__ == "__main__":
    unittest.main()

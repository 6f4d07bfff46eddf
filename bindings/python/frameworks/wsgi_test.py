"""Tests `fonnalich.wsgi` by `wsgiref.validate`, and over a socket by the server of the standard library."""
import threading
import time
import unittest
import urllib.request
import wsgiref.simple_server

from fonnalich import Client, Jar, Refused, Session, Way
from fonnalich.wsgi import Middleware, Sent

from frameworks.kit import KEY, NOW, Answer, Browser, blocks, forged, validator


def over(app):
    """The application behind the middleware, which the standard library looks at from both sides."""
    return Browser(Middleware(validator(app), KEY))


def counting(environ, start_response):
    """Counts visits."""
    session = environ["fonnalich.session"]
    count = int(session.get(Way.SEALED, "__Host-count") or 0) + 1
    start_response("200 OK", [("Content-Type", "text/plain"), ("X-One", "1")])
    # (the fields haven't gone out)
    session.set(Way.SEALED, "__Host-count", str(count))
    return [str(count).encode()]


class Requests(unittest.TestCase):
    def test_have_a_session_each(self):
        browser = over(counting)
        self.assertEqual([browser.get("/").text for _ in range(3)], ["1", "2", "3"])
        answer = browser.get("/")
        self.assertEqual([name for name, _ in answer.fields], ["Content-Type", "X-One", "Set-Cookie"])
        self.assertEqual(over(counting).get("/").text, "1")

    def test_without_a_change_get_no_line(self):
        def reading(environ, start_response):
            start_response("200 OK", [("Content-Type", "text/plain")])
            return [repr(environ["fonnalich.session"].get(Way.PLAIN, "k")).encode()]

        answer = over(reading).get("/", "k=\u65e5; b=2")
        self.assertEqual((answer.text, answer.lines()), (repr("\u65e5"), []))

    def test_by_another_key_are_new(self):
        browser = over(counting)
        browser.get("/")
        header = browser.client.header("https://shop.test/")
        self.assertEqual(Browser(Middleware(counting, bytes(64))).get("/", header).text, "1")

    def test_have_the_names_that_browsers_know(self):
        def reading(environ, start_response):
            start_response("200 OK", [("Content-Type", "text/plain")])
            return [repr([environ["fonnalich.session"].get(*it) for it in
                          [("plain", "__Host-a"), ("secure", "a"), ("plain", "b c")]]).encode()]

        for pair in [*forged("__Host-a=7"), *forged("__Secure-a=7")]:
            self.assertEqual(over(reading).get("/", f"__Host-a=1; {pair}; __Secure-a=2;{pair};b%20c=3").text,
                             "['1', '2', '3']", pair)
            self.assertEqual(over(reading).get("/", pair).text, "[None, None, None]", pair)

    def test_outlive_their_key(self):
        browser = over(counting)
        browser.get("/")
        new, later = bytes(range(64, 128)), time.time() + 3600
        header = browser.client.header("https://shop.test/")
        for fallbacks, text in [([], "1"), ([(KEY, later - 3601)], "1"), ([KEY], "2"), ([(KEY, later)], "2")]:
            self.assertEqual(Browser(Middleware(counting, new, fallbacks)).get("/", header).text, text, fallbacks)

    def test_refuse_a_bad_key_at_once(self):
        for key, error in [(bytes(63), ValueError), ("x" * 64, TypeError)]:
            for keys in [(key,), (KEY, [key]), (KEY, [(key, None)])]:
                with self.assertRaises(error):
                    Middleware(counting, *keys)

    def test_refuse_an_end_in_milliseconds_at_once(self):
        with self.assertRaisesRegex(Refused, "KeyEnd"):
            Middleware(counting, KEY, [(KEY, NOW * 1000)])


class Streams(unittest.TestCase):
    def test_may_set_up_to_the_first_part(self):
        def stream(environ, start_response):
            session = environ["fonnalich.session"]
            start_response("200 OK", [("Content-Type", "text/plain")])
            session.set(Way.SIGNED, "early", "1")
            yield b"part"
            for call in [lambda: session.set(Way.PLAIN, "late", "1"), lambda: session.remove(Way.SIGNED, "early")]:
                with self.assertRaisesRegex(Sent, "fields have gone out"):
                    call()
            self.assertEqual(session.get(Way.SIGNED, "early"), "1")
            yield b"end"

        browser = over(stream)
        answer = browser.get("/")
        self.assertEqual((answer.text, len(answer.lines())), ("partend", 1))
        header = browser.client.header("https://shop.test/")
        self.assertEqual(Session(header, KEY).get(Way.SIGNED, "early"), "1")

    def test_without_a_part_set_too(self):
        def nothing(environ, start_response):
            start_response("204 No Content", [])
            environ["fonnalich.session"].set(Way.PLAIN, "a", "1")
            return iter(())

        self.assertEqual(over(nothing).get("/").lines(), ["a=1; Secure; Path=/"])

    def test_may_be_written(self):
        def writing(environ, start_response):
            write = start_response("200 OK", [("Content-Type", "text/plain")])
            environ["fonnalich.session"].set(Way.PLAIN, "a", "1")
            write(b"one")
            with self.assertRaises(Sent):
                environ["fonnalich.session"].set(Way.PLAIN, "b", "1")
            write(b"two")
            return [b"three"]

        answer = over(writing).get("/")
        self.assertEqual((answer.text, answer.lines()), ("onetwothree", ["a=1; Secure; Path=/"]))

    def test_are_closed(self):
        class Parts(list):
            closed = 0

            def close(self):
                self.closed += 1

        parts = Parts([b"a"])

        def app(environ, start_response):
            start_response("200 OK", [("Content-Type", "text/plain")])
            return parts

        over(app).get("/")
        self.assertEqual(parts.closed, 1)
        # A server needn't read a body, as that of HEAD.
        body = Middleware(app, KEY)({}, Answer().start)
        body.close()
        self.assertEqual(parts.closed, 2)


class Errors(unittest.TestCase):
    def test_before_the_body_take_its_place(self):
        def failing(environ, start_response):
            start_response("200 OK", [("Content-Type", "text/plain")])
            environ["fonnalich.session"].set(Way.PLAIN, "a", "1")
            try:
                raise KeyError("seen")
            except KeyError as why:
                start_response("500 Error", [("Content-Type", "text/plain")], (KeyError, why, why.__traceback__))
            return [b"sorry"]

        answer = over(failing).get("/")
        self.assertEqual((answer.status, answer.text, len(answer.lines())), ("500 Error", "sorry", 1))

    def test_behind_the_first_part_are_raised(self):
        def failing(environ, start_response):
            start_response("200 OK", [("Content-Type", "text/plain")])
            yield b"part"
            try:
                raise KeyError("seen")
            except KeyError as why:
                start_response("500 Error", [("Content-Type", "text/plain")], (KeyError, why, why.__traceback__))

        with self.assertRaisesRegex(KeyError, "seen"):
            over(failing).get("/")

    def test_of_an_application_are_told(self):
        def twice(environ, start_response):
            start_response("200 OK", [])
            start_response("200 OK", [])

        def never(environ, start_response):
            return [b"a"]

        def raising(environ, start_response):
            start_response("200 OK", [])
            raise KeyError("seen")
            yield b""

        for app, error, told in [(twice, AssertionError, "twice"), (never, AssertionError, "before start_response"),
                                 (raising, KeyError, "seen")]:
            with self.assertRaisesRegex(error, told):
                Browser(Middleware(app, KEY)).get("/")


class Quiet(wsgiref.simple_server.WSGIRequestHandler):
    def log_message(self, *_):
        pass


def local(environ, start_response):
    """Counts visits by a name without a prefix, which a client takes from `localhost` by http."""
    session = environ["fonnalich.session"]
    session.set(Way.SEALED, "count", str(int(session.get(Way.SEALED, "count") or 0) + 1))
    start_response("200 OK", [("Content-Type", "text/plain")])
    return [session.get(Way.SEALED, "count").encode()]


class Servers(unittest.TestCase):
    def test_send_the_lines(self):
        names = {"app": local, "key": KEY}
        for block in blocks("WSGI and ASGI")[:1]:
            exec(block, names)
        server = wsgiref.simple_server.make_server("127.0.0.1", 0, names["app"], handler_class=Quiet)
        threading.Thread(target=server.serve_forever, args=(0.01,), daemon=True).start()
        self.addCleanup(server.server_close)
        self.addCleanup(server.shutdown)
        with Client("test\n") as client:
            opener = urllib.request.build_opener(urllib.request.HTTPCookieProcessor(Jar(client)))
            for wanted in [b"1", b"2"]:
                with opener.open(f"http://localhost:{server.server_port}/", timeout=60) as answer:
                    self.assertEqual(answer.read(), wanted)


if __name__ == "__main__":
    unittest.main()

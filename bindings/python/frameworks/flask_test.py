"""Tests `fonnalich.flask` by Flask, beside Flask's own session."""
import datetime
import json
import random
import time
import unittest
import unittest.mock
import uuid
import warnings

import flask
from flask import Flask, session
from flask.json.tag import JSONTag
from flask.sessions import session_json_serializer
from markupsafe import Markup

import fonnalich.flask
from fonnalich import Cookie, Refused, Session, Way

from frameworks.kit import KEY, NOW, Browser, blocks, expect_nothing_of_another_hand, forged

HOST, NEIGHBOUR = "https://shop.test/", "https://sub.shop.test/"


def shop(**settings):
    """An application that does to its session what is asked, and tells what it holds."""
    app = Flask("shop")
    app.config.update({"SECRET_KEY": "a secret", "SESSION_COOKIE_SECURE": True, **settings})

    @app.route("/set/<name>/<value>")
    def put(name, value):
        session[name] = value
        return told()

    @app.route("/pop/<name>")
    def pop(name):
        session.pop(name, None)
        return told()

    @app.route("/clear")
    def clear():
        session.clear()
        return told()

    @app.route("/permanent/<int:is_so>")
    def permanent(is_so):
        session.permanent = bool(is_so)
        return told()

    @app.route("/flash")
    def put_flash():
        flask.flash("seen", "info")
        session["pair"] = (1, b"\xff")
        return told()

    @app.route("/flashed")
    def flashed():
        return repr((flask.get_flashed_messages(with_categories=True), session["pair"]))

    @app.route("/")
    def told():
        return repr(sorted(session.items()))

    @app.route("/static")
    def static_page():
        return "page"

    @app.route("/varied")
    def varied():
        session.get("user")
        return "page", {"Vary": "Accept"}

    return app


def sealed(key=KEY, fallbacks=(), **settings):
    app = shop(**settings)
    fonnalich.flask.init_app(app, key, fallbacks=fallbacks)
    return app


class Sessions(unittest.TestCase):
    def setUp(self):
        self.browser = Browser(sealed())

    def test_come_back(self):
        self.browser.get("/set/user/ann")
        self.assertEqual(self.browser.get("/").text, "[('user', 'ann')]")
        self.browser.get("/flash")
        self.assertEqual(self.browser.get("/flashed").text, repr(([("info", "seen")], (1, b"\xff"))))

    def test_outlive_their_key(self):
        self.browser.get("/set/user/ann")
        new, later = bytes(range(64, 128)), time.time() + 3600
        for fallbacks, held in [([], ""), ([(KEY, later - 3601)], ""), ([KEY], "('user', 'ann')"),
                                ([(KEY, later)], "('user', 'ann')")]:
            self.browser.app = sealed(new, fallbacks)
            self.assertEqual(self.browser.get("/").text, f"[{held}]", fallbacks)
        self.browser.get("/set/visits/1")
        self.browser.app = sealed(new)
        self.assertEqual(self.browser.get("/").text, "[('user', 'ann'), ('visits', '1')]")
        with self.assertRaises(ValueError):
            sealed(new, [KEY[:63]])

    def test_are_sealed_json_of_the_host(self):
        # (with a hyphen, which no sealing has)
        began = int(time.time())
        line, = self.browser.get("/set/user/ann-e").lines()
        ended = int(time.time())
        cookie = Cookie.parse(line)
        self.assertEqual((cookie.name, cookie.path, cookie.domain, cookie.secure, cookie.http_only, cookie.same_site,
                          cookie.max_age, cookie.expires),
                         ("__Host-session", "/", None, True, True, "Lax", None, None))
        self.assertNotIn("ann-e", line)
        second, content = json.loads(Session(line.partition(";")[0], KEY).get(Way.SEALED, "__Host-session"))
        self.assertIn(second, range(began, ended + 1))
        self.assertEqual(content, {"user": "ann-e"})

    def test_say_what_they_vary_by(self):
        self.assertIn(("Vary", "Cookie"), self.browser.get("/set/user/ann").fields)
        self.assertNotIn(("Vary", "Cookie"), self.browser.get("/static").fields)
        self.assertIn(("Vary", "Accept, Cookie"), self.browser.get("/varied").fields)

    # A cache that keeps such an answer would hand the cookie to others (Flask 2.2.5 and later say so too).
    def test_say_so_where_a_cookie_is_set_for_a_page_that_reads_none(self):
        self.browser.get("/permanent/1")
        answer = self.browser.get("/static")
        self.assertEqual(len(answer.lines()), 1)
        self.assertIn(("Vary", "Cookie"), answer.fields)

    def test_are_not_touched_without_a_change(self):
        self.browser.get("/set/user/ann")
        for path in ["/", "/static", "/pop/none"]:
            self.assertEqual(self.browser.get(path).lines(), [])

    def test_end(self):
        for path in ["/clear", "/pop/user"]:
            self.browser.get("/set/user/ann")
            cookie = Cookie.parse(self.browser.get(path).lines()[0])
            self.assertEqual((cookie.name, cookie.value, cookie.max_age), ("__Host-session", "", 0))
            self.assertEqual(self.browser.client.header(HOST), "")
            self.assertEqual(self.browser.get(path).lines(), [])

    def test_of_another_hand_are_empty(self):
        expect_nothing_of_another_hand(self, HOST, ["hello", "[]", "[1]", '["a", {}]', "{}", "[1e999, 3]"])

    # The cookie that a neighbour plants is one that the site sealed for it.
    def test_are_not_set_by_a_neighbour(self):
        eve = Browser(sealed())
        eve.get("/set/user/eve")
        pair = eve.client.header(HOST)
        lines = [f"{pair}; Domain=shop.test; Path=/; Secure", f"{pair}; Domain=shop.test; Path=/set; Secure",
                 f"{pair}; Secure; Path=/", "__Host-session=; Domain=shop.test; Max-Age=0; Path=/; Secure",
                 pair.replace("__Host-", "__HOST-") + "; Domain=shop.test; Path=/; Secure"]
        for is_late in [False, True]:
            if is_late:
                self.browser.get("/set/user/ann")
            for site in [NEIGHBOUR, "http://shop.test/", "http://sub.shop.test/"]:
                self.browser.client.receive(site, lines)
            self.assertEqual(self.browser.get("/").text, "[('user', 'ann')]" if is_late else "[]")

    def test_are_read_by_the_name_that_browsers_know(self):
        eve = Browser(sealed())
        eve.get("/set/user/eve")
        self.browser.get("/set/user/ann")
        header, planted = self.browser.client.header(HOST), [*forged(eve.client.header(HOST))]
        for pair in planted:
            self.assertEqual(self.browser.get("/", pair).text, "[]", pair)
            for both in [f"{header}; {pair}", f"{pair}; {header}", f"a=1;{pair};{header}"]:
                self.assertEqual(self.browser.get("/", both).text, "[('user', 'ann')]", both)
        self.assertGreater(len(planted), 5)
        for pair in planted:
            self.assertIsNone(Session(pair, KEY).get(Way.SEALED, "__Host-session"), pair)

    def test_are_long_with_a_warning(self):
        with warnings.catch_warnings(record=True) as seen:
            warnings.simplefilter("always")
            self.browser.get(f"/set/user/{'x' * 2000}")
            self.assertEqual(seen, [])
            self.browser.get(f"/set/user/{'x' * 4000}")
            self.assertIn("4096 bytes", str(seen[0].message))

    def test_open_in_flask_s_own_client(self):
        client = sealed().test_client()
        with client.session_transaction(base_url=HOST) as opened:
            opened["user"] = "ann"
        self.assertEqual(client.get("/", base_url=HOST).text, "[('user', 'ann')]")


class Settings(unittest.TestCase):
    def test_count(self):
        app = sealed(SESSION_COOKIE_HTTPONLY=False, SESSION_COOKIE_SAMESITE="Strict")
        cookie = Cookie.parse(Browser(app).get("/set/user/ann").lines()[0])
        self.assertEqual((cookie.http_only, cookie.same_site), (False, "Strict"))

    def test_of_same_site_count_in_any_case(self):
        for told in ["strict", "LAX", "none", "Strict", None]:
            line, = Browser(sealed(SESSION_COOKIE_SAMESITE=told)).get("/set/user/ann").lines()
            self.assertEqual(Cookie.parse(line).same_site, (told or "lax").title())

    def test_name_the_cookie(self):
        for told, name, wanted in [("session", None, "__Host-session"), ("__Host-sid", None, "__Host-sid"),
                                   ("sid", None, "sid"), ("session", "session", "session"), ("sid", "sid", "sid")]:
            app = shop(SESSION_COOKIE_NAME=told)
            fonnalich.flask.init_app(app, KEY, name)
            line, = Browser(app).get("/set/user/ann").lines()
            self.assertEqual((Cookie.parse(line).name, app.config["SESSION_COOKIE_NAME"]), (wanted, wanted))
        with self.assertRaisesRegex(ValueError, "SESSION_COOKIE_NAME is 'sid'"):
            fonnalich.flask.init_app(shop(SESSION_COOKIE_NAME="sid"), KEY, "__Host-sid")

    def test_that_can_not_be_are_refused(self):
        for wrong in [{"SESSION_COOKIE_DOMAIN": "shop.test"}, {"SESSION_COOKIE_PATH": "/shop"},
                      {"SESSION_COOKIE_SECURE": False}, {"SESSION_COOKIE_SAMESITE": "no"},
                      {"SESSION_COOKIE_SAMESITE": ""}]:
            with self.assertRaisesRegex(ValueError, f"^{[*wrong][0]}[^;]*$"):
                sealed(**wrong)
        with self.assertRaisesRegex(ValueError, r'say app\.config\["SESSION_COOKIE_SECURE"\] = True before'):
            sealed(SESSION_COOKIE_SECURE=False)
        for told, name in [("", None), (None, None), ("session", "")]:
            with self.assertRaisesRegex(ValueError, "^SESSION_COOKIE_NAME has to be a name$"):
                fonnalich.flask.init_app(shop(SESSION_COOKIE_NAME=told), KEY, name)
        with self.assertRaisesRegex(ValueError, "^SESSION_COOKIE_PATH .*APPLICATION_ROOT"):
            sealed(APPLICATION_ROOT="/shop")
        sealed(APPLICATION_ROOT="/shop", SESSION_COOKIE_PATH="/")
        with self.assertRaisesRegex(ValueError, "SECURE.*; .*DOMAIN.*; .*PATH"):
            sealed(SESSION_COOKIE_SECURE=False, SESSION_COOKIE_DOMAIN="shop.test", SESSION_COOKIE_PATH="/shop")
        for key, error in [(bytes(63), ValueError), ("x" * 64, TypeError)]:
            with self.assertRaises(error):
                sealed(key)
        with self.assertRaisesRegex(Refused, "KeyEnd"):
            sealed(KEY, [(KEY, NOW * 1000)])

    def test_of_the_page_run(self):
        names = {"app": shop(SESSION_COOKIE_SECURE=False), "key": KEY}
        exec(blocks("Flask")[0], names)
        browser = Browser(names["app"])
        browser.get("/set/user/ann")
        self.assertIn("__Host-session=", browser.client.header(HOST))


class Texts(unittest.TestCase):
    """The JSON of a session says what that of Flask does, and is read as what it was."""

    VALUES = ["", "ann", "\u00e9; %\n\x7f", 0, -1, 10**30, True, False, None, 1.5, (1, "a"), b"\xff", [1, [2]],
              {"a": 1}, {" t": [1]}, {" t": 1, "b": (2,)}, uuid.UUID(int=7), Markup("<b>")]
    NAMES = ["user", "count", " t", " d", "_permanent", "\u00e9", 'a "b"', ""]

    def test_of_drawn_sessions(self):
        drawn, app = random.Random(4), Flask("shop")
        for _ in range(1000):
            plain = drawn.random() < 0.5
            values = self.VALUES[:8] if plain else self.VALUES
            content = {it: drawn.choice(values) for it in drawn.sample(self.NAMES, drawn.randrange(6))}
            self.expect(app, content)

    def test_by_a_tag_of_the_application(self):
        class Shout(JSONTag):
            key = " shout"

            def check(self, value):
                return value == "ann"

            def to_json(self, value):
                return value.upper()

            def to_python(self, value):
                return value.lower()

        order, tags = [*session_json_serializer.order], {**session_json_serializer.tags}
        self.addCleanup(lambda: (setattr(session_json_serializer, "order", order),
                                 setattr(session_json_serializer, "tags", tags)))
        session_json_serializer.register(Shout, index=0)
        self.expect(Flask("shop"), {"user": "ann", "count": 1})
        self.assertIn("ANN", fonnalich.flask._written(NOW, {"user": "ann", "count": 1}))

    def expect(self, app, content):
        text, wanted = fonnalich.flask._written(NOW, content), session_json_serializer.dumps([NOW, content])
        self.assertEqual(*(json.dumps(json.loads(it), sort_keys=True) for it in (text, wanted)), content)
        self.assertEqual(repr(fonnalich.flask._content(app, text, NOW)), repr(content))


class BesideFlask(unittest.TestCase):
    """What an application tells by a sealed session is what it tells by Flask's own."""

    def test_lives_as_long(self):
        self.play(["/permanent/1", "/set/user/ann"], [0, 30, 59, 59, 61], None)
        self.play(["/set/user/ann"], [59, 60, 61], None)
        self.play(["/set/user/ann"], [60], None)
        self.play(["/permanent/1", "/set/user/ann"], [30, 29, 2], False)

    def test_in_drawn_plays(self):
        drawn, acts = random.Random(2), ["/", "/", "/static", "/set/a/1", "/set/a/2", "/set/b/1", "/pop/a", "/pop/b",
                                         "/clear", "/permanent/1", "/permanent/0"]
        for _ in range(40):
            self.play(drawn.choices(acts, k=12), [drawn.choice([0, 1, 20, 59, 61]) for _ in range(12)],
                      drawn.choice([None, False]))

    def play(self, paths, seconds, refresh):
        settings = {"PERMANENT_SESSION_LIFETIME": 60}
        if refresh is not None:
            settings["SESSION_REFRESH_EACH_REQUEST"] = refresh
        browsers = [Browser(it(**settings)) for it in (shop, sealed)]
        now, asked = NOW, [*((path, 0) for path in paths), *(("/", at) for at in seconds)]
        if len(paths) == len(seconds):
            asked = [*zip(paths, seconds), ("/", 0)]
        for path, later in asked:
            now += later
            with unittest.mock.patch("time.time", lambda: now + 0.25):
                told, wanted = (self.told(it, path, now) for it in browsers)
            self.assertEqual(told, wanted, asked)

    def told(self, browser, path, now):
        """The text of an answer, and the lives of the cookies that it sets."""
        browser.now, began = now, datetime.datetime.now().timestamp()
        answer = browser.get(path)
        # (Flask counts lives from the true time, whatever is told)
        moments = range(int(began), int(datetime.datetime.now().timestamp()) + 1)
        # (Flask removes a cookie too that isn't there)
        return answer.text, [it for it in (self.life(line, moments) for line in answer.lines()) if it[0]]

    def life(self, line, moments):
        """Whether a line of one of these moments sets a cookie, and for how long; by an expiry that is another life
        than 60 it is that expiry."""
        it = Cookie.parse(line)
        is_a_minute = it.expires is not None and it.expires - 60 in moments
        return bool(it.value), it.max_age if it.max_age is not None else 60 if is_a_minute else it.expires


if __name__ == "__main__":
    unittest.main()

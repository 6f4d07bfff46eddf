"""Tests `fonnalich.django` by Django, beside its own backend of signed cookies."""
import datetime
import importlib
import json
import random
import time
import unittest
import unittest.mock

import django
from django.conf import settings
from django.core.exceptions import ImproperlyConfigured
from django.core.handlers.wsgi import WSGIHandler
from django.http import HttpResponse
from django.test.utils import override_settings
from django.urls import path

from fonnalich import Cookie, Session, Way

from frameworks.kit import KEY, NOW, Browser, blocks, expect_nothing_of_another_hand, forged

HOST, NEIGHBOUR = "https://shop.test/", "https://sub.shop.test/"
NAMES = {"key": KEY}
exec(blocks("Django")[0], NAMES)
SETTINGS = {name: value for name, value in NAMES.items() if name.isupper()}
OWN = {**SETTINGS, "SESSION_ENGINE": "django.contrib.sessions.backends.signed_cookies",
       "MIDDLEWARE": ["django.contrib.sessions.middleware.SessionMiddleware"]}


def told(request):
    return HttpResponse(repr(sorted(request.session.items())))


def put(request, name, value):
    request.session[name] = value
    return told(request)


def pop(request, name):
    request.session.pop(name, None)
    return told(request)


def flush(request):
    request.session.flush()
    return told(request)


def cycle(request):
    request.session.cycle_key()
    return told(request)


def browser_s(request):
    request.session.set_expiry(0)
    return told(request)


def expiry(request, seconds):
    end = int(time.time()) + seconds
    is_moment = "moment" in request.GET
    request.session.set_expiry(datetime.datetime.fromtimestamp(end, datetime.timezone.utc) if is_moment else seconds)
    return told(request)


def page(request):
    return HttpResponse("page")


urlpatterns = [path("", told), path("set/<name>/<value>", put), path("pop/<name>", pop), path("flush", flush),
               path("cycle", cycle), path("browser", browser_s), path("expiry/<int:seconds>", expiry),
               path("static", page)]
settings.configure(ALLOWED_HOSTS=["*"], ROOT_URLCONF=__name__, SECRET_KEY="a secret", USE_TZ=True,
                   **SETTINGS)
django.setup()


def browser(**changed):
    """A browser of the site by these settings, which count for it as it is made."""
    with override_settings(**changed):
        return Browser(WSGIHandler())


class Sessions(unittest.TestCase):
    def setUp(self):
        self.browser = browser()

    def test_come_back(self):
        self.browser.get("/set/user/ann")
        self.assertEqual(self.browser.get("/").text, "[('user', 'ann')]")
        self.browser.get("/cycle")
        self.assertEqual(self.browser.get("/").text, "[('user', 'ann')]")

    def test_are_sealed_json_of_the_host(self):
        # (with a hyphen, which no sealing has)
        line, = self.browser.get("/set/user/ann-e").lines()
        cookie = Cookie.parse(line)
        self.assertEqual((cookie.name, cookie.path, cookie.domain, cookie.secure, cookie.http_only, cookie.same_site,
                          cookie.max_age), ("__Host-session", "/", None, True, True, "Lax", 14 * 24 * 60 * 60))
        self.assertNotIn("ann-e", line)
        text = Session(line.partition(";")[0], KEY).get(Way.SEALED, "__Host-session")
        self.assertEqual(json.loads(text.partition(" ")[2]), {"user": "ann-e"})

    def test_end(self):
        self.browser.get("/set/user/ann")
        cookie = Cookie.parse(self.browser.get("/flush").lines()[0])
        self.assertEqual((cookie.name, cookie.max_age), ("__Host-session", 0))
        self.assertEqual(self.browser.client.header(HOST), "")

    # Whatever the browser kept: shorter and longer than the age of the settings. (Before 4.1 JSON has no moment.)
    def test_end_at_the_site_as_they_were_told_to(self):
        for seconds in [30, 90]:
            for moment in ["", "?moment"][:1 + (django.VERSION >= (4, 1))]:
                for later, held in [(seconds - 1, True), (seconds + 1, False)]:
                    its, now = Browser(WSGIHandler()), NOW
                    with override_settings(SESSION_COOKIE_AGE=60), \
                            unittest.mock.patch("time.time", lambda: now + 0.25):
                        its.get("/set/user/ann")
                        # (Django counts a moment's Max-Age from the true time)
                        header = its.get(f"/expiry/{seconds}{moment}").lines()[0].partition(";")[0]
                        now += later
                        self.assertEqual("ann" in its.get("/", header).text, held, (seconds, moment, later))

    def test_outlive_their_key(self):
        self.browser.get("/set/user/ann")
        header, new, later = self.browser.client.header(HOST), bytes(range(64, 128)), time.time() + 3600
        for fallbacks, held in [([], ""), ([(KEY, later - 3601)], ""), ([KEY], "('user', 'ann')"),
                                ([(KEY, later)], "('user', 'ann')")]:
            with override_settings(FONNALICH_KEY=new, FONNALICH_KEY_FALLBACKS=fallbacks):
                self.assertEqual(Browser(WSGIHandler()).get("/", header).text, f"[{held}]", fallbacks)

    def test_of_another_hand_are_empty(self):
        expect_nothing_of_another_hand(self, HOST, ["hello", "[]", "1 {", f"{NOW} {{}}", ""])

    # The cookie that a neighbour plants is one that the site sealed for it.
    def test_are_not_set_by_a_neighbour(self):
        eve = browser()
        eve.get("/set/user/eve")
        pair = eve.client.header(HOST)
        lines = [f"{pair}; Domain=shop.test; Path=/; Secure", f"{pair}; Secure; Path=/",
                 "__Host-session=; Domain=shop.test; Max-Age=0; Path=/; Secure"]
        self.browser.get("/set/user/ann")
        for site in [NEIGHBOUR, "http://shop.test/"]:
            self.browser.client.receive(site, lines)
        self.assertEqual(self.browser.get("/").text, "[('user', 'ann')]")


    def test_are_read_by_the_name_that_browsers_know(self):
        eve = browser()
        eve.get("/set/user/eve")
        self.browser.get("/set/user/ann")
        header = self.browser.client.header(HOST)
        for pair in forged(eve.client.header(HOST)):
            self.assertEqual(self.browser.get("/", pair).text, "[]", pair)
            for both in [f"{header}; {pair}", f"{pair}; {header}"]:
                self.assertEqual(self.browser.get("/", both).text, "[('user', 'ann')]", both)
        # (so the middleware is for something: with Django's the first of these is read)
        self.assertIn("eve", browser(MIDDLEWARE=OWN["MIDDLEWARE"]).get("/", eve.client.header(HOST)).text)


class Settings(unittest.TestCase):
    def test_that_can_not_be_are_told(self):
        for wrong in [{"SESSION_COOKIE_NAME": "sessionid"}, {"SESSION_COOKIE_SECURE": False},
                      {"SESSION_COOKIE_DOMAIN": "shop.test"}, {"SESSION_COOKIE_PATH": "/shop"},
                      {"FONNALICH_KEY": bytes(63)}, {"FONNALICH_KEY": "x" * 64}, {"FONNALICH_KEY": None},
                      {"FONNALICH_KEY_FALLBACKS": [bytes(63)]}, {"FONNALICH_KEY_FALLBACKS": ["x" * 64]},
                      {"FONNALICH_KEY_FALLBACKS": [KEY] * 17}, {"FONNALICH_KEY_FALLBACKS": [(KEY, NOW * 1000)]}]:
            from fonnalich.django import SessionStore
            for begin in [SessionStore, WSGIHandler]:
                with override_settings(**wrong), self.assertRaisesRegex(ImproperlyConfigured, [*wrong][0], msg=begin):
                    begin()

    def test_of_an_older_django_are_told(self):
        import fonnalich.django as module
        with unittest.mock.patch("django.VERSION", (2, 2, 28, "final", 0)):
            with self.assertRaisesRegex(ImproperlyConfigured, r"Django 3\.2 or later, and this is 2\.2\.28"):
                importlib.reload(module)

    def test_of_another_engine_need_no_key(self):
        site = browser(SESSION_ENGINE=OWN["SESSION_ENGINE"], FONNALICH_KEY=None)
        self.assertEqual(site.get("/set/user/ann").text, "[('user', 'ann')]")


class BesideDjango(unittest.TestCase):
    """What a site tells by a sealed session is what it tells by Django's signed one."""

    def test_lives_as_long(self):
        for paths in [["/set/user/ann"], ["/set/user/ann", "/browser"]]:
            for last in [59, 60, 61]:
                self.play([*((path, 0) for path in paths), ("/", last), ("/", 0)])

    def test_in_drawn_plays(self):
        drawn, acts = random.Random(3), ["/", "/", "/static", "/set/a/1", "/set/a/2", "/set/b/1", "/pop/a", "/pop/b",
                                         "/flush", "/cycle", "/browser"]
        for i in range(40):
            asked = [(act, drawn.choice([0, 1, 20, 59, 61])) for act in drawn.choices(acts, k=12)]
            self.play(asked, SESSION_SAVE_EVERY_REQUEST=i % 2 > 0)

    def play(self, asked, **more):
        browsers, now = [(browser(**each), each) for each in (OWN, SETTINGS)], NOW
        for where, later in asked:
            now += later
            with unittest.mock.patch("time.time", lambda: now + 0.25):
                own, other = (self.told(it, where, now, {**each, **more}) for it, each in browsers)
            self.assertEqual(own, other, (asked, where))

    def told(self, its, where, now, changed):
        """The text of an answer, and of each line whether it sets a cookie, and for how long."""
        its.now = now
        with override_settings(SESSION_COOKIE_AGE=60, **changed):
            answer = its.get(where)
        return answer.text, [(bool(it.value), it.max_age) for it in map(Cookie.parse, answer.lines())]


if __name__ == "__main__":
    unittest.main()

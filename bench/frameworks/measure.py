#!/usr/bin/env python3
"""Times Flask's requests with a sealed session, and calls of requests with a client's cookies, beside their own.

usage: bench/frameworks/measure.py [ROUNDS]

By the library of FONNALICH_LIB, else that of out/. Processor time of this process; nothing goes over a network. The
kinds take turns, ROUNDS times, 15 where none is said, and the least and the median of these are told. Behind them the
parts of a sealed session, each timed alone behind a request without one, as it is in a request.
"""
import io
import os
import statistics
import sys
import time
from http.client import parse_headers

sys.dont_write_bytecode = True
sys.path.insert(0, os.path.join(os.path.dirname(os.path.abspath(__file__)), "../../bindings/python"))

import flask
import requests
import urllib3
from flask import Flask, session
from requests.adapters import BaseAdapter, HTTPAdapter

import fonnalich.flask
import fonnalich.requests
from fonnalich import Client, Rules

ROUNDS = int(sys.argv[1]) if len(sys.argv) > 1 else 15


def told(what, calls, count):
    """Tells what a call of each kind takes, in microseconds."""
    took = {kind: [] for kind in calls}
    for _ in range(ROUNDS):
        for kind, call in calls.items():
            began = time.process_time_ns()
            for _ in range(count):
                call()
            took[kind].append((time.process_time_ns() - began) / count / 1000)
    for kind, each in took.items():
        print(f"{what}, {kind}: {min(each):.0f} at least, {statistics.median(each):.0f} at the median")


# ---- Flask

def site(kind):
    """An application whose page keeps a count in a session, reads it, or has no session."""
    app = Flask("site")
    if kind.startswith("Flask's"):
        app.secret_key = "k" * 32
    elif kind.startswith("sealed"):
        app.config["SESSION_COOKIE_SECURE"] = True
        fonnalich.flask.init_app(app, bytes(range(64)))

    @app.route("/in")
    def log_in():
        session.update(user="ann", count=0)
        return "in"

    @app.route("/")
    def page():
        if kind == "without":
            return "page"
        if kind.endswith("set"):
            session["count"] = session["count"] + 1
        return str(session["count"])

    return app


def asked(app, path, header):
    """The fields of an answer."""
    fields = []
    environ = {"REQUEST_METHOD": "GET", "SCRIPT_NAME": "", "PATH_INFO": path, "QUERY_STRING": "", "HTTP_COOKIE": header,
               "HTTP_HOST": "shop.test", "SERVER_NAME": "shop.test", "SERVER_PORT": "443", "wsgi.url_scheme": "https",
               "SERVER_PROTOCOL": "HTTP/1.1", "wsgi.input": io.BytesIO(), "wsgi.errors": sys.stderr}
    body = b"".join(app(environ, lambda status, its, exc_info=None: fields.extend([("", status), *its])))
    if fields[0][1] != "200 OK" or not body:
        sys.exit(f"{path}: {fields}")
    return fields


def request_of(kind):
    """A call that asks for the page of a user who is logged in."""
    app = site(kind)
    fields = [("Set-Cookie", "theme=dark; Path=/")] if kind == "without" else asked(app, "/in", "")
    header = next(value for name, value in fields if name == "Set-Cookie").partition(";")[0]
    return lambda: asked(app, "/", header)


def behind(request, part):
    """The least and the median time of a part, in microseconds, each time behind a request, which takes the processor's
    caches."""
    took = []
    for _ in range(40 * ROUNDS):
        request()
        began = time.perf_counter_ns()
        part()
        took.append((time.perf_counter_ns() - began) / 1000)
    return min(took), statistics.median(took)


def parts_told():
    """Tells what the parts of a sealed session take."""
    app, content, now = site("sealed, set"), {"user": "ann", "count": 0}, int(time.time())
    sessions, plain = app.session_interface, request_of("without")
    cookie, text = sessions._cookie, fonnalich.flask._written(now, content)
    header = cookie.line(text, now).partition(";")[0].encode()
    parts = {
        "nothing": lambda: None,
        "a text is opened": lambda: cookie.opened(header, now),
        "one is sealed": lambda: cookie.line(text, now),
        "its JSON is read, and its life": lambda: fonnalich.flask._content(app, text, now),
        "its JSON is written": lambda: fonnalich.flask._written(now, content),
        "Flask's object for a session": lambda: fonnalich.flask.SealedSession(content),
    }
    for name, part in parts.items():
        least, median = behind(plain, part)
        print(f"Flask, a part, {name}: {least:.1f} at least, {median:.1f} at the median")


# ---- requests

class Answers(BaseAdapter):
    """Answers a request at once, as an `HTTPAdapter` does what it is sent."""

    def __init__(self):
        super().__init__()
        self.over = HTTPAdapter()

    def send(self, request, **_):
        fields = b"Content-Length: 2\r\nSet-Cookie: seen=1; Path=/; Secure\r\n\r\n"
        raw = urllib3.HTTPResponse(io.BytesIO(b"ok"), status=200, preload_content=False)
        raw._original_response = type("Original", (), {"msg": parse_headers(io.BytesIO(fields)),
                                                       "isclosed": lambda self: True, "close": lambda self: None})()
        return self.over.build_response(request, raw)

    def close(self):
        pass


def visitor(is_ours, count, each):
    """A call that visits one of the hosts of these many cookies, so many at each."""
    visits = requests.Session()
    visits.trust_env = False
    client = Client("test\n", rules=Rules.BROWSER)
    if is_ours:
        visits.cookies = fonnalich.requests.Jar(client)
    visits.mount("https://", fonnalich.requests.Adapter(client, over=Answers()) if is_ours else Answers())
    for i in range(count):
        visits.cookies.set(f"n{i % each}", "v" * 20, domain=f"h{i // each}.test", path="/", secure=True)
    return lambda: visits.get("https://h0.test/")


def main():
    with open("/proc/loadavg", encoding="ascii") as file:
        load = file.read().split()[0]
    print(f"Python {sys.version.split()[0]}, Flask {flask.__version__}, requests {requests.__version__}, load {load}")
    kinds = ("without", "Flask's own, read", "Flask's own, set", "sealed, read", "sealed, set")
    told("Flask, a session", {kind: request_of(kind) for kind in kinds}, 100)
    parts_told()
    for count, each in ((10, 10), (1000, 10), (1000, 1)):
        calls = {"its own jar": visitor(False, count, each), "a client's": visitor(True, count, each)}
        told(f"requests, {count} cookies, {each} at a host", calls, 5)


if __name__ == "__main__":
    main()

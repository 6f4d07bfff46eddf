"""A site with a log-in by WSGI alone, whose keys change and whose sessions end 30 minutes after the last visit.

usage: PORT=8000 KEY_FILE=keys python3 app.py
       KEY_FILE=keys python3 app.py rotate

/login?user=NAME, of letters and digits, logs in and redirects to /, which tells the user and counts visits; /logout
logs out. A real site asks for a password there, by a form. It listens on 127.0.0.1 by http, behind a server that speaks
https: a browser takes a cookie under `__Host-` by https alone.

KEY_FILE has keys of 64 bytes, the newest first, and is made where it isn't there. `rotate`, which a timer runs each
week, puts a new key before them and leaves the last two: so a key is read for two weeks after it was replaced, and no
session of 30 minutes is logged out.
"""
import os
import sys
import time
from urllib.parse import parse_qs
from wsgiref.simple_server import WSGIRequestHandler, make_server

from fonnalich import Session, Way

LIFE, KEPT, LENGTH = 30 * 60, 2, 64
NAME = "__Host-session"
TO_PAGE = "303 See Other"
KEY_FILE = os.environ.get("KEY_FILE", "keys")


def keys():
    """The keys of the file, which every process of the site reads and nobody else may."""
    if not os.path.exists(KEY_FILE):
        rotate()
    with open(KEY_FILE, "rb") as file:
        text = file.read()
    return [text[at:at + LENGTH] for at in range(0, len(text), LENGTH)]


def rotate():
    """Puts a new key before those of the file. What another process reads meanwhile is the whole old file."""
    kept = keys()[:KEPT] if os.path.exists(KEY_FILE) else []
    # (another that rotates at the same moment has this fail)
    with open(os.open(f"{KEY_FILE}.new", os.O_WRONLY | os.O_CREAT | os.O_EXCL, 0o600), "wb") as file:
        file.write(b"".join([os.urandom(LENGTH), *kept]))
    os.replace(f"{KEY_FILE}.new", KEY_FILE)


def site(environ, start_response):
    # (a header has a character for each byte)
    session = Session(environ.get("HTTP_COOKIE", "").encode("latin-1"), keys=keys())
    status, text = answer(session, environ["PATH_INFO"], environ.get("QUERY_STRING", ""))
    fields = [("Content-Type", "text/plain"), *([("Location", "/")] if status == TO_PAGE else [])]
    start_response(status, [*fields, *[("Set-Cookie", line) for line in session.close()]])
    return [f"{text}\n".encode()]


def answer(session, path, query):
    """The status and the text of a page."""
    if path == "/login":
        return log_in(session, parse_qs(query).get("user", [""])[0])
    if path == "/logout":
        session.remove(Way.SEALED, NAME)
        return TO_PAGE, ""
    return welcome(session) if path == "/" else ("404 Not Found", "no such page")


def log_in(session, user):
    # (with a blank in it, the text that is sealed would say another user or count)
    if not (user.isascii() and user.isalnum()):
        return "400 Bad Request", "no user"
    keep(session, user, 0)
    return TO_PAGE, ""


def welcome(session):
    user, _, count = (session.get_until(Way.SEALED, NAME) or "").partition(" ")
    if not user:
        return "200 OK", "nobody"
    keep(session, user, int(count) + 1)
    return "200 OK", f"{user} {int(count) + 1}"


def keep(session, user, count):
    """Seals who visits, by the newest key, until 30 minutes from now."""
    session.set(Way.SEALED, NAME, f"{user} {count}", http_only=True, same_site="Lax", until=time.time() + LIFE)


class Quiet(WSGIRequestHandler):
    def log_message(self, *_):
        pass


def main():
    if sys.argv[1:] == ["rotate"]:
        return rotate()
    keys()
    server = make_server("127.0.0.1", int(os.environ.get("PORT", "8000")), site, handler_class=Quiet)
    print(f"listening on http://127.0.0.1:{server.server_port}", flush=True)
    server.serve_forever()


if __name__ == "__main__":
    sys.exit(main())

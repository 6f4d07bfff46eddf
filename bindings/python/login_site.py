"""A site with a login: /login?user=NAME signs a cookie and redirects to /, which greets; /leave removes the cookie.

usage: python3 login_site.py [PORT]

The cookie of a session is Secure, which a client sends over https alone, and to `localhost`. So ask for that host.
"""
import http.server
import os
import sys
import urllib.parse

from fonnalich import Session, Way

# A site of more than one process, or one that starts again, keeps it in a file.
KEY = os.urandom(64)


class Site(http.server.BaseHTTPRequestHandler):
    """Each answer is a line of text: the user, or `nobody`."""

    def do_GET(self) -> None:
        url = urllib.parse.urlsplit(self.path)
        asked = urllib.parse.parse_qs(url.query)
        # A header has a character for each byte.
        session = Session(self.headers.get("Cookie", "").encode("latin-1"), KEY)
        if url.path == "/login" and "user" in asked:
            session.set(Way.SIGNED, "user", asked["user"][0], max_age=3600, http_only=True, same_site="Lax")
            self.redirect(session)
        elif url.path == "/leave":
            session.remove(Way.SIGNED, "user")
            self.redirect(session)
        else:
            self.answer(session.get(Way.SIGNED, "user") or "nobody")

    def redirect(self, session: Session) -> None:
        self.send_response(303)
        for line in session.close():
            self.send_header("Set-Cookie", line)
        self.send_header("Location", "/")
        self.send_header("Content-Length", "0")
        self.end_headers()

    def answer(self, text: str) -> None:
        body = (text + "\n").encode()
        self.send_response(200)
        self.send_header("Content-Type", "text/plain; charset=utf-8")
        self.send_header("Content-Length", str(len(body)))
        self.end_headers()
        self.wfile.write(body)

    def log_message(self, *_: object) -> None:
        pass


if __name__ == "__main__":
    http.server.ThreadingHTTPServer(("127.0.0.1", int((sys.argv[1:] or ["8000"])[0])), Site).serve_forever()

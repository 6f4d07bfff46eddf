"""What the tests of frameworks share: a browser for applications of WSGI, a site on loopback and the blocks of the
page."""
import http.server
import os
import re
import threading
import urllib.parse
import wsgiref.util
from wsgiref.validate import validator

from fonnalich import Client, Rules, Session, Way

TOP = os.path.dirname(os.path.dirname(os.path.dirname(os.path.dirname(os.path.abspath(__file__)))))
KEY = bytes(range(64))
NOW = 1700000000


def blocks(heading):
    """The blocks in Python of a section of the page."""
    with open(f"{TOP}/bindings/README.md", encoding="utf-8") as page:
        section = re.split(r"^#+ ", page.read().partition(f"# {heading}\n")[2], flags=re.M)[0]
    found = re.findall(r"^```python\n(.*?)^```", section, re.M | re.S)
    if not found:
        raise ValueError(f"the page has no block under {heading}")
    return found


def forged(pair):
    """Names of a pair that decode or trim to its name, and that a browser keeps as they are: so it lets a neighbour set
    them."""
    name, _, value = pair.partition("=")
    escaped = "".join(f"%{ord(it):02x}" for it in name)
    for it in [f"%5F{name[1:]}", f"_%5f{name[2:]}", f"__%{ord(name[2]):x}{name[3:]}", name.replace("-", "%2D"), escaped,
               f"\u00a0{name}", f"\u3000{name}", f"\x0b{name}", f"\x1f{name}", f"\u0085%5f{name[1:]}"]:
        yield f"{it}={value}"


def expect_nothing_of_another_hand(test, site, texts):
    """Has a session of `__Host-session` be empty for texts that the site didn't seal so, and for a cookie that was
    changed."""
    test.browser.get("/set/user/ann")
    header = test.browser.client.header(site)
    changed = header[:30] + ("y" if header[30] == "x" else "x") + header[31:]
    for text in texts:
        other = Session("", KEY)
        other.set(Way.SEALED, "__Host-session", text)
        test.assertEqual(test.browser.get("/", other.close()[0].partition(";")[0]).text, "[]", text)
    for pair in [header[:-1], changed, header.replace("__Host-", ""), "__Host-session=", "__Host-session=\u65e5"]:
        test.assertEqual(test.browser.get("/", pair).text, "[]", pair)
    test.assertEqual(test.browser.get("/", header).text, "[('user', 'ann')]")


class Answer:
    """What an application answered: the status, the fields and the body."""

    def __init__(self):
        self.status, self.fields, self.body = "", [], b""

    def start(self, status, fields, exc_info=None):
        """The `start_response` of a server whose fields go out with the first byte of the body."""
        if exc_info and self.body:
            raise exc_info[1].with_traceback(exc_info[2])
        self.status, self.fields = status, fields
        return self.write

    def write(self, part):
        self.body += part

    def lines(self):
        return [value for name, value in self.fields if name.lower() == "set-cookie"]

    @property
    def text(self):
        return self.body.decode()


class Browser:
    """A client that asks an application of WSGI, of which the standard library looks at each call."""

    def __init__(self, app, site="https://shop.test"):
        self.app, self.site, self.now = validator(app), site, None
        self.client = Client("test\n", rules=Rules.BROWSER)

    def get(self, path, header=None):
        url = urllib.parse.urlsplit(f"{self.site}{path}")
        sent = self.client.header(url.geturl(), self.now) if header is None else header
        environ = {"REQUEST_METHOD": "GET", "SCRIPT_NAME": "", "PATH_INFO": url.path, "QUERY_STRING": url.query,
                   "HTTP_HOST": url.netloc, "wsgi.url_scheme": url.scheme, "SERVER_PROTOCOL": "HTTP/1.1"}
        if sent:
            environ["HTTP_COOKIE"] = sent.encode().decode("latin-1")
        wsgiref.util.setup_testing_defaults(environ)
        answer = Answer()
        parts = self.app(environ, answer.start)
        try:
            for part in parts:
                answer.write(part)
        finally:
            parts.close()
        self.client.receive(url.geturl(), [line.encode("latin-1") for line in answer.lines()], self.now)
        return answer


class Echo(http.server.BaseHTTPRequestHandler):
    """Sends the lines of the server, and as the body the bytes of the request's Cookie header; /go redirects to /."""

    protocol_version = "HTTP/1.1"

    def do_GET(self):
        body = b"; ".join(it.encode("latin-1") for it in self.headers.get_all("Cookie", []))
        status = b"302 Found\r\nLocation: /" if self.path == "/go" else b"200 OK"
        lines = b"".join(b"Set-Cookie: " + line + b"\r\n" for line in self.server.lines.get(self.path, ()))
        length = b"Content-Length: %d\r\n\r\n" % len(body)
        self.wfile.write(b"HTTP/1.1 " + status + b"\r\n" + lines + length + body)

    def log_message(self, *_):
        pass


class Server(http.server.ThreadingHTTPServer):
    """A server in which all that a test asks at once has a place in the queue."""

    daemon_threads, request_queue_size = True, 128


class Site:
    """A site on loopback, which sends the lines of each path, for the length of a block."""

    def __enter__(self):
        self.server = Server(("127.0.0.1", 0), Echo)
        self.server.lines = self.lines = {}
        threading.Thread(target=self.server.serve_forever, args=(0.01,), daemon=True).start()
        self.url = f"http://127.0.0.1:{self.server.server_port}"
        return self

    def __exit__(self, *_):
        self.server.shutdown()
        self.server.server_close()

"""Sites on loopback, by http and by https, and how curl finds them whatever the host and the port."""
import os
import shutil
import ssl
import subprocess
import threading
import time
from collections import defaultdict, namedtuple
from http.server import BaseHTTPRequestHandler, ThreadingHTTPServer
from socketserver import BaseRequestHandler

from .kit import read, written

# What the site of an example sets.
EXAMPLE = "sid=a3f; Path=/; Max-Age=3600"


class Handler(BaseHTTPRequestHandler):
    """Answers requests, and writes nothing of them."""

    protocol_version = "HTTP/1.1"

    def log_message(self, *_):
        pass


Request = namedtuple("Request", "method host target fields cookies body")


class Site(Handler):
    """Answers each request with the next of what is to be said to its visit, and keeps it.

    A visit is what the field X-Visit names; one without it is that of an example. What is said are lines to set, a
    Location or None, and a status line's words where they aren't the usual ones."""

    said, had = {}, defaultdict(list)

    def do_GET(self):
        visit = self.headers["X-Visit"]
        host, body = self.headers["Host"].lower(), self.rfile.read(int(self.headers["Content-Length"] or 0))
        cookies = b"; ".join(it.encode("latin-1") for it in self.headers.get_all("Cookie", []))
        Site.had[visit].append(Request(self.command, host, self.path, self.headers, cookies, body))
        nothing = ([] if visit else [EXAMPLE.encode()], None)
        lines, location, *status = Site.said[visit].pop(0) if Site.said.get(visit) else nothing
        fields = [b"Set-Cookie: " + line for line in lines] + ([b"Location: " + location] if location else [])
        fields += [b"Content-Length: 3", b"Connection: close"]
        status = status[0] if status else b"302 Found" if location else b"200 OK"
        text = b"" if self.command == "HEAD" else b"ok\n"
        self.wfile.write(b"\r\n".join([b"HTTP/1.1 " + status, *fields, b"", text]))

    do_HEAD = do_POST = do_PUT = do_GET


class Quiet(ThreadingHTTPServer):
    daemon_threads, request_queue_size = True, 64

    def handle_error(self, *_):
        """Says nothing of a client that went: what it wasn't told is missed where it is compared."""


def begun(handler, certificate=None):
    """A server that ends with this process, by https where it has a certificate."""
    server = Quiet(("127.0.0.1", 0), handler)
    if certificate:
        context = ssl.SSLContext(ssl.PROTOCOL_TLS_SERVER)
        context.load_cert_chain(certificate)
        # (a client's own thread shakes hands, by its first read: one that doesn't keeps no other waiting)
        server.socket = context.wrap_socket(server.socket, server_side=True, do_handshake_on_connect=False)
    threading.Thread(target=server.serve_forever, daemon=True).start()
    return server


def served(folder, handler=Site, hosts=("shop.com", "*.shop.com")):
    """The ports of two servers, by http and by https, and the certificate of these hosts that the second one has."""
    path = f"{folder}/site.pem"
    words = ["req", "-x509", "-newkey", "ec", "-pkeyopt", "ec_paramgen_curve:prime256v1", "-nodes", "-days", "2"]
    words += ["-subj", "/CN=loopback", "-addext", f"subjectAltName={','.join(f'DNS:{it}' for it in hosts)}"]
    subprocess.run(["openssl", *words, "-keyout", path, "-out", f"{path}.2"], check=True, capture_output=True)
    written(path, read(path) + read(f"{path}.2"))
    return [begun(handler, it).server_port for it in (None, path)], path


def strangers(*answers):
    """The port of a site that ends with this process, and the heads of the requests that it has had so far: it answers
    one after another with the next of these, each bytes, and seconds to wait between them."""
    had, left = [], iter(answers)

    class Stranger(BaseRequestHandler):
        def handle(self):
            parts, asked = next(left), b""
            while b"\r\n\r\n" not in asked and (read := self.request.recv(4096)):
                asked += read
            had.append(asked)
            for part in parts if isinstance(parts, tuple) else (parts,):
                if isinstance(part, bytes):
                    self.request.sendall(part)
                else:
                    time.sleep(part)

    return begun(Stranger).server_port, had


def put_curl(folder, ports, *more):
    """Writes a program `curl` for a PATH: it finds the sites, and asks with these words as the visit that VISIT names,
    or with those of WAY alone. Where a thread forks while a program is written, that can't be run at once: so it is
    written before threads start any."""
    here = " ".join(f"'{it}'" for it in more)
    os.chmod(written(f"{folder}/curl", f'''#!/bin/sh
[ "${{1-}}" != -q ] || shift
[ -z "${{WAY-}}" ] || exec '{shutil.which("curl")}' -q -k --noproxy 127.0.0.1 $WAY "$@"
set -- --connect-to :443:127.0.0.1:{ports[1]} --connect-to ::127.0.0.1:{ports[0]} ${{VISIT:+-H "X-Visit: $VISIT"}} "$@"
exec '{shutil.which("curl")}' -q {here} "$@"
'''), 0o755)

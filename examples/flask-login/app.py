"""A site with a log-in by Flask, whose session is a sealed cookie under `__Host-`.

usage: PORT=8000 KEY_FILE=key python3 app.py

/login?user=NAME, of letters and digits, logs in and redirects to /, which tells the user and counts visits; /logout
logs out. A real site asks for a password there, by a form. It listens on 127.0.0.1 by http, behind a server that speaks
https: a browser takes a cookie under `__Host-` by https alone. KEY_FILE has the key of 64 bytes, and is made where it
isn't there.
"""
import os
import sys

import fonnalich.flask
from flask import Flask, Response, abort, redirect, request, session
from werkzeug.serving import WSGIRequestHandler, make_server


def key_of(path):
    """The key of a file, which every process of the site reads and nobody else may."""
    if not os.path.exists(path):
        with open(os.open(path, os.O_WRONLY | os.O_CREAT | os.O_EXCL, 0o600), "wb") as file:
            file.write(os.urandom(64))
    with open(path, "rb") as file:
        return file.read()


app = Flask(__name__)
app.config["SESSION_COOKIE_SECURE"] = True
fonnalich.flask.init_app(app, key_of(os.environ.get("KEY_FILE", "key")))


@app.route("/login")
def login():
    user = request.args.get("user", "")
    if not (user.isascii() and user.isalnum()):
        abort(400, "no user")
    session.clear()
    session.permanent = True
    session["user"], session["visits"] = user, 0
    return redirect("/", 303)


@app.route("/logout")
def logout():
    session.clear()
    return redirect("/", 303)


@app.route("/")
def visit():
    if "user" not in session:
        return text("nobody")
    session["visits"] += 1
    return text(f"{session['user']} {session['visits']}")


def text(line):
    return Response(f"{line}\n", mimetype="text/plain")


class Quiet(WSGIRequestHandler):
    def log(self, *_):
        pass


def main():
    server = make_server("127.0.0.1", int(os.environ.get("PORT", "8000")), app, threaded=True, request_handler=Quiet)
    print(f"listening on http://127.0.0.1:{server.port}", flush=True)
    server.serve_forever()


if __name__ == "__main__":
    sys.exit(main())

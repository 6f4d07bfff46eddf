"""Servers of Redis and of PostgreSQL in a folder of their own, for tests."""
import glob
import os
import pwd
import shutil
import signal
import socket
import subprocess

from .bounded import is_awaited, patience
from .peers import held_port

STARTING, ENDING = 20, 5
DEBIANS = "/usr/lib/postgresql/*/bin"


def await_answer(server):
    if not is_awaited(server.answers, STARTING):
        server.kill()
        raise TimeoutError(f"{type(server).__name__} doesn't answer")


class Redis:
    """A server of Redis on a port of loopback that is its own, which writes down each change before it tells of it."""

    def __init__(self, folder):
        self.held = held_port()
        self.port = self.held.getsockname()[1]
        self.process = None
        self.words = ["redis-server", "--port", str(self.port), "--bind", "127.0.0.1", "--dir", folder, "--save", "",
                      "--appendonly", "yes", "--appendfsync", "always", "--auto-aof-rewrite-percentage", "0"]

    def start(self):
        self.process = subprocess.Popen(self.words, stdout=subprocess.DEVNULL)
        await_answer(self)

    def answers(self):
        """Whether it has read its file and answers."""
        try:
            with socket.create_connection(("127.0.0.1", self.port), 1) as asked:
                asked.sendall(b"PING\r\n")
                return asked.recv(16).startswith(b"+PONG")
        except OSError:
            return False

    def kill(self):
        self.process.kill()
        self.process.wait()


class Postgres:
    """A server of PostgreSQL on a socket in its folder. It isn't run by root, but in root's name by `postgres`."""

    def __init__(self, folder):
        self.folder, self.process = folder, None
        self.how = {"stdout": subprocess.DEVNULL, "stderr": subprocess.DEVNULL, "cwd": folder}
        if os.geteuid() == 0:
            user = pwd.getpwnam("postgres")
            os.chown(folder, user.pw_uid, user.pw_gid)
            self.how |= {"user": user.pw_uid, "group": user.pw_gid, "extra_groups": []}
        self.data, self.name = f"{folder}/data", f"host={folder} user=test dbname=postgres"

    @staticmethod
    def program(name):
        """The path of one of its programs, on the PATH or where Debian has it; None where it isn't there."""
        return shutil.which(name) or next(iter(sorted(glob.glob(f"{DEBIANS}/{name}"), reverse=True)), None)

    @classmethod
    def missing(cls):
        """What isn't there, in words, or nothing."""
        if not cls.program("initdb") or not cls.program("postgres"):
            return "initdb isn't there"
        is_known = os.geteuid() or "postgres" in [it.pw_name for it in pwd.getpwall()]
        return "" if is_known else "no user is called postgres, and it isn't run by root"

    def start(self):
        words = [self.program("initdb"), "--auth=trust", "--username=test", "--no-sync", "-D", self.data]
        subprocess.run(words, check=True, **self.how)
        words = [self.program("postgres"), "-D", self.data, "-k", self.folder, "-c", "listen_addresses="]
        self.process = subprocess.Popen(words, **self.how)
        await_answer(self)

    def answers(self):
        return subprocess.run([self.program("pg_isready"), "-h", self.folder, "-q"], check=False).returncode == 0

    def kill(self):
        """Has it end, with what its connections do, and kills it where it doesn't."""
        self.process.send_signal(signal.SIGINT)
        try:
            self.process.wait(patience(ENDING))
        except subprocess.TimeoutExpired:
            self.process.kill()
            self.process.wait()

"""Files of cookies as Firefox keeps them, made by Python's own SQLite."""
import contextlib
import os
import shutil
import sqlite3
import tempfile

# The table of Firefox, from version 14 of its schema on.
TABLE = """CREATE TABLE moz_cookies (id INTEGER PRIMARY KEY, originAttributes TEXT NOT NULL DEFAULT '', name TEXT,
value TEXT, host TEXT, path TEXT, expiry INTEGER, lastAccessed INTEGER, creationTime INTEGER, isSecure INTEGER,
isHttpOnly INTEGER, inBrowserElement INTEGER DEFAULT 0, sameSite INTEGER DEFAULT 0, rawSameSite INTEGER DEFAULT 0,
schemeMap INTEGER DEFAULT 0, isPartitionedAttributeSet INTEGER DEFAULT 0,
CONSTRAINT moz_uniqueid UNIQUE (name, host, path, originAttributes))"""
VIEW = """CREATE TABLE z AS SELECT 1; CREATE VIEW moz_cookies AS SELECT 1 AS id, '' AS originAttributes, 'n' AS name,
'v' AS value, 'shop.com' AS host, '/' AS path, 1893456000000 AS expiry, 0 AS isSecure, 0 AS isHttpOnly"""
COLUMNS = ("host", "path", "name", "value", "expiry", "isSecure", "isHttpOnly", "originAttributes")
# 2030-01-01T00:00:00Z, in milliseconds.
FAR = 1_893_456_000_000
EXAMPLE = [("shop.com", "/", "id", "a3", FAR, 0, 0, ""), (".shop.com", "/", "__Secure-user", "7", FAR, 1, 1, ""),
           ("shop.com", "/cart", "seen", "", FAR, 0, 0, "")]


def put(path, rows, version=16, page=32768, log=True, table=TABLE):
    """Makes a file of rows of COLUMNS where none is; with a log, all but a first page stands in FILE-wal alone."""
    with tempfile.TemporaryDirectory() as room, contextlib.closing(
            sqlite3.connect(f"{room}/a", isolation_level=None)) as base:
        base.execute(f"PRAGMA page_size={page}")
        base.execute(f"PRAGMA journal_mode={'wal' if log else 'delete'}")
        base.execute("PRAGMA wal_autocheckpoint=0")
        base.executescript(table)
        base.execute(f"PRAGMA user_version={version}")
        base.execute("BEGIN")
        values = ", ".join("?" for _ in COLUMNS)
        for row in rows:
            base.execute(f"INSERT INTO moz_cookies ({', '.join(COLUMNS)}) VALUES ({values})", row)
        base.execute("COMMIT")
        # (what a close would merge)
        for ending in ("", "-wal"):
            if os.path.isfile(f"{room}/a{ending}"):
                shutil.copyfile(f"{room}/a{ending}", f"{path}{ending}")

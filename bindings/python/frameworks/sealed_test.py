"""Tests that the sealed cookie of the frameworks is what a `Session` reads and sets of one name."""
import random
import threading
import unittest

from fonnalich import Cookie, Refused, Session, Way, _sealed
from fonnalich._sealed import SealedCookie, attributes_of

from frameworks.kit import KEY, NOW, forged

NAME, OLD, OTHER = "__Host-session", bytes(range(64, 128)), bytes(range(1, 65))
# Texts that a command has to escape, that are JSON, and others.
TEXTS = ["", " ", "a", " a ", "a;b", "100%", "%3B", "a\nb", "\x7f", "é\u3000", "日本", '"a"', "a=b; Max-Age=1", "\x00",
         '[1700000000,{"user":"ann; 5 %","at":"\\u00e9"}]', "x" * 5000]


def pair(line):
    return line.partition(";")[0]


def session(header="", keys=(KEY,), now=NOW):
    return Session(header, keys=keys, now=now)


class Sealed(unittest.TestCase):
    def setUp(self):
        self.cookie = SealedCookie([KEY], NAME)

    def test_reads_what_a_session_set(self):
        for text in TEXTS:
            sent = session()
            sent.set(Way.SEALED, NAME, text)
            self.assertEqual(self.cookie.opened(pair(sent.close()[0]).encode(), NOW), text)

    def test_sets_what_a_session_reads(self):
        for text in TEXTS:
            line = self.cookie.line(text, NOW)
            self.assertEqual(session(pair(line)).get("sealed", NAME), text)
            self.assertEqual(line.partition("; ")[2], "Secure; Path=/")

    # A call for few bytes lets no other thread run, and one for many does.
    def test_seals_and_opens_each_length(self):
        for length in [*range(0, 9000, 61), *range(_sealed._SHORT - 80, _sealed._SHORT + 20)]:
            text = "x" * length
            header = pair(self.cookie.line(text, NOW))
            self.assertEqual(self.cookie.opened(header.encode(), NOW), text)
            self.assertEqual(session(header).get("sealed", NAME), text)

    def test_has_the_attributes_of_a_session(self):
        for words, max_age in [((False, None, False), None), ((True, None, False), None),
                               ((False, "Strict", False), None), ((False, "None", True), 0),
                               ((True, "Lax", True), 90.5)]:
            wanted = session()
            wanted.set(Way.SEALED, NAME, "a", max_age, None, *words)
            line = self.cookie.line("a", NOW, attributes_of(*words), max_age)
            self.assertEqual(line.partition("; ")[2], wanted.close()[0].partition("; ")[2], (words, max_age))
        with self.assertRaisesRegex(ValueError, "same_site"):
            attributes_of(False, "lax", False)

    def test_seals_by_new_nonces(self):
        self.assertEqual(len({self.cookie.line("a", NOW) for _ in range(9)}), 9)

    def test_removes_what_is_there(self):
        header = pair(self.cookie.line("a", NOW))
        for it in ["", "b=1", header, f"b=1; {header}", f"{NAME}=other"]:
            wanted = session(it)
            wanted.remove(Way.SEALED, NAME)
            self.assertEqual([self.cookie.removal(it.encode(), NOW) or ""], wanted.close() or [""], it)
        line = self.cookie.removal(header.encode(), NOW)
        self.assertEqual((Cookie.parse(line).value, Cookie.parse(line).max_age), ("", 0))

    def test_reads_each_header_as_a_session(self):
        drawn, found = random.Random(3), 0
        own, old = pair(self.cookie.line("own", NOW)), pair(SealedCookie([OLD], NAME).line("old", NOW))
        changed = own[:30] + ("y" if own[30] == "x" else "x") + own[31:]
        pairs = ["", "a=1", "a%3Db=%zz", "\u00a0", f"{NAME}=", NAME, own, old, changed, f" {own} ", own[:-4], "é=日本",
                 own.replace("__Host-", ""), own.replace("Host", "host"), *forged(own), own.replace("=", "%3D", 1)]
        rings = [[KEY], [OLD], [OTHER], [KEY, OLD], [OTHER, (KEY, NOW), OLD], [OTHER, (KEY, NOW + 1)]]
        cookies = [SealedCookie(it, NAME) for it in rings]
        for _ in range(300):
            header = ";".join(drawn.choices(pairs, k=drawn.randrange(1, 4))).encode()
            for ring, cookie in zip(rings, cookies):
                wanted = session(header, ring).get("sealed", NAME)
                self.assertEqual(cookie.opened(header, NOW), wanted, (header, ring))
                found += wanted is not None
        self.assertGreater(found, 100)

    def test_refuses_what_a_session_refuses(self):
        for keys in [[], [b"x" * 63], ["x" * 64], [(KEY, None), KEY[:3]], [(KEY, NOW)], [KEY] * 18,
                     [KEY, (KEY, NOW * 1000)]]:
            with self.assertRaises((TypeError, ValueError)) as wanted:
                session(keys=keys).close()
            with self.assertRaises(type(wanted.exception)):
                SealedCookie(keys, NAME)
        nameless = SealedCookie([KEY], "")
        for call in [lambda: nameless.opened(b"a=1", NOW), lambda: nameless.line("a", NOW),
                     lambda: self.cookie.opened(f"{NAME}=1".encode(), 1 << 62)]:
            with self.assertRaises(Refused):
                call()
        self.assertEqual(self.cookie.opened(pair(self.cookie.line("a", NOW)).encode(), NOW), "a")

    # Long answers, which need another room, are among them.
    def test_is_shared_by_threads(self):
        wrong = []

        def play(number):
            for i in range(200):
                text = f"{number} {i} " + "x" * (5000 if i % 9 == 0 else number)
                if self.cookie.opened(pair(self.cookie.line(text, NOW)).encode(), NOW) != text:
                    wrong.append(text)

        threads = [threading.Thread(target=play, args=(it,)) for it in range(8)]
        for it in threads:
            it.start()
        for it in threads:
            it.join()
        self.assertEqual(wrong, [])
        self.assertLessEqual(len(self.cookie._rooms), 8)
        self.assertEqual({len(it.answer) for it in self.cookie._rooms}, {_sealed._ROOM})


if __name__ == "__main__":
    unittest.main()

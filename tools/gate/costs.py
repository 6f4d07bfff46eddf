"""What tools/budget has counted: for each row of docs/BUDGET.md the calls of tools/measured, at a size.

A row is its name, its n or 0, and what gives its steps at a size. A step is a call, whether it is counted, and its two
texts; `mark` begins to count what is kept, and `kept` ends that. What comes before a counted step sets it up.
"""

LIST, URL, HERE = "com\norg\n*.ck\n", "https://www.shop.com/a/x", "https://h7.example.com/a/x"
LINE, VALUE = "user=0123456789abcdef; Path=/; Secure; HttpOnly; Max-Age=360", "0123456789abcdef"
HEADER = "theme=dark; lang=en; cart=7; id=0123456789abcdef"
KEPT, DATE = "=value; Path=/; Max-Age=2592000", "Thu, 1-Jan-26 0:00:00 UTC"
# The paths of a host's cookies. A request under `/a` gets four of them.
PATHS = ("/", "/", "/a", "/a", "/b")
# The paths of the header of n cookies have many lengths, which don't stand in their order.
DEEP, APART = "/p" * 40, 7


def does(word, first="", second=""):
    return word, False, first, second


def counts(word, first="", second=""):
    return word, True, first, second


def lines(start, end, n):
    return "\n".join(f"{start}{i}{end}" for i in range(n))


def rules(n):
    return "com\n" + "".join(f"r{i}.{'com' if i % 3 else 'org'}\n" for i in range(n))


def txt(n):
    return "".join(f"h{i // 5}.example.com\tFALSE\t{PATHS[i % 5]}\tTRUE\t4102444800\tname{i}\tvalue\n"
                   for i in range(n))


def at(host):
    return does("visit", f"https://h{host}.example.com/a/x")


def filled(word, n, to_host=5):
    text = "\n".join(f"name{i}=value; Path={PATHS[i % 5]}; Max-Age=2592000" for i in range(to_host))
    return [step for host in range(-(-n // to_host)) for step in (at(host), does(word, text))]


def saved(form, n, to_host=5):
    """A store that is saved; a first time gives its text room."""
    return [*filled("put", n, to_host), does(f"save_{form}")]


def loaded(form, steps):
    return [*steps, does("clear"), counts(f"load_{form}")]


def client(*texts, url=URL, rules=False):
    behind = [does("put_behind_rules")] if rules else []
    return [does("begin_client", LIST), *behind, does("visit", url), *(does("receive", it) for it in texts)]


def beside(n, rules=False):
    return [*client(rules=rules), *filled("receive", n), does("visit", URL)]


def got(line, url=URL, rules=True):
    """A line that a stranger sends a client."""
    return [*client(url=url, rules=rules), counts("receive", line)]


def ring(n):
    """A ring of n keys, the last of which made what is read."""
    return does("ring", "k" * n)


def read(make, read, value=VALUE, *before):
    """What a call makes of a value under a name is read by another one."""
    words = (value,) if make == "sign" else ("user", value)
    return [*before, does(make, *words), counts(read, "user")]


def session(n):
    return [does("open_session"), *(does("set_plain", f"name{i}", "value") for i in range(n))]


def pairs(n):
    return "; ".join(f"name{i}=value" for i in range(n))


def handle(n, *steps):
    """A handle that holds n rows of other hosts."""
    text = "\n".join(f"name{i}=value; Path={path}" for i, path in enumerate(PATHS))
    hosts = (f"https://h{host}.example.com/a/x" for host in range(-(-n // 5)))
    return [does("handle_begin", LIST), *(does("handle_receive", it, text) for it in hosts), *steps,
            does("handle_end")]


def kept(before, steps):
    """What is kept of these steps."""
    return [*before, does("mark"), *steps, does("kept")]


ROWS = (
    ("a line of 60 bytes is parsed", 0, lambda n: [counts("parse", LINE)]),
    ("its cookie is printed", 0, lambda n: [does("keep", LINE), counts("print")]),
    ("a value of 16 bytes is signed", 0, lambda n: [counts("sign", VALUE)]),
    ("it is verified", 0, lambda n: read("sign", "verify")),
    ("a value of 16 bytes is sealed", 0, lambda n: [counts("seal", "user", VALUE)]),
    ("it is opened", 0, lambda n: read("seal", "open")),
    ("a value of 16 bytes is verified under 17 keys", 0, lambda n: read("sign", "verify_under_ring", VALUE, ring(17))),
    ("a value of 16 bytes is opened under 17 keys", 0, lambda n: read("seal", "open_under_ring", VALUE, ring(17))),
    ("a value of 16 bytes is verified under n keys", 2, lambda n: read("sign", "verify_under_ring", VALUE, ring(n))),
    ("a value of 16 bytes is opened under n keys", 2, lambda n: read("seal", "open_under_ring", VALUE, ring(n))),
    ("a ring of n keys is rotated", 2, lambda n: [ring(n), counts("rotate")]),
    ("a value of n bytes is signed", 1000, lambda n: [counts("sign", "v" * n)]),
    ("a value of n bytes is sealed", 1000, lambda n: [counts("seal", "user", "v" * n)]),
    ("a value of 16 bytes is signed until a moment", 0, lambda n: [counts("sign_until", "user", VALUE)]),
    ("a value of 16 bytes is read that was signed so", 0, lambda n: read("sign_until", "verify_until")),
    ("a value of 16 bytes is sealed until a moment", 0, lambda n: [counts("seal_until", "user", VALUE)]),
    ("a value of 16 bytes is read that was sealed so", 0, lambda n: read("seal_until", "open_until")),
    ("a value of n bytes is read that was signed so", 1000, lambda n: read("sign_until", "verify_until", "v" * n)),
    ("a value of n bytes is read that was sealed so", 1000, lambda n: read("seal_until", "open_until", "v" * n)),
    ("a list of n rules is read", 1000, lambda n: [counts("list", rules(n))]),
    ("a name is looked up among n rules", 1000,
     lambda n: [does("list", rules(n)), counts("look_up", "www.shop.r7.com")]),
    ("a name of n labels is looked up", 1000,
     lambda n: [does("list", rules(100)), counts("look_up", "a." * n + "r7.com")]),
    ("a list of n rules is cloned", 1000, lambda n: [does("list", rules(n)), counts("clone_list")]),
    ("a new host's first cookie is put in beside n", 1000,
     lambda n: [*filled("put", n), at(n), does("make_ready", "new" + KEPT), counts("insert")]),
    ("a host's fifth cookie is put in beside n", 1000,
     lambda n: [*filled("put", n, 4), at(n // 8), does("make_ready", "new=value; Path=/b; Max-Age=2592000"),
                counts("insert")]),
    ("a cookie is removed beside n", 1000,
     lambda n: [*filled("put", n), counts("remove", f"h{n // 10}.example.com", "name1")]),
    ("n names of one path are put in", 500, lambda n: [at(0), counts("put", lines("name", KEPT, n))]),
    ("n paths of one host are put in", 500, lambda n: [at(0), counts("put", lines("name=value; Path=/p", "", n))]),
    ("n names are put in at the first of n paths", 250,
     lambda n: [at(0), does("put", lines("name=value; Path=/p", "", n)),
                counts("put", lines("m", "=value; Path=/p0", n))]),
    ("n rows are saved as JSON", 500, lambda n: [*saved("json", n), counts("save_json")]),
    ("n rows are loaded from JSON", 500, lambda n: loaded("json", saved("json", n))),
    ("n rows are saved as RON", 500, lambda n: [*saved("ron", n), counts("save_ron")]),
    ("n rows are loaded from RON", 500, lambda n: loaded("ron", saved("ron", n))),
    ("n rows of n hosts are loaded from RON", 500, lambda n: loaded("ron", saved("ron", n, 1))),
    ("a row of n escapes is loaded from JSON", 1000,
     lambda n: loaded("json", [at(0), does("put", "name=" + "\\" * n + KEPT[6:]), does("save_json")])),
    ("a row of n escapes is loaded from RON", 1000,
     lambda n: loaded("ron", [at(0), does("put", "name=" + "\\" * n + KEPT[6:]), does("save_ron")])),
    ("n rows are saved as lines of JSON", 500, lambda n: [*saved("lines", n), counts("save_lines")]),
    ("n rows are loaded from lines of JSON", 500, lambda n: loaded("lines", saved("lines", n))),
    ("n lines of cookies.txt are read", 500, lambda n: [counts("import", txt(n))]),
    ("a client receives a line beside n rows", 1000, lambda n: [*beside(n), counts("receive", LINE)]),
    ("the same behind the rules of browsers", 1000, lambda n: [*beside(n, True), counts("receive", LINE)]),
    ("a client receives a line from a URL's text", 1000,
     lambda n: [*client(), *filled("receive", n), counts("visit", URL), counts("receive", LINE)]),
    ("a line with an Expires behind the rules", 0, lambda n: got(f"{LINE[:37]}; Expires={DATE}")),
    ("a line with a strict Expires behind the rules", 0,
     lambda n: got(f"{LINE[:37]}; Expires=Mon, 01 Jan 2024 00:00:00 GMT")),
    ("n lines over http behind the rules, beside n Secure rows", 200,
     lambda n: [*client(lines("s", "=1; Path=/; Secure", n), url="https://www.shop.com/", rules=True),
                does("visit", "http://www.shop.com/"), counts("receive", lines("a", "=1; Path=/p", n))]),
    ("a line over http behind the rules, beside n Secure rows", 1000,
     lambda n: [*client(lines("s", "=1; Path=/; Secure", n), url="https://www.shop.com/", rules=True),
                does("visit", "http://www.stranger.com/"), counts("receive", "a=1; Path=/p")]),
    ("n lines over http of one name, beside n rows of it", 200,
     lambda n: [*client(lines("a=1; Secure; Path=/s", "", n), url="https://www.shop.com/", rules=True),
                does("visit", "http://www.shop.com/"), counts("receive", lines("a=1; Path=/p", "", n))]),
    ("a name of n bytes behind the rules", 500, lambda n: got("a" * n + "=1")),
    ("an escaped name of n characters behind the rules", 150, lambda n: got("%41" * n + "=1")),
    ("a value of n bytes behind the rules", 500, lambda n: got("a=" + "1" * n)),
    ("a line of n paths behind the rules", 500, lambda n: got("a=1" + "; Path=/p" * n)),
    ("a line of n domains behind the rules", 500, lambda n: got("a=1" + "; Domain=shop.com" * n)),
    ("a line of n ages behind the rules", 500, lambda n: got("a=1" + "; Max-Age=99999999" * n)),
    ("a line of n dates behind the rules", 100, lambda n: got("a=1" + f"; Expires={DATE}" * n)),
    ("a date of n parts behind the rules", 60, lambda n: got("a=1; Expires=" + "1-" * n + DATE)),
    ("a line of n blanks behind the rules", 1000, lambda n: got("a=1;" + " " * n + "Path=/p")),
    ("a line of a path of n slashes", 1000, lambda n: got("a=1; Path=" + "/p" * n, rules=False)),
    ("a line of a domain of n labels", 1000,
     lambda n: got(f"a=1; Domain={'a.' * n}shop.com", f"https://{'a.' * n}shop.com/", False)),
    ("a line from a path of n slashes behind the rules", 1000, lambda n: got("a=1", "https://shop.com/" + "p/" * n)),
    ("n lines of new names behind the rules", 500, lambda n: got(lines("name", KEPT, n))),
    ("n lines of new paths behind the rules", 500, lambda n: got(lines("name=value; Path=/p", "", n))),
    ("n lines that are expired behind the rules", 500, lambda n: got(lines("name", "=value; Path=/; Max-Age=0", n))),
    ("n lines that take the place of n rows behind the rules", 500,
     lambda n: [*client(lines("name", KEPT, n), rules=True),
                counts("receive", lines("name", "=other; Path=/; Max-Age=2592000", n))]),
    ("the header of 4 cookies among n", 1000,
     lambda n: [*client(), *filled("receive", n), at(n // 10), counts("header")]),
    ("the header of n cookies", 1000,
     lambda n: [*client("\n".join(f"name{i}=value; Path={DEEP[:2 + i * APART % 40 * 2]}" for i in range(n)),
                        url=f"https://shop.com{DEEP}/"), counts("header")]),
    ("the header for a host of n labels", 1000,
     lambda n: [*client("a=1; Domain=shop.com", url=f"https://{'a.' * n}shop.com/"), counts("header")]),
    ("the header for a path of n slashes", 1000,
     lambda n: [*client("a=1; Path=/", url="https://shop.com/" + "p/" * n), counts("header")]),
    ("a session opens on 4 pairs", 0, lambda n: [counts("open_session", HEADER)]),
    ("it gets a sealed value", 0,
     lambda n: [does("open_session", HEADER), does("set", "user", VALUE), counts("get", "user")]),
    ("it sets a sealed cookie", 0, lambda n: [does("open_session", HEADER), counts("set", "user", VALUE)]),
    ("it closes with a line", 0,
     lambda n: [does("open_session", HEADER), does("set", "user", VALUE), counts("close")]),
    ("a whole exchange, of two values of n bytes", 128,
     lambda n: [does("send_both", "v" * n), counts("exchange", "v" * n)]),
    ("a session opens on n pairs", 1000, lambda n: [counts("open_session", pairs(n))]),
    ("it gets one of n", 1000, lambda n: [does("open_session", pairs(n)), counts("get_plain", "name7")]),
    ("it sets one beside n", 1000, lambda n: [*session(n), counts("set_plain", "new", "value")]),
    ("it closes with n lines", 1000, lambda n: [*session(n), counts("close")]),
    ("a handle receives a line beside n rows", 1000, lambda n: handle(n, counts("handle_receive", URL, LINE))),
    ("a handle receives a line of the URL before", 1000,
     lambda n: handle(n, does("handle_receive", URL, "other=1"), counts("handle_receive", URL, LINE))),
    ("a handle's header of 4 cookies among n", 1000, lambda n: handle(n, counts("handle_header", HERE))),
    ("a handle takes n rows of a cookies.txt", 500, lambda n: handle(0, counts("handle_import", txt(n)))),
    ("a handle takes a row of a cookies.txt beside n", 500, lambda n: handle(n, counts("handle_import", txt(1)))),
    ("a handle writes n rows as a cookies.txt", 500, lambda n: handle(n, counts("handle_export"))),
    ("kept for each of n cookies, five to a host", 1000, lambda n: kept(client(), filled("receive", n))),
    ("kept for each of n cookies, one to a host", 1000, lambda n: kept(client(), filled("receive", n, 1))),
    ("kept for each of n cookies of one path", 1000,
     lambda n: kept(client(), [does("receive", lines("name", KEPT, n))])),
    ("kept for each of a client's n rules", 1000, lambda n: kept([], [does("begin_client", rules(n))])),
    ("kept for each of n clients of one list", 1000,
     lambda n: kept([does("list", rules(1000))], [does("add_client")] * n)),
)

# ---- the questions of an index

INDEX = "c.com /x one\nc.com /z other\na.b.c.com /x/ two\na.b.c.com /x/y three\nd.org / name"
# For a row's place, and for a request: what is asked, and how many texts there are to ask for. A request asks for its
# domains (RFC 6265, section 5.1.3), and where rows have one, for its paths there (section 5.1.4).
QUESTIONS = (
    (("place", "c.com /x one"), 3), (("place", "c.com /x none"), 3), (("place", "c.com /none one"), 2),
    (("place", "none /x one"), 1), (("find", "a.b.c.com", "/x/y"), 4 + 2 * 5), (("find", "none.net", "/a//b/c"), 2),
)

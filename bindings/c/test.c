/* Tests the library from C. The program refuses the growth of memory that REFUSE names, counted from 1; with no such
   word each growth is granted. It prints how many calls it made, or what went wrong. */
#include "fonnalich.h"
#include <stdio.h>
#include <stdlib.h>
#include <string.h>

/* ---- growths */

static long growths, refused_at;

void *__real_malloc(size_t size);
void *__real_realloc(void *old, size_t size);

void *__wrap_malloc(size_t size) {
    return ++growths == refused_at ? NULL : __real_malloc(size);
}

void *__wrap_realloc(void *old, size_t size) {
    return ++growths == refused_at ? NULL : __real_realloc(old, size);
}

/* ---- a library with larger handles */

static size_t more;

size_t __real_fonnalich_size(void);

size_t __wrap_fonnalich_size(void) {
    return __real_fonnalich_size() + more;
}

/* ---- what is asked */

#define T(text) (text), strlen(text)

static long calls;
static int failures;

static void ask(int holds, const char *what) {
    if (!holds) {
        failures++;
        printf("not so (growth %ld refused): %s\n", refused_at, what);
    }
}

static int is(const char *out, ptrdiff_t length, const char *text) {
    calls++;
    return length == (ptrdiff_t)strlen(text) && memcmp(out, text, strlen(text)) == 0;
}

static int gives(ptrdiff_t number, ptrdiff_t wanted) {
    calls++;
    return number == wanted;
}

static const char *LIST = "com\norg\n*.ck\n";
/* The lines of RFC 6265, section 3.1. */
static const char *URL = "https://example.com/";
static const char *SID = "SID=31d4d96e407aad42; Path=/; Secure; HttpOnly";
static const char *BOTH = "SID=31d4d96e407aad42; Path=/; Secure; HttpOnly\nlang=en-US; Path=/; Domain=example.com";
static const char *HEADER = "SID=31d4d96e407aad42; lang=en-US";
static const int64_t NOW = 1700000000;

/* ---- refusals */

static void tells_refusals(void) {
    char out[256];
    fonnalich at;
    fonnalich_begin(&at);
    ask(gives(fonnalich_rules(&at, FONNALICH_NO_RULES), 0), "no rules before a client");
    ask(gives(fonnalich_header(&at, NOW, T(URL), out, sizeof out), FONNALICH_NO_CLIENT), "no client");
    ask(gives(fonnalich_list(&at, "a..b\n", 5), FONNALICH_LIST), "no list");
    ask(gives(fonnalich_act(&at, 28, NOW, "", 0, "", 0, out, sizeof out), FONNALICH_WORD), "no word");
    ask(gives(fonnalich_list(&at, T(LIST)), 0), "a list");
    ask(gives(fonnalich_header(&at, NOW, T("no url"), out, sizeof out), FONNALICH_URL), "no URL");
    ask(gives(fonnalich_header(&at, NOW, "\xff", 1, out, sizeof out), FONNALICH_URL), "no text");
    ask(gives(fonnalich_header(&at, INT64_MAX, T(URL), out, sizeof out), FONNALICH_MOMENT), "no moment");
    ask(gives(fonnalich_load(&at, NOW, T("[("), T(LIST)), FONNALICH_SAVED), "no saved text");
    /* the lines of a suffix, of another host, and of none */
    const char *lines = "a=1; Domain=com\nb=2; Domain=example.org\nc\n\xff=4\n__Host-e=5\nf=6; Max-Age=0\ng=7";
    const char ends[] = {FONNALICH_PUBLIC_SUFFIX, FONNALICH_DOMAIN_MISMATCH, FONNALICH_PARSE, FONNALICH_NOT_TEXT,
                         FONNALICH_HOST_PREFIX, FONNALICH_EXPIRED, FONNALICH_INSERTED};
    ptrdiff_t count = fonnalich_receive(&at, NOW, T(URL), T(lines), out, sizeof out);
    ask(gives(count, sizeof ends) && memcmp(out, ends, sizeof ends) == 0, "an outcome for each line");
    ask(is(out, fonnalich_header(&at, NOW, T(URL), out, sizeof out), "g=7"), "one line was kept");
    ask(gives(fonnalich_receive(&at, NOW, T(URL), T(""), out, sizeof out), 0), "one empty line is none");
    ask(gives(fonnalich_receive(&at, NOW, T(URL), T("\n"), out, sizeof out), 2), "two are two");
    fonnalich_free(&at);
}

/* Of two causes or more the one is told whose number is nearest to 0. */
static void tells_the_first_cause(void) {
    static const char *none = "no url", *no_list = "a..b", *no_client = "[(";
    /* the last second of the year -1, where the year 0 begins at -62167219200 */
    static const int64_t below = -62167219201;
    char out[256];
    fonnalich at;
    fonnalich_begin(&at);
    ask(gives(fonnalich_act(&at, 28, INT64_MAX, T(none), "", 0, out, 0), FONNALICH_WORD), "word, client, second, URL");
    ask(gives(fonnalich_header(&at, INT64_MAX, T(none), out, sizeof out), FONNALICH_NO_CLIENT), "client, second, URL");
    ask(gives(fonnalich_save(&at, INT64_MAX, out, sizeof out), FONNALICH_NO_CLIENT), "client, second");
    ask(gives(fonnalich_load(&at, INT64_MAX, T(no_client), T(no_list)), FONNALICH_LIST), "list, second, saved text");
    ask(gives(fonnalich_load(&at, INT64_MAX, T("[]"), T(no_list)), FONNALICH_LIST), "list, second");
    ask(gives(fonnalich_load(&at, NOW, T(no_client), T(no_list)), FONNALICH_LIST), "list, saved text");
    ask(gives(fonnalich_load(&at, INT64_MIN, T(no_client), T(LIST)), FONNALICH_MOMENT), "second, saved text");
    fonnalich_list(&at, T(LIST));
    ask(gives(fonnalich_header(&at, INT64_MAX, T(none), out, sizeof out), FONNALICH_MOMENT), "second, URL");
    ask(gives(fonnalich_receive(&at, INT64_MIN, T(none), T("a=1"), out, sizeof out), FONNALICH_MOMENT), "the same");
    fonnalich_receive(&at, below - 60, T(URL), T("a=1; Max-Age=60"), out, sizeof out);
    ask(gives(fonnalich_save(&at, below - 60, out, sizeof out), FONNALICH_YEAR), "a year below 0");
    ask(gives(fonnalich_restart(&at, below - 60), FONNALICH_YEAR), "the same");
    ask(gives(fonnalich_save(&at, INT64_MIN, out, sizeof out), FONNALICH_MOMENT), "second, year");
    ask(gives(fonnalich_restart(&at, INT64_MIN), FONNALICH_MOMENT), "the same");
    fonnalich_free(&at);
    ask(gives(fonnalich_suffix(T(no_list), T("a..com"), out, sizeof out), FONNALICH_LIST), "list, host");
}

/* ---- rules */

/* A line that each rule is against, by the sections 4.1.3 and 5.5 to 5.7 of the draft that follows RFC 6265. */
static void keeps_rules(void) {
    static const char *HTTP = "http://example.com/";
    char out[256], lines[8192];
    fonnalich at;
    fonnalich_begin(&at);
    ask(gives(fonnalich_rules(&at, 2 * FONNALICH_RULE_NONE_NEEDS_SECURE), FONNALICH_RULES), "no flags");
    ask(gives(fonnalich_rules(&at, -1), FONNALICH_RULES), "nor below 0");
    ask(gives(fonnalich_list(&at, T(LIST)), 0), "a list");
    snprintf(lines, sizeof lines, "a=\x01\nlong=%04093d\n__secure-a=1\n__HOST-a=1; Secure; Path=/x\n"
             "sid=1; Secure; Path=/", 0);
    const char refused[] = {FONNALICH_BY_CONTROL, FONNALICH_BY_TOO_LONG, FONNALICH_BY_SECURE_PREFIX,
                            FONNALICH_BY_HOST_PREFIX, FONNALICH_INSERTED};
    ptrdiff_t count = fonnalich_receive(&at, NOW, T(URL), T(lines), out, sizeof out);
    ask(gives(count, sizeof refused) && memcmp(out, refused, sizeof refused) == 0, "four rules refuse");
    count = fonnalich_receive(&at, NOW, T(HTTP), T("b=2; Secure\nsid=3\nc=4"), out, sizeof out);
    const char insecure[] = {FONNALICH_BY_SECURE_FROM_HTTP, FONNALICH_BY_SECURE_OVERLAY, FONNALICH_INSERTED};
    ask(gives(count, sizeof insecure) && memcmp(out, insecure, sizeof insecure) == 0, "and two more");
    ask(is(out, fonnalich_header(&at, NOW, T(URL), out, sizeof out), "sid=1; c=4"), "two lines were kept");
    /* a date of Netscape's form, a life of two years, and a path of 1,025 bytes */
    snprintf(lines, sizeof lines, "sid=; Path=/; Secure; Expires=Thu, 1-Jan-70 0:00:00 UTC\nd=5; Max-Age=63072000\n"
             "e=6; Path=/%01024d", 0);
    count = fonnalich_receive(&at, NOW, T(URL), T(lines), out, sizeof out);
    ask(gives(count, 3) && out[0] == FONNALICH_EXPIRED_EXISTING, "a date ends a cookie");
    ask(is(out, fonnalich_header(&at, NOW, T(URL), out, sizeof out), "c=4; d=5; e=6"), "a long path is passed over");
    count = fonnalich_header(&at, NOW + 34560000, T(URL), out, sizeof out);
    ask(is(out, count, "c=4; e=6"), "400 days end a life");
    ask(gives(fonnalich_rules(&at, FONNALICH_NO_RULES), 0), "no rules");
    ask(gives(fonnalich_list(&at, T(LIST)), 0), "they stay behind a list");
    count = fonnalich_receive(&at, NOW, T(HTTP), T("b=2; Secure"), out, sizeof out);
    ask(gives(count, 1) && out[0] == FONNALICH_INSERTED, "none refuses");
    fonnalich_free(&at);
}

/* A neighbour sets its cookie over http first, the name escaped; then the site sets its own. */
static void lets_secure_cookies_win(void) {
    static const char *EVIL = "http://evil.example.com/", *PLAIN = "http://www.example.com/";
    static const char *SITE = "https://www.example.com/";
    static const char *headers[] = {"s%69d=0; b=2; sid=1", "b=2; sid=1"};
    static const char ends[] = {FONNALICH_INSERTED, FONNALICH_BY_LACKS_SECURE};
    char out[256];
    for (int wins = 0; wins < 2; wins++) {
        fonnalich at;
        fonnalich_begin(&at);
        fonnalich_list(&at, T(LIST));
        fonnalich_rules(&at, FONNALICH_BROWSER + (wins ? FONNALICH_RULE_SECURE_WINS : 0));
        ptrdiff_t count = fonnalich_receive(&at, NOW, T(EVIL), T("s%69d=0; Domain=example.com; Path=/\n"
                                            "b=2; Domain=example.com; Path=/"), out, sizeof out);
        ask(gives(count, 2) && out[0] == FONNALICH_INSERTED && out[1] == FONNALICH_INSERTED, "two are planted");
        count = fonnalich_receive(&at, NOW, T(SITE), T("sid=1; Secure; Path=/"), out, sizeof out);
        ask(gives(count, 1) && out[0] == FONNALICH_INSERTED, "the site's own");
        ask(is(out, fonnalich_header(&at, NOW, T(SITE), out, sizeof out), headers[wins]), "a header to the site");
        ask(is(out, fonnalich_header(&at, NOW, T(PLAIN), out, sizeof out), "s%69d=0; b=2"), "and over http");
        count = fonnalich_receive(&at, NOW, T(EVIL), T("c=3; SameSite=None"), out, sizeof out);
        ask(gives(count, 1) && out[0] == ends[wins], "a line that asks for Secure");
        fonnalich_free(&at);
    }
}

/* Of the flags each is the one that refuses its line. */
static void tells_rules_apart(void) {
    static const char *lines[] = {"a=\x01", NULL, "__Secure-a=1", "__HOST-a=1", "b=2; Secure", "sid=3"};
    char out[16], long_line[8192];
    snprintf(long_line, sizeof long_line, "long=%04093d", 0);
    lines[1] = long_line;
    for (int rule = 0; rule < 6; rule++) {
        const char *url = rule < 4 ? URL : "http://example.com/";
        for (int line = 0; line < 6; line++) {
            fonnalich at;
            fonnalich_begin(&at);
            fonnalich_list(&at, T(LIST));
            fonnalich_receive(&at, NOW, T(URL), T("sid=1; Secure"), out, sizeof out);
            ask(gives(fonnalich_rules(&at, 1 << rule), 0), "a rule");
            ask(gives(fonnalich_receive(&at, NOW, T(url), T(lines[line]), out, sizeof out), 1), "a line");
            if ((line < 4) == (rule < 4))
                ask((out[0] == FONNALICH_BY_CONTROL + rule) == (line == rule), lines[line]);
            fonnalich_free(&at);
        }
    }
}

/* The URL that was asked for last is kept parsed: another one, or none, in its place. */
static void goes_from_page_to_page(void) {
    char out[256];
    fonnalich at;
    fonnalich_begin(&at);
    fonnalich_list(&at, T(LIST));
    for (int i = 0; i < 2; i++) {
        fonnalich_receive(&at, NOW, T("https://example.com/a/b"), T("a=1"), out, sizeof out);
        fonnalich_receive(&at, NOW, T("https://example.org/a/b"), T("b=2"), out, sizeof out);
        ask(is(out, fonnalich_header(&at, NOW, T("https://example.org/a/b"), out, sizeof out), "b=2"), "the last page");
        ask(gives(fonnalich_header(&at, NOW, T("https://example.org/c"), out, sizeof out), 0), "another path");
        ask(gives(fonnalich_header(&at, NOW, T("no url"), out, sizeof out), FONNALICH_URL), "no URL");
        ask(gives(fonnalich_header(&at, NOW, T("http://example.org/"), out, sizeof out), 0), "one that begins another");
        ask(is(out, fonnalich_header(&at, NOW, T("https://example.com/a/b"), out, sizeof out), "a=1"), "the first");
    }
    fonnalich_free(&at);
}

/* ---- an answer that doesn't fit */

static void keeps_an_answer(void) {
    char out[256];
    fonnalich at;
    fonnalich_begin(&at);
    fonnalich_list(&at, T(LIST));
    memset(out, '#', sizeof out);
    ask(gives(fonnalich_receive(&at, NOW, T(URL), T(BOTH), out, 1), 2), "two outcomes, no room");
    ask(out[0] == '#', "nothing is written");
    ask(gives(fonnalich_answer(&at, out, 2), 2) && out[0] == FONNALICH_INSERTED, "they are handed out");
    ask(out[1] == FONNALICH_INSERTED && out[2] == '#', "both, and no more");
    ask(gives(fonnalich_answer(&at, out, sizeof out), 0), "and not twice");
    ask(gives(fonnalich_header(&at, NOW, T(URL), out, 3), strlen(HEADER)), "no room for the header");
    ask(gives(fonnalich_answer(&at, out, 3), strlen(HEADER)), "it is kept");
    ask(gives(fonnalich_header(&at, NOW, T("no url"), out, 3), FONNALICH_URL), "a refusal");
    ask(is(out, fonnalich_answer(&at, out, sizeof out), HEADER), "it is still kept");
    /* whatever isn't refused drops it, without an answer of its own too */
    for (int i = 0; i < 5; i++) {
        fonnalich_list(&at, T(LIST));
        fonnalich_receive(&at, NOW, T(URL), T("a=1; Max-Age=60"), out, sizeof out);
        ask(gives(fonnalich_header(&at, NOW, T(URL), out, 2), 3), "no room");
        ptrdiff_t number = i == 0   ? fonnalich_rules(&at, FONNALICH_NO_RULES)
                           : i == 1 ? fonnalich_restart(&at, NOW)
                           : i == 2 ? fonnalich_list(&at, T(LIST))
                           : i == 3 ? fonnalich_load(&at, NOW, T("[]"), T(LIST))
                                    : fonnalich_header(&at, NOW, T("http://example.org/"), out, sizeof out);
        ask(gives(number, 0) && gives(fonnalich_answer(&at, out, sizeof out), 0), "it is dropped");
        ask(gives(fonnalich_receive(&at, NOW, T(URL), T("a=1\nb=2"), out, 1), 2), "no room again");
        ask(gives(fonnalich_load(&at, NOW, T("[("), T(LIST)), FONNALICH_SAVED), "a refusal");
        ask(gives(fonnalich_answer(&at, out, sizeof out), 2), "keeps it");
    }
    fonnalich_free(&at);
}

/* A line by itself goes another way where there is room for what became of it. */
static void keeps_the_answer_of_a_line(void) {
    char out[256];
    fonnalich at;
    fonnalich_begin(&at);
    fonnalich_rules(&at, FONNALICH_NO_RULES);
    memset(out, '#', sizeof out);
    ask(gives(fonnalich_receive(&at, NOW, T(URL), T("a=1"), out, sizeof out), FONNALICH_NO_CLIENT), "no client");
    fonnalich_list(&at, T(LIST));
    ask(gives(fonnalich_receive(&at, NOW, T(URL), T("a=1"), out, 0), 1) && out[0] == '#', "no room for one");
    ask(gives(fonnalich_receive(&at, NOW, T("no url"), T("a=2"), out, 1), FONNALICH_URL), "a refusal");
    ask(gives(fonnalich_receive(&at, INT64_MAX, T(URL), T("a=2"), out, 1), FONNALICH_MOMENT), "another");
    ask(gives(fonnalich_answer(&at, out, 0), 1) && out[0] == '#', "it is still kept");
    ask(gives(fonnalich_receive(&at, NOW, T(URL), T("a=2"), out, 1), 1), "the next line has room");
    ask(out[0] == FONNALICH_UPDATED_EXISTING && out[1] == '#', "what became of it, and no more");
    ask(gives(fonnalich_answer(&at, out, sizeof out), 0), "what was kept is dropped");
    ask(is(out, fonnalich_header(&at, NOW, T(URL), out, sizeof out), "a=2"), "both lines came");
    fonnalich_free(&at);
}

/* ---- saved and loaded */

static ptrdiff_t header_for(fonnalich *at, uint32_t started, const char *page, char *out, size_t room) {
    return fonnalich_header_for(at, NOW, T(URL), started, T(page), out, room);
}

static ptrdiff_t receive_for(fonnalich *at, uint32_t started, const char *page, const char *lines, char *out,
                             size_t room) {
    return fonnalich_receive_for(at, started, NOW, T(URL), T(page), T(lines), out, room);
}

/* The rows of section 5.8.3, step 1, of the draft that follows RFC 6265, and of its section 5.2 on sites. */
static void tells_what_starts_a_request(void) {
    static const char *LINES = "s=1; SameSite=Strict\nl=2; SameSite=Lax\nn=3; SameSite=None; Secure\nd=4";
    static const char *ALL = "s=1; l=2; n=3; d=4";
    static const struct {
        int64_t rules;
        uint32_t started;
        const char *page, *header;
    } rows[] = {
        {0, FONNALICH_BY_USER, "no url", "s=1; l=2; n=3; d=4"},
        {0, FONNALICH_BY_PAGE, "https://a.www.example.com:8080/x", "s=1; l=2; n=3; d=4"},
        {0, FONNALICH_BY_PAGE, "https://evil.org/", "n=3; d=4"},
        {0, FONNALICH_BY_NAVIGATION, "https://evil.org/", "l=2; n=3; d=4"},
        {0, FONNALICH_BY_PAGE, "http://example.com/", "n=3; d=4"},
        {0, FONNALICH_BY_PAGE, "https://example.org/", "n=3; d=4"},
        {0, FONNALICH_BY_NAVIGATION, "data:,", "l=2; n=3; d=4"},
        {FONNALICH_BROWSER, FONNALICH_BY_PAGE, "https://evil.org/", "n=3; d=4"},
        {FONNALICH_RULE_LAX_BY_DEFAULT, FONNALICH_BY_PAGE, "https://evil.org/", "n=3"},
        {FONNALICH_RULE_LAX_BY_DEFAULT, FONNALICH_BY_NAVIGATION, "https://evil.org/", "l=2; n=3; d=4"},
        {FONNALICH_RULE_LAX_BY_DEFAULT, FONNALICH_BY_PAGE, "https://www.example.com/", "s=1; l=2; n=3; d=4"},
    };
    char out[256];
    fonnalich at;
    fonnalich_begin(&at);
    ask(gives(header_for(&at, FONNALICH_BY_PAGE, "no url", out, sizeof out), FONNALICH_NO_CLIENT), "no client");
    fonnalich_list(&at, T(LIST));
    ask(gives(fonnalich_receive(&at, NOW, T(URL), T(LINES), out, sizeof out), 4), "four lines");
    for (size_t i = 0; i < sizeof rows / sizeof rows[0]; i++) {
        fonnalich_rules(&at, rows[i].rules);
        ptrdiff_t length = header_for(&at, rows[i].started, rows[i].page, out, sizeof out);
        ask(is(out, length, rows[i].header), rows[i].page);
    }
    ask(gives(header_for(&at, FONNALICH_BY_PAGE, "no url", out, sizeof out), FONNALICH_URL), "no page");
    ask(gives(header_for(&at, FONNALICH_BY_NAVIGATION, "", out, sizeof out), FONNALICH_URL), "nor an empty one");
    ask(gives(header_for(&at, 3, "https://evil.org/", out, sizeof out), FONNALICH_WORD), "started by none");
    ptrdiff_t length = fonnalich_header_for(&at, NOW, T("no url"), FONNALICH_BY_PAGE, T(URL), out, sizeof out);
    ask(gives(length, FONNALICH_URL), "no URL");
    length = fonnalich_header_for(&at, INT64_MAX, T("no url"), FONNALICH_BY_PAGE, T("no url"), out, sizeof out);
    ask(gives(length, FONNALICH_MOMENT), "second, URL, page");
    ask(gives(header_for(&at, FONNALICH_BY_PAGE, "https://www.example.com/", out, 3), strlen(ALL)), "no room");
    ask(is(out, fonnalich_answer(&at, out, sizeof out), ALL), "it is handed out");
    fonnalich_free(&at);
}

/* Lines of each kind of SameSite, and what became of each: section 5.7 of that draft. */
static void tells_what_started_an_answers_request(void) {
    static const char *LINES = "s=1; SameSite=Strict\nl=2; SameSite=Lax\nn=3; SameSite=None\nd=4";
    enum { IN = FONNALICH_INSERTED, SITE = FONNALICH_BY_CROSS_SITE, NONE = FONNALICH_BY_NONE_LACKS_SECURE };
    static const struct {
        int64_t rules;
        uint32_t started;
        const char *page;
        char ends[4];
    } rows[] = {
        {0, FONNALICH_BY_USER, "no url", {IN, IN, IN, IN}},
        {0, FONNALICH_BY_PAGE, "https://a.www.example.com:8080/x", {IN, IN, IN, IN}},
        {0, FONNALICH_BY_PAGE, "https://evil.org/", {SITE, SITE, IN, IN}},
        {0, FONNALICH_BY_NAVIGATION, "https://evil.org/", {IN, IN, IN, IN}},
        {0, FONNALICH_BY_PAGE, "http://example.com/", {SITE, SITE, IN, IN}},
        {FONNALICH_BROWSER, FONNALICH_BY_PAGE, "data:,", {SITE, SITE, IN, IN}},
        {FONNALICH_RULE_LAX_BY_DEFAULT, FONNALICH_BY_PAGE, "https://evil.org/", {SITE, SITE, IN, SITE}},
        {FONNALICH_RULE_LAX_BY_DEFAULT, FONNALICH_BY_USER, "https://evil.org/", {IN, IN, IN, IN}},
        {FONNALICH_RULE_NONE_NEEDS_SECURE, FONNALICH_BY_PAGE, "https://evil.org/", {SITE, SITE, NONE, IN}},
        {FONNALICH_RULE_NONE_NEEDS_SECURE, FONNALICH_BY_NAVIGATION, "https://evil.org/", {IN, IN, NONE, IN}},
        {FONNALICH_RULE_NONE_NEEDS_SECURE, FONNALICH_BY_USER, "", {IN, IN, NONE, IN}},
    };
    char out[256];
    fonnalich at;
    fonnalich_begin(&at);
    ask(gives(receive_for(&at, FONNALICH_BY_PAGE, "no url", LINES, out, sizeof out), FONNALICH_NO_CLIENT), "no client");
    for (size_t i = 0; i < sizeof rows / sizeof rows[0]; i++) {
        fonnalich_list(&at, T(LIST));
        fonnalich_rules(&at, rows[i].rules);
        ptrdiff_t count = receive_for(&at, rows[i].started, rows[i].page, LINES, out, sizeof out);
        ask(gives(count, 4) && memcmp(out, rows[i].ends, 4) == 0, rows[i].page);
    }
    fonnalich_list(&at, T(LIST));
    fonnalich_rules(&at, FONNALICH_RULE_NONE_NEEDS_SECURE);
    ask(gives(fonnalich_receive(&at, NOW, T(URL), T("n=3; SameSite=None"), out, sizeof out), 1) && out[0] == NONE,
        "a line by itself, for the user");
    fonnalich_rules(&at, FONNALICH_NO_RULES);
    ask(gives(receive_for(&at, FONNALICH_BY_USER, "", LINES, out, sizeof out), 4), "four lines");
    ask(gives(receive_for(&at, FONNALICH_BY_PAGE, "https://evil.org/", "s=9; SameSite=Strict", out, sizeof out), 1),
        "another site's answer");
    ask(is(out, fonnalich_header(&at, NOW, T(URL), out, sizeof out), "s=1; l=2; n=3; d=4"), "what was there stays");
    ask(gives(receive_for(&at, FONNALICH_BY_USER, "", "", out, sizeof out), 0), "no line");
    ask(gives(receive_for(&at, FONNALICH_BY_PAGE, "no url", LINES, out, sizeof out), FONNALICH_URL), "no page");
    ask(gives(receive_for(&at, FONNALICH_BY_NAVIGATION, "", LINES, out, sizeof out), FONNALICH_URL), "nor an empty");
    ask(gives(receive_for(&at, 3, "https://evil.org/", LINES, out, sizeof out), FONNALICH_WORD), "started by none");
    ptrdiff_t number = fonnalich_receive_for(&at, FONNALICH_BY_USER, NOW, T("no url"), T(""), T("a=1"), out, 9);
    ask(gives(number, FONNALICH_URL), "no URL");
    number = fonnalich_receive_for(&at, FONNALICH_BY_PAGE, INT64_MAX, T("no url"), T("no url"), T(""), out, sizeof out);
    ask(gives(number, FONNALICH_MOMENT), "second, URL, page");
    ask(gives(receive_for(&at, FONNALICH_BY_PAGE, "https://evil.org/\nx=1", "n=4", out, 0), 1), "no room");
    ask(gives(fonnalich_answer(&at, out, sizeof out), 1) && out[0] == FONNALICH_UPDATED_EXISTING, "it is handed out");
    fonnalich_free(&at);
}

/* ---- a list that clients share */

static void refuses_a_list_without_a_rule(void) {
    static const char *none[] = {"", "// com\n", "\n\n", "\xef\xbb\xbf", " com\n"};
    char out[256];
    fonnalich at;
    fonnalich_begin(&at);
    for (size_t i = 0; i < sizeof none / sizeof none[0]; i++) {
        ask(gives(fonnalich_list(&at, T(none[i])), FONNALICH_NO_RULE), none[i]);
        ask(gives(fonnalich_load(&at, INT64_MAX, T("[("), T(none[i])), FONNALICH_NO_RULE), "list, second, saved text");
        ask(gives(fonnalich_keep_list(&at, T(none[i])), FONNALICH_NO_RULE), "none is kept");
        ask(gives(fonnalich_suffix(T(none[i]), T("a..b"), out, sizeof out), FONNALICH_NO_RULE), "list, host");
        ask(gives(fonnalich_shard(T(none[i]), T(""), out, sizeof out), FONNALICH_NO_RULE), "list, host");
        ask(gives(fonnalich_shard_of_url(T(none[i]), T("a"), out, sizeof out), FONNALICH_NO_RULE), "list, URL");
    }
    static const char *names[] = {"suffixes.dat", "public-list.txt", "x.dat", ".dat", "SUFFIXES.DAT", "List.Txt",
                                  "x.dat\n", " \r\nx.dat \t", "\xd1\x80\xd1\x84.dat", "suffixes (1).dat",
                                  "My Lists/public_suffix_list.dat\n", "a\tb.txt"};
    for (size_t i = 0; i < sizeof names / sizeof names[0]; i++) {
        ask(gives(fonnalich_list(&at, T(names[i])), FONNALICH_NO_RULE), names[i]);
        ask(gives(fonnalich_load(&at, NOW, T("[]"), T(names[i])), FONNALICH_NO_RULE), names[i]);
        ask(gives(fonnalich_keep_list(&at, T(names[i])), FONNALICH_NO_RULE), names[i]);
        ask(fonnalich_names_file(T(names[i])) == 1, names[i]);
    }
    ask(gives(fonnalich_list(&at, T("examples/suffixes.dat")), FONNALICH_LIST), "a path");
    ask(gives(fonnalich_list(&at, T("public_suffixes.dat")), FONNALICH_LIST), "a path with another character");
    ask(gives(fonnalich_count(&at, NOW), FONNALICH_NO_CLIENT), "no client was made");
    static const char *rules[] = {"dat", "x.dat\ncom", "txt\nx.dat", "xdat", "com x\nx.dat", "x.dat com"};
    for (size_t i = 0; i < sizeof rules / sizeof rules[0]; i++)
        ask(gives(fonnalich_list(&at, T(rules[i])), 0), rules[i]);
    fonnalich_free(&at);
}

static void shares_a_list(void) {
    char out[256], saved[2048];
    fonnalich list, at, other, third;
    fonnalich_begin(&list);
    fonnalich_begin(&at);
    fonnalich_begin(&other);
    fonnalich_begin(&third);
    ask(gives(fonnalich_client(&at, &list), FONNALICH_NO_LIST), "it keeps none yet");
    ask(gives(fonnalich_client(&at, &at), FONNALICH_NO_LIST), "by its own");
    ask(gives(fonnalich_load_by(&at, &at, INT64_MAX, T("[(")), FONNALICH_NO_LIST), "list, second, saved text");
    ask(gives(fonnalich_suffix_by(&list, T("a..b"), out, sizeof out), FONNALICH_NO_LIST), "list, host");
    ask(gives(fonnalich_keep_list(&list, T("a..b")), FONNALICH_LIST), "no list");
    ask(gives(fonnalich_keep_list(&list, T(LIST)), 0), "a list");
    ask(gives(fonnalich_header(&list, NOW, T(URL), out, sizeof out), FONNALICH_NO_CLIENT), "which is no client");
    ask(gives(fonnalich_client(&at, &list), 0) && gives(fonnalich_client(&other, &list), 0), "two clients");
    ask(gives(fonnalich_client(&list, &list), 0), "a third by its own list");
    ask(gives(fonnalich_receive(&list, NOW, T(URL), T("a=1; Domain=com"), out, sizeof out), 1), "it takes lines");
    ask(out[0] == FONNALICH_PUBLIC_SUFFIX, "by the list's rules");
    fonnalich_free(&list);
    ptrdiff_t count = fonnalich_receive(&at, NOW, T(URL), T("a=1; Domain=com\nb=2; Max-Age=60"), out, sizeof out);
    ask(gives(count, 2) && out[0] == FONNALICH_PUBLIC_SUFFIX && out[1] == FONNALICH_INSERTED, "by the list's rules");
    ask(is(out, fonnalich_header(&other, NOW, T(URL), out, sizeof out), ""), "the other has no cookie of it");
    ptrdiff_t length = fonnalich_save(&at, NOW, saved, sizeof saved);
    ask(gives(fonnalich_load_by(&other, &at, NOW, saved, length), 0), "loaded, by the list of a client");
    ask(is(out, fonnalich_header(&other, NOW, T(URL), out, sizeof out), "b=2"), "its cookie");
    ask(gives(fonnalich_load_by(&other, &other, NOW, saved, length), 0), "loaded, by its own list");
    ask(is(out, fonnalich_header(&other, NOW, T(URL), out, sizeof out), "b=2"), "its cookie");
    ask(gives(fonnalich_load_by(&other, &at, NOW, T("[(")), FONNALICH_SAVED), "no saved text");
    ask(gives(fonnalich_load_by(&other, &at, INT64_MAX, T("[(")), FONNALICH_MOMENT), "second, saved text");
    ask(is(out, fonnalich_header(&other, NOW, T(URL), out, sizeof out), "b=2"), "it stays");
    ask(gives(fonnalich_load_by(&third, &at, INT64_MAX, T("[]")), FONNALICH_MOMENT), "no second");
    ask(gives(fonnalich_count(&third, NOW), FONNALICH_NO_CLIENT), "so no client");
    ask(is(out, fonnalich_suffix_by(&third, T("a.com"), out, sizeof out), "com"), "but the list");
    fonnalich_free(&third);
    ask(gives(fonnalich_keep_list(&at, T("org\n")), 0), "another list");
    count = fonnalich_receive(&at, NOW, T(URL), T("a=1; Domain=com"), out, sizeof out);
    ask(gives(count, 1) && out[0] == FONNALICH_PUBLIC_SUFFIX, "a client keeps its own");
    ask(gives(fonnalich_share(&other, &at), 0) && gives(fonnalich_client(&other, &at), 0), "shared anew");
    count = fonnalich_receive(&other, NOW, T(URL), T("a=1; Domain=com"), out, sizeof out);
    ask(gives(count, 1) && out[0] == FONNALICH_INSERTED, "by the other list");
    fonnalich_free(&at);
    fonnalich_free(&other);
}

static void asks_a_list_that_is_kept(void) {
    char out[64];
    fonnalich at;
    fonnalich_begin(&at);
    fonnalich_keep_list(&at, T(LIST));
    ask(is(out, fonnalich_suffix_by(&at, T("www.example.ck"), out, sizeof out), "example.ck"), "a suffix");
    ask(gives(fonnalich_suffix_by(&at, T("a..com"), out, sizeof out), FONNALICH_HOST), "none");
    ask(is(out, fonnalich_shard_by(&at, T("a.www.example.com"), out, sizeof out), "example.com"), "a shard");
    ask(gives(fonnalich_shard_by(&at, T(""), out, sizeof out), FONNALICH_HOST), "no host");
    ask(gives(fonnalich_shard_by(&at, T("a\xff.com"), out, sizeof out), FONNALICH_TEXT), "no UTF-8");
    const char *url = "https://u@A.WWW.example.com:8080/b";
    ask(is(out, fonnalich_shard_of_url_by(&at, T(url), out, sizeof out), "example.com"), "of a URL");
    ask(gives(fonnalich_shard_of_url_by(&at, T("mailto:a@b.com"), out, sizeof out), FONNALICH_HOST), "without a host");
    ask(gives(fonnalich_shard_of_url_by(&at, T("a.com"), out, sizeof out), FONNALICH_URL), "no URL");
    ask(gives(fonnalich_shard_by(&at, T("www.example.com"), out, 2), 11), "no room");
    ask(is(out, fonnalich_answer(&at, out, sizeof out), "example.com"), "it is handed out");
    fonnalich_free(&at);
}

/* A saved text of another hand, whose first cookie has this value in the place of 1xxxx2, with a control character.
   Behind rules the header is that of the other one, or it is refused. */
static void is_one_line(const char *value) {
    static const struct { int64_t rules; const char *wanted; } rows[] = {
        {0, NULL}, {FONNALICH_BROWSER - FONNALICH_RULE_CONTROL, NULL}, {FONNALICH_RULE_CONTROL, "b=2"},
        {FONNALICH_BROWSER, "b=2"}, {FONNALICH_BROWSER + FONNALICH_RULE_SECURE_WINS, "b=2"},
    };
    char saved[2048], out[256];
    fonnalich at;
    fonnalich_begin(&at);
    fonnalich_list(&at, T(LIST));
    const char *lines = "a=1xxxx2; Max-Age=60; Path=/\nb=2; Max-Age=60; Path=/";
    fonnalich_receive(&at, NOW, T(URL), T(lines), out, sizeof out);
    ptrdiff_t length = fonnalich_save(&at, NOW, saved, sizeof saved - 1);
    ask(length > 0 && length < (ptrdiff_t)sizeof saved, "a saved text");
    saved[length] = 0;
    char *pair = strstr(saved, "a=1xxxx2");
    ask(pair != NULL, "its cookie");
    memcpy(pair + 2, value, strlen(value));
    ask(gives(fonnalich_load(&at, NOW, saved, length, T(LIST)), 0), "another's is loaded");
    for (size_t i = 0; i < sizeof rows / sizeof *rows; i++) {
        ask(gives(fonnalich_rules(&at, rows[i].rules), 0), "rules");
        const char *wanted = rows[i].wanted;
        length = fonnalich_header(&at, NOW, T(URL), out, sizeof out);
        ask(wanted ? is(out, length, wanted) : gives(length, FONNALICH_LINE), value);
        ask(gives(fonnalich_header(&at, NOW, T("https://example.org/"), out, sizeof out), 0), "another site's");
        for (uint32_t started = FONNALICH_BY_USER; started <= FONNALICH_BY_NAVIGATION; started++) {
            length = header_for(&at, started, "https://evil.org/", out, sizeof out);
            ask(wanted ? is(out, length, wanted) : gives(length, FONNALICH_LINE), "by a page");
        }
    }
    fonnalich_free(&at);
}

static void comes_back(void) {
    char saved[2048], out[256];
    const char *lines = "a=1; Max-Age=60\nb=2";
    fonnalich at, other;
    fonnalich_begin(&at);
    fonnalich_begin(&other);
    fonnalich_list(&at, T(LIST));
    fonnalich_receive(&at, NOW, T(URL), T(lines), out, sizeof out);
    ptrdiff_t length = fonnalich_save(&at, NOW, saved, sizeof saved);
    ask(length > 0 && length <= (ptrdiff_t)sizeof saved, "a saved text");
    ask(gives(fonnalich_load(&other, NOW + 1, saved, length, T(LIST)), 0), "it is loaded");
    ask(is(out, fonnalich_header(&other, NOW + 1, T(URL), out, sizeof out), "a=1"), "with the cookie that has an end");
    ask(gives(fonnalich_load(&other, NOW + 61, saved, length, T(LIST)), 0), "it is loaded later");
    ask(gives(fonnalich_header(&other, NOW + 61, T(URL), out, sizeof out), 0), "and that one has come to its end");
    ask(gives(fonnalich_restart(&at, NOW), 0), "a restart");
    ask(is(out, fonnalich_header(&at, NOW, T(URL), out, sizeof out), "a=1"), "keeps the same");
    fonnalich_free(&other);
    fonnalich_free(&at);
}

/* All cookies go into another client, which keeps its list and its rules: one that is expired keeps its place too. */
static void hands_all_over(void) {
    char saved[2048], again[2048], out[256];
    fonnalich at, other;
    fonnalich_begin(&at);
    fonnalich_begin(&other);
    ask(gives(fonnalich_save_all(&at, saved, sizeof saved), FONNALICH_NO_CLIENT), "no client");
    ask(gives(fonnalich_reload(&at, T("[]")), FONNALICH_NO_CLIENT), "nor is one made");
    fonnalich_list(&at, T(LIST));
    fonnalich_list(&other, T(LIST));
    fonnalich_rules(&other, FONNALICH_RULE_CONTROL);
    fonnalich_receive(&other, NOW, T(URL), T("other=1"), out, sizeof out);
    fonnalich_receive(&at, NOW, T(URL), T("a=1; Max-Age=60\nb=2\nc=3"), out, sizeof out);
    fonnalich_receive(&at, NOW, T(URL), T("b=; Max-Age=0"), out, sizeof out);
    ptrdiff_t length = fonnalich_save_all(&at, saved, sizeof saved);
    ask(length > 0 && length <= (ptrdiff_t)sizeof saved, "a saved text");
    ask(gives(fonnalich_reload(&other, saved, length), 0), "it is taken");
    ask(is(out, fonnalich_header(&other, NOW, T(URL), out, sizeof out), "a=1; c=3"), "in the place of what was there");
    ask(gives(fonnalich_save_all(&other, again, sizeof again), length) && !memcmp(saved, again, length), "as a whole");
    ask(gives(fonnalich_reload(&other, T("[(")), FONNALICH_SAVED), "no saved text");
    ask(gives(fonnalich_reload(&other, T("")), FONNALICH_SAVED), "nor is none");
    fonnalich_receive(&other, NOW + 90, T(URL), T("b=\x01\nb=4; Domain=com\nb=4\na=5"), out, sizeof out);
    ask(out[0] == FONNALICH_BY_CONTROL && out[1] == FONNALICH_PUBLIC_SUFFIX, "the rules and the list stay");
    ask(is(out, fonnalich_header(&other, NOW + 90, T(URL), out, sizeof out), "a=5; b=4; c=3"), "and the places");
    ask(gives(fonnalich_reload(&other, T("[]")), 0), "no cookie");
    ask(gives(fonnalich_header(&other, NOW, T(URL), out, sizeof out), 0), "leaves none");
    fonnalich_receive(&at, -62167219261, T(URL), T("d=1; Max-Age=60"), out, sizeof out);
    ask(gives(fonnalich_save_all(&at, out, sizeof out), FONNALICH_YEAR), "a year below 0");
    fonnalich_free(&other);
    fonnalich_free(&at);
}

/* ---- what a client holds */

/* A cookie as a text: domain, path, name and value, the second of its end or "-", and a letter for each flag. */
static const char *shown(const fonnalich_cookie *it) {
    static char text[512];
    char end[24] = "-";
    if (it->has_expires)
        snprintf(end, sizeof end, "%lld", (long long)it->expires);
    snprintf(text, sizeof text, "%.*s %.*s %.*s=%.*s %s %s%s%s%s%d", (int)it->domain_length, it->domain,
             (int)it->path_length, it->path, (int)it->name_length, it->name, (int)it->value_length, it->value, end,
             it->host_only ? "h" : "", it->secure ? "s" : "", it->http_only ? "o" : "", it->partitioned ? "p" : "",
             it->same_site);
    return text;
}

/* Whether an answer has exactly these cookies. */
static int lists(const char *out, ptrdiff_t length, const char *const *wanted, int count) {
    fonnalich_cookie cookie;
    const char *at = out;
    calls++;
    for (int i = 0; i < count; i++)
        if (!fonnalich_next_cookie(&at, out + length, &cookie) || strcmp(shown(&cookie), wanted[i]) != 0)
            return 0;
    return at == out + length && !fonnalich_next_cookie(&at, out + length, &cookie);
}

/* The lines of RFC 6265, section 3.1, and some more. */
static void tells_what_it_holds(void) {
    static const char *LINES = "SID=31d4d96e407aad42; Path=/; Secure; HttpOnly\n"
                               "lang=en-US; Path=/; Domain=example.com\na=b=c; Max-Age=60; Path=/x; SameSite=Lax\n"
                               "d=; Secure; Partitioned; SameSite=None\n"
                               "e=5; Max-Age=60";
    static const char *wanted[] = {"example.com / SID=31d4d96e407aad42 - hso0", "example.com / lang=en-US - 0",
                                   "example.com / d= - hsp3", "example.com / e=5 1700000060 h0",
                                   "example.com /x a=b=c 1700000060 h2"};
    static const char *later[] = {"example.com / SID=31d4d96e407aad42 - hso0", "example.com / lang=en-US - 0",
                                  "example.com / d= - hsp3"};
    char out[2048];
    fonnalich at;
    fonnalich_begin(&at);
    ask(gives(fonnalich_count(&at, NOW), FONNALICH_NO_CLIENT), "no client");
    ask(gives(fonnalich_cookies(&at, NOW, out, sizeof out), FONNALICH_NO_CLIENT), "no client either");
    ask(gives(fonnalich_clear(&at), FONNALICH_NO_CLIENT), "nor is one cleared");
    ask(gives(fonnalich_get(&at, NOW, T("a"), T("/"), T("b"), out, sizeof out), FONNALICH_NO_CLIENT), "or asked");
    fonnalich_list(&at, T(LIST));
    ask(gives(fonnalich_count(&at, NOW), 0) && gives(fonnalich_cookies(&at, NOW, out, sizeof out), 0), "no cookie");
    fonnalich_receive(&at, NOW, T(URL), T(LINES), out, sizeof out);
    ask(gives(fonnalich_count(&at, NOW), 5), "five cookies");
    ptrdiff_t length = fonnalich_cookies(&at, NOW, out, sizeof out);
    ask(lists(out, length, wanted, 5), "each as it was set");
    ask(gives(fonnalich_cookies(&at, NOW, out, 3), length), "no room");
    ask(gives(fonnalich_answer(&at, out, sizeof out), length) && lists(out, length, wanted, 5), "it is kept");
    ask(gives(fonnalich_count(&at, NOW + 60), 3), "two have come to their end");
    length = fonnalich_cookies(&at, NOW + 60, out, sizeof out);
    ask(lists(out, length, later, 3), "the others haven't");
    ask(gives(fonnalich_count(&at, INT64_MAX), FONNALICH_MOMENT), "no moment");
    ask(gives(fonnalich_cookies(&at, INT64_MIN, out, sizeof out), FONNALICH_MOMENT), "nor here");
    fonnalich_free(&at);
}

/* How many items, cookies or values an answer has that is cut off at each length, in memory of that length. */
static void reads_what_is_cut_off(void) {
    char out[1024];
    fonnalich at;
    fonnalich_begin(&at);
    fonnalich_list(&at, T(LIST));
    fonnalich_receive(&at, NOW, T(URL), T("a=1; Max-Age=60\nbc=23"), out, sizeof out);
    ptrdiff_t all = fonnalich_cookies(&at, NOW, out, sizeof out);
    for (ptrdiff_t length = 0; length <= all; length++) {
        char *cut = __real_malloc(length ? length : 1);
        memcpy(cut, out, length);
        const char *next = cut, *text;
        ptrdiff_t bytes;
        size_t place, items = 0, cookies = 0;
        fonnalich_cookie cookie;
        while (fonnalich_next(&next, cut + length, &text, &bytes))
            items++;
        ask((items == 12) == (length == all), "items that are whole");
        for (next = cut; fonnalich_next_cookie(&next, cut + length, &cookie);)
            cookies++;
        ask((cookies == 2) == (length == all), "cookies that are whole");
        for (next = cut; fonnalich_next_placed(&next, cut + length, &text, &bytes, &place);)
            ask(text + bytes <= cut + length, "values");
        free(cut);
    }
    fonnalich_free(&at);
}

static void finds_and_removes(void) {
    static const char *a[] = {"example.com / a=1 - h0"}, *b[] = {"example.com /x a=2 1700000060 0"};
    char out[256];
    fonnalich at;
    fonnalich_begin(&at);
    fonnalich_list(&at, T(LIST));
    ask(gives(fonnalich_one(&at, 2, NOW, T("a"), T("/"), T("b"), out, sizeof out), FONNALICH_WORD), "no word");
    fonnalich_receive(&at, NOW, T(URL), T("a=1\na=2; Path=/x; Domain=example.com; Max-Age=60"), out, sizeof out);
    ptrdiff_t length = fonnalich_get(&at, NOW, T("example.com"), T("/"), T("a"), out, sizeof out);
    ask(lists(out, length, a, 1), "a cookie by its key");
    length = fonnalich_get(&at, NOW, T("example.com"), T("/x"), T("a"), out, sizeof out);
    ask(lists(out, length, b, 1), "the other path's");
    ask(gives(fonnalich_get(&at, NOW + 60, T("example.com"), T("/x"), T("a"), out, sizeof out), 0), "it ends");
    ask(gives(fonnalich_get(&at, NOW, T("example.com"), T("/x"), T("b"), out, sizeof out), 0), "another name");
    ask(gives(fonnalich_get(&at, NOW, T("\xff"), T("/x"), T("b"), out, sizeof out), FONNALICH_TEXT), "no text");
    ask(gives(fonnalich_get(&at, INT64_MAX, T("\xff"), T("/x"), T("b"), out, 0), FONNALICH_MOMENT), "second, text");
    ask(gives(fonnalich_remove(&at, T("example.com"), T("/"), T("\xff")), FONNALICH_TEXT), "nor here");
    ask(gives(fonnalich_remove(&at, T("a.example.com"), T("/"), T("a")), 0), "another domain");
    ask(gives(fonnalich_count(&at, NOW), 2), "nothing was removed");
    ask(gives(fonnalich_remove(&at, T("example.com"), T("/"), T("a")), 1), "it is removed");
    ask(lists(out, fonnalich_answer(&at, out, sizeof out), a, 1), "and handed out");
    ask(gives(fonnalich_remove(&at, T("example.com"), T("/"), T("a")), 0), "once");
    ask(is(out, fonnalich_header(&at, NOW, T("https://example.com/x"), out, sizeof out), "a=2"), "it alone");
    ask(gives(fonnalich_remove(&at, T("example.com"), T("/x"), T("a")), 1), "the other one");
    ask(gives(fonnalich_count(&at, NOW), 0), "none is left");
    fonnalich_receive(&at, NOW, T(URL), T("a=1\nb=2"), out, sizeof out);
    ask(gives(fonnalich_header(&at, NOW, T(URL), out, 3), 8) && gives(fonnalich_clear(&at), 0), "all at once");
    ask(gives(fonnalich_answer(&at, out, sizeof out), 0), "what was kept is dropped");
    ask(gives(fonnalich_count(&at, NOW), 0), "none is left again");
    fonnalich_receive(&at, NOW, T(URL), T("a=1; Domain=com\nb=2"), out, sizeof out);
    ask(out[0] == FONNALICH_PUBLIC_SUFFIX && out[1] == FONNALICH_INSERTED, "the list stays");
    fonnalich_free(&at);
}

/* ---- cookies.txt */

/* What curl 7.88.1 wrote by -c, and MozillaCookieJar of Python 3.11 by save(ignore_discard=True), of the same site. */
static const char *OF_CURL = "# Netscape HTTP Cookie File\n# https://curl.se/docs/http-cookies.html\n"
                             "# This file was generated by libcurl! Edit at your own risk.\n\n"
                             ".example.com\tTRUE\t/a/\tFALSE\t2795896097\tlang\ten\n"
                             "example.com\tFALSE\t/\tFALSE\t0\tsid\t31d4\n"
                             ".example.com\tTRUE\t/a\tFALSE\t0\ttheme\tdark\n"
                             "#HttpOnly_example.com\tFALSE\t/\tFALSE\t2147169600\tuser\tann\n";
static const char *OF_PYTHON = "# Netscape HTTP Cookie File\n# http://curl.haxx.se/rfc/cookie_spec.html\n"
                               "# This is a generated file!  Do not edit.\n\n"
                               "example.com\tFALSE\t/\tFALSE\t2147169600\tuser\tann\n"
                               "example.com\tFALSE\t/\tFALSE\t\tsid\t31d4\n"
                               ".example.com\tTRUE\t/a\tFALSE\t\ttheme\tdark\n"
                               ".example.com\tTRUE\t/a\tFALSE\t2147169600\tlang\ten\n";

/* Whether an answer of fonnalich_import tells these counts, and these numbers and causes of refused lines. */
static int imports(const char *out, ptrdiff_t length, size_t taken, size_t expired, const ptrdiff_t *refused,
                   size_t count) {
    const char *at = out, *end = out + (length < 0 ? 0 : length);
    fonnalich_imported done;
    size_t line, i = 0;
    ptrdiff_t cause;
    calls++;
    if (!fonnalich_counts(&at, end, &done) || done.taken != taken || done.expired != expired || done.refused != count)
        return 0;
    for (; fonnalich_next_refused(&at, end, &line, &cause); i++)
        if (i >= count || (ptrdiff_t)line != refused[2 * i] || cause != refused[2 * i + 1])
            return 0;
    return i == count && at == end;
}

static void takes_what_others_wrote(void) {
    static const char *curl[] = {"example.com /a/ lang=en 2795896097 0", "example.com / sid=31d4 - h0",
                                 "example.com / user=ann 2147169600 ho0", "example.com /a theme=dark - 0"};
    static const char *python[] = {"example.com / user=ann 2147169600 h0", "example.com / sid=31d4 - h0",
                                   "example.com /a theme=dark - 0", "example.com /a lang=en 2147169600 0"};
    char out[2048];
    fonnalich at;
    fonnalich_begin(&at);
    ask(gives(fonnalich_import(&at, NOW, T(OF_CURL), out, sizeof out), FONNALICH_NO_CLIENT), "no client");
    ask(gives(fonnalich_export(&at, NOW, FONNALICH_FOR_CURL, true, out, sizeof out), FONNALICH_NO_CLIENT), "nor one");
    fonnalich_list(&at, T(LIST));
    ask(imports(out, fonnalich_import(&at, NOW, T(OF_CURL), out, sizeof out), 4, 0, NULL, 0), "what curl wrote");
    ptrdiff_t length = fonnalich_cookies(&at, NOW, out, sizeof out);
    ask(length > 0 && lists(out, length, curl, 4), "each cookie of it");
    ask(is(out, fonnalich_header(&at, NOW, T("http://example.com/a/b"), out, sizeof out),
           "lang=en; theme=dark; sid=31d4; user=ann"), "its header");
    fonnalich_clear(&at);
    ask(imports(out, fonnalich_import(&at, NOW, T(OF_PYTHON), out, sizeof out), 4, 0, NULL, 0), "what Python wrote");
    length = fonnalich_cookies(&at, NOW, out, sizeof out);
    ask(length > 0 && lists(out, length, python, 4), "each cookie of it");
    ask(imports(out, fonnalich_import(&at, 2147169600, T(OF_PYTHON), out, sizeof out), 2, 2, NULL, 0), "two expired");
    ask(gives(fonnalich_import(&at, INT64_MAX, T(OF_CURL), out, sizeof out), FONNALICH_MOMENT), "no moment");
    fonnalich_free(&at);
}

static void tells_refused_lines(void) {
    static const char *TEXT = "\xef\xbb\xbf# a comment\n\xff\nno row\n\tTRUE\t/\tFALSE\t0\ta\t1\n"
                              "example.com\tYES\t/\tFALSE\t0\ta\t1\nexample.com\tTRUE\ta\tFALSE\t0\ta\t1\n"
                              "example.com\tTRUE\t/\tFALSE\tsoon\ta\t1\nexample.com\tTRUE\t/\tFALSE\t0\t\t1\n"
                              "..example.com\tTRUE\t/\tFALSE\t0\ta\t1\nexample.com\tTRUE\t/\tFALSE\t0\ta\tx\x01\n"
                              "example.com\tTRUE\t/\tFALSE\t0\ta\tx; y\n"
                              "example.com\tTRUE\t/\tTRUE\t0\t__Host-a\t1\n\n"
                              "example.com\tFALSE\t/\tTRUE\t0\t__Host-a\t1\n"
                              "EXAMPLE.com\tFALSE\t/\tFALSE\t0\tb\t2\r\nexample.com\tFALSE\t/\tFALSE\t0\tb\t3";
    static const ptrdiff_t refused[] = {2, FONNALICH_ROW_TEXT, 3, FONNALICH_ROW_FIELDS, 4, FONNALICH_ROW_NO_DOMAIN, 5,
                                        FONNALICH_ROW_FLAG, 6, FONNALICH_ROW_PATH, 7, FONNALICH_ROW_EXPIRY, 8,
                                        FONNALICH_ROW_NO_NAME, 9, FONNALICH_ROW_DOMAIN, 10, FONNALICH_ROW_CONTROL, 11,
                                        FONNALICH_ROW_PAIR, 12, FONNALICH_ROW_HOST_PREFIX};
    static const char *held[] = {"example.com / a=0 - h0", "example.com / b=3 - h0", "example.com / __Host-a=1 - hs0"};
    char out[2048], again[128];
    fonnalich at;
    fonnalich_begin(&at);
    fonnalich_list(&at, T(LIST));
    fonnalich_receive(&at, NOW, T(URL), T("a=0\nb=1; Max-Age=60"), out, sizeof out);
    ask(imports(out, fonnalich_import(&at, NOW, T(TEXT), out, sizeof out), 3, 0, refused, 11), "each cause");
    ptrdiff_t length = fonnalich_import(&at, NOW, T(TEXT), out, 15);
    ask(gives(length, 16 + 11 * 9), "no room");
    ask(imports(out, fonnalich_answer(&at, out, sizeof out), 3, 0, refused, 11), "it is kept");
    length = fonnalich_cookies(&at, NOW, out, sizeof out);
    ask(length > 0 && lists(out, length, held, 3), "the later took the place of the earlier");
    ask(gives(fonnalich_import(&at, NOW, "", 0, out, sizeof out), 16) && imports(out, 16, 0, 0, NULL, 0), "no line");
    for (int cause = FONNALICH_ROW_HOST_PREFIX; cause <= FONNALICH_ROW_TEXT; cause++) {
        length = fonnalich_text(cause, out, sizeof out);
        ask(length > 7 && length < (ptrdiff_t)sizeof again, "a cause in words");
        for (int other = FONNALICH_ROW_HOST_PREFIX; other < cause; other++)
            ask(!(fonnalich_text(other, again, sizeof again) == length && !memcmp(out, again, length)), "its own");
    }
    fonnalich_free(&at);
}

static void writes_for_readers(void) {
    static const char *LINES = "sid=1; Path=/; Secure; HttpOnly\nlang=en; Domain=example.com; Max-Age=60\ntab=a\tb";
    static const char *wanted[][2] = {
        {"# Netscape HTTP Cookie File\n\n#HttpOnly_example.com\tFALSE\t/\tTRUE\t0\tsid\t1\n"
         ".example.com\tTRUE\t/\tFALSE\t1700000060\tlang\ten\n",
         "# Netscape HTTP Cookie File\n\n.example.com\tTRUE\t/\tFALSE\t1700000060\tlang\ten\n"},
        {"# Netscape HTTP Cookie File\n\nexample.com\tFALSE\t/\tTRUE\t0\tsid\t1\n"
         ".example.com\tTRUE\t/\tFALSE\t1700000060\tlang\ten\n",
         "# Netscape HTTP Cookie File\n\n.example.com\tTRUE\t/\tFALSE\t1700000060\tlang\ten\n"},
        {"# Netscape HTTP Cookie File\n\n#HttpOnly_example.com\tFALSE\t/\tTRUE\t\tsid\t1\n"
         ".example.com\tTRUE\t/\tFALSE\t1700000060\tlang\ten\n",
         "# Netscape HTTP Cookie File\n\n.example.com\tTRUE\t/\tFALSE\t1700000060\tlang\ten\n"}};
    char out[1024], text[1024];
    fonnalich at, other;
    fonnalich_begin(&at);
    fonnalich_begin(&other);
    fonnalich_list(&at, T(LIST));
    fonnalich_list(&other, T(LIST));
    fonnalich_receive(&at, NOW, T(URL), T(LINES), out, sizeof out);
    ask(gives(fonnalich_count(&at, NOW), 3), "three cookies, of which no line holds one");
    for (uint32_t reader = FONNALICH_FOR_CURL; reader <= FONNALICH_FOR_PYTHON; reader++)
        for (int lasting = 0; lasting < 2; lasting++) {
            ptrdiff_t length = fonnalich_export(&at, NOW, reader, !lasting, text, sizeof text);
            ask(is(text, length, wanted[reader][lasting]), "the text for a reader");
            fonnalich_clear(&other);
            length = fonnalich_import(&other, NOW, text, length, out, sizeof out);
            ask(imports(out, length, 2 - lasting, 0, NULL, 0), "it is taken again");
            length = fonnalich_export(&other, NOW, reader, true, out, sizeof out);
            ask(is(out, length, wanted[reader][lasting]), "and is the same");
        }
    ask(gives(fonnalich_export(&at, NOW, 3, true, out, sizeof out), FONNALICH_WORD), "no reader");
    ask(gives(fonnalich_export(&at, INT64_MIN, 0, true, out, sizeof out), FONNALICH_MOMENT), "no moment");
    ask(is(out, fonnalich_export(&at, NOW + 60, 0, false, out, sizeof out), "# Netscape HTTP Cookie File\n\n"), "none");
    fonnalich_free(&other);
    fonnalich_free(&at);
}

/* ---- refusals in words */

static void is_told_in_words(void) {
    char out[128], again[128];
    for (int number = FONNALICH_KEY_END; number < 0; number++) {
        ptrdiff_t length = fonnalich_text(number, out, sizeof out);
        ask(length > 7 && length < (ptrdiff_t)sizeof out && out[length - 1] != '.', "a refusal in words");
        for (int other = FONNALICH_KEY_END; other < number; other++)
            ask(!(fonnalich_text(other, again, sizeof again) == length && memcmp(out, again, length) == 0), "its own");
    }
    ask(is(out, fonnalich_text(FONNALICH_URL, out, sizeof out), "the text is no URL"), "no URL in words");
    ask(is(out, fonnalich_text(FONNALICH_PROCESSOR, out, sizeof out), FONNALICH_PROCESSOR_TEXT), "no SSE 4.2 in words");
    ask(is(out, fonnalich_text(FONNALICH_STOPPED - 3, out, sizeof out), "memory was refused at a line"), "a stop");
    static const int64_t none[] = {0, 1, INT64_MAX, FONNALICH_KEY_END - 1, FONNALICH_STOPPED + 1};
    for (size_t i = 0; i < sizeof none / sizeof none[0]; i++)
        ask(gives(fonnalich_text(none[i], out, sizeof out), 0), "no refusal");
    ask(gives(fonnalich_text(INT64_MIN, out, 0), 28), "the last number");
}

/* ---- a site's exchange */

static char key[FONNALICH_KEY_LENGTH], nonces[2 * FONNALICH_NONCE_LENGTH];

/* The signing and the sealing of these values, by Python's hmac and its package cryptography, with the key of the bytes
   0 to 63 and the nonce of 0 to 11. */
#define SIGNED_PAIR "user=DR8SuBlsUrDbRKVCnIMjAjDAS1re9vpW+c9wxfBEMkI%3Dann"
#define SEALED_PAIR "cart=AAECAwQFBgcICQoLb5T4daAgt1ZgMJl8aENxbCo%3D"
#define SIGNED_LINE SIGNED_PAIR "; Secure; Path=/"
#define SEALED_LINE SEALED_PAIR "; Secure; Path=/"

static ptrdiff_t serve(const char *header, const char *commands, size_t nonces_length, char *out, size_t room) {
    return fonnalich_exchange(key, sizeof key, T(header), NOW, T(commands), nonces, nonces_length, out, room);
}

/* The items of an answer, each behind '|', and '-' for none. */
static const char *items(const char *out, ptrdiff_t length) {
    static char all[1024];
    const char *text;
    ptrdiff_t bytes;
    size_t used = 0;
    for (const char *at = out; length > 0 && fonnalich_next(&at, out + length, &text, &bytes);)
        used += snprintf(all + used, sizeof all - used, "|%.*s", bytes < 0 ? 1 : (int)bytes, bytes < 0 ? "-" : text);
    all[used] = 0;
    return all;
}

static int serves(const char *header, const char *commands, const char *wanted) {
    char out[1024];
    ptrdiff_t length = serve(header, commands, sizeof nonces, out, sizeof out);
    calls++;
    return length >= 0 && length <= (ptrdiff_t)sizeof out && strcmp(items(out, length), wanted) == 0;
}

static void is_a_site(void) {
    ask(serves("", "S0a=1\nS0a=2; HttpOnly; Max-Age=60", "|a=2; HttpOnly; Secure; Path=/; Max-Age=60"), "the last set");
    ask(serves("", "S1a=1", "|__Host-a=1; Secure; Path=/"), "a set by Host");
    ask(serves("", "S1a=1; Path=/", "|__Host-a=1; Secure; Path=/"), "and for all paths");
    ask(serves("", "S2a=1", "|__Secure-a=1; Secure; Path=/"), "a set by Secure");
    ask(serves("", "S0a%3Bb=%0A%20\nG0a%3Bb", "|\n |a%3Bb=%0A%20; Secure; Path=/"), "an escaped name and value");
    ask(serves("a=1; b=2", "G0a\nG0b\nG0c\nG1a", "|1|2|-|-"), "values of the header");
    const char *removal = "|1|-|__Host-a=; Secure; Path=/; Max-Age=0; Expires=Mon, 14 Nov 2022 22:13:20 GMT";
    ask(serves("__Host-a=1", "G1a\nR1a\nG1a", removal), "a removal of a year ago");
    ask(serves("", "S0a=1\nR0a", ""), "a removal of what was set here");
    ask(serves("", "", ""), "no command");
}

static void signs_and_seals(void) {
    char out[1024];
    ask(serves("", "S3user=ann", "|" SIGNED_LINE), "a signing");
    ask(serves("", "S4cart=3", "|" SEALED_LINE), "a sealing");
    ask(serves(SIGNED_PAIR "; " SEALED_PAIR, "G3user\nG4cart\nG3cart\nG4user", "|ann|3|-|-"), "both are read");
    ask(serves("user=ann", "G3user", "|-"), "what nobody signed");
    ptrdiff_t length = serve("", "S4a=1\nS4b=1", 24, out, sizeof out);
    char *first = memchr(out, '=', sizeof out), *second = memchr(first + 1, 'b', sizeof out - (first + 1 - out));
    ask(length > 0 && second && memcmp(first + 1, second + 2, 16) != 0, "each sealing has a nonce of its own");
}

static void is_told_its_room(void) {
    char out[1024], again[1024];
    memset(out, '#', sizeof out);
    ptrdiff_t wanted = serve("a=1", "G0a\nS4b=2", 12, out, 5);
    ask(wanted > 5 && out[0] == '#' && out[4] == '#', "nothing is written without room");
    ask(gives(serve("a=1", "G0a\nS4b=2", 12, out, wanted), wanted) && out[wanted] == '#', "all of it with room");
    ask(gives(serve("a=1", "G0a\nS4b=2", 12, again, sizeof again), wanted) && !memcmp(out, again, wanted), "and again");
}

static void refuses_a_site(void) {
    char out[64] = "#";
    static const char *none[] = {"S",   "x",    "S5a=1",    "s0a=1",   "X0a",   "S0",
                                 "S0a", "S0=1", "S0\xff=1", "S0%ff=1", "G0%ff", "\n",
                                 "S0a=1; Path=/x", "S4a=1; Domain=shop.com", "S1a=1; Path=/; Domain=.shop.com"};
    for (size_t i = 0; i < sizeof none / sizeof *none; i++)
        ask(gives(serve("", none[i], 0, out, sizeof out), FONNALICH_COMMAND), none[i]);
    ask(gives(serve("", "S0a=1\nG0", 0, out, sizeof out), FONNALICH_EMPTY_NAME), "no name is read");
    ask(gives(serve("", "R0", 0, out, sizeof out), FONNALICH_EMPTY_NAME), "no name is removed");
    ask(gives(serve("", "S4a=1", 11, out, sizeof out), FONNALICH_NONCES), "a short nonce");
    ask(gives(serve("", "S4a=1\nS4b=1", 23, out, sizeof out), FONNALICH_NONCES), "a short second one");
    ask(gives(fonnalich_exchange(key, 63, "", 0, NOW, "", 0, "", 0, out, sizeof out), FONNALICH_KEY), "a short key");
    ptrdiff_t number = fonnalich_exchange(key, 64, "", 0, INT64_MIN, "", 0, "", 0, out, sizeof out);
    ask(gives(number, FONNALICH_MOMENT), "no moment");
    number = fonnalich_exchange(key, 64, "", 0, -60000000000, "R0a", 3, "", 0, out, sizeof out);
    ask(gives(number, FONNALICH_EXPIRY), "a removal in the year 68");
    ask(out[0] == '#', "nothing is written");
}

static ptrdiff_t refused(size_t key_length, int64_t second, const char *commands, size_t nonces_length) {
    char out[64];
    return fonnalich_exchange(key, key_length, "", 0, second, T(commands), nonces, nonces_length, out, sizeof out);
}

static void tells_the_first_cause_of_a_site(void) {
    ask(gives(refused(63, INT64_MIN, "x", 0), FONNALICH_MOMENT), "second, key, command");
    ask(gives(refused(63, INT64_MAX, "", 0), FONNALICH_MOMENT), "second, key");
    ask(gives(refused(64, INT64_MIN, "x", 0), FONNALICH_MOMENT), "second, command");
    ask(gives(refused(63, NOW, "x", 0), FONNALICH_KEY), "key, command");
    /* of commands the first */
    ask(gives(refused(64, NOW, "S4a=1\nx\nG0", 0), FONNALICH_NONCES), "nonces, then a command, then a name");
    ask(gives(refused(64, NOW, "S0a=1\nx\nS4a=1", 0), FONNALICH_COMMAND), "a command, then nonces");
    ask(gives(refused(64, -60000000000, "G0\nR0a", 0), FONNALICH_EMPTY_NAME), "a name, then an expiry");
    ask(gives(refused(64, -60000000000, "R0a\nG0", 0), FONNALICH_EXPIRY), "an expiry, then a name");
    ask(gives(refused(64, -60000000000, "R0", 0), FONNALICH_EMPTY_NAME), "a name and an expiry");
}

/* ---- a site's exchange on a ring of keys */

/* The current key has the bytes 64 to 127, and the first earlier one, which is `key`, ends 60 seconds from now. Of the
   others each has one byte alone. */
static char ring[(FONNALICH_EARLIER_KEYS + 2) * FONNALICH_KEY_LENGTH];
static int64_t ends[FONNALICH_EARLIER_KEYS + 1];

/* By Python's hmac and its package cryptography, of the current key and the nonce of 0 to 11: the signing and the
   sealing of the values above, and those until 1800 seconds from now, these by `key` too. */
#define NEW_SIGNED_PAIR "user=nZdCEdoTr3DMWY6ulZS1AlobYygyU9EuCf+TqVJV6x8%3Dann"
#define NEW_SEALED_PAIR "cart=AAECAwQFBgcICQoLlzGSbyu26akcKPMisxcEn6E%3D"
#define ENDING_SIGNED "~OQezO6il2FOvoR27JzKPPzb0SOCp78xwKr6X7O8llso=2023-11-14T22:43:20Zann"
#define ENDING_SEALED "~AAECAwQFBgcICQoLf2poCGCkxm0xi2Xjs+8Ij5SdAa4s36F1yRuQw/qIsazAyIDdAg=="
#define OLD_ENDING_SIGNED "~PxenwkQ8OcdyLnIBdWTpxdMSu0sCFe4ZDbDAmInG4FU=2023-11-14T22:43:20Zann"
#define OLD_ENDING_SEALED "~AAECAwQFBgcICQoLSgSHVqEmszoS91o/Dw46aTfvAeO32IWrvNQVdhhiMja7mRE8Ew=="
#define IN_30_MINUTES "Expires=Tue, 14 Nov 2023 22:43:20 GMT"
#define ENDING_LINE "; Secure; Path=/; " IN_30_MINUTES
#define REMOVED "; Secure; Path=/; Max-Age=0; Expires=Mon, 14 Nov 2022 22:13:20 GMT"

static void make_ring(void) {
    for (size_t i = 0; i < sizeof ring; i++)
        ring[i] = (char)(i < 64 ? i + 64 : i < 128 ? i - 64 : i / 64);
    for (size_t i = 0; i < sizeof ends / sizeof *ends; i++)
        ends[i] = i ? FONNALICH_NO_END : NOW + 60;
}

static ptrdiff_t turn(size_t earlier, int64_t second, const char *header, const char *commands, char *out,
                      size_t room) {
    return fonnalich_exchange_on_ring(ring, (earlier + 1) * FONNALICH_KEY_LENGTH, ends, earlier, T(header), second,
                                      T(commands), nonces, sizeof nonces, out, room);
}

/* The values that so many commands read, each behind '|' with its place, or '-', and behind them the lines. */
static int turns(size_t earlier, int64_t second, const char *header, const char *commands, int reads,
                 const char *wanted) {
    char out[2048], all[2048];
    const char *at = out, *text;
    ptrdiff_t length = turn(earlier, second, header, commands, out, sizeof out), bytes;
    size_t used = 0, place;
    calls++;
    if (length < 0 || length > (ptrdiff_t)sizeof out)
        return 0;
    for (int i = 0; i < reads && fonnalich_next_placed(&at, out + length, &text, &bytes, &place); i++)
        used += bytes < 0 ? snprintf(all + used, sizeof all - used, "|-")
                          : snprintf(all + used, sizeof all - used, "|%.*s %zu", (int)bytes, text, place);
    snprintf(all + used, sizeof all - used, "%s", items(at, out + length - at));
    return strcmp(all, wanted) == 0;
}

static void sets_by_the_current_key(void) {
    ask(turns(1, NOW, "", "S3user=ann", 0, "|" NEW_SIGNED_PAIR "; Secure; Path=/"), "a signing by the current key");
    ask(turns(1, NOW, "", "S4cart=3", 0, "|" NEW_SEALED_PAIR "; Secure; Path=/"), "a sealing by the current key");
    ask(turns(0, NOW, "", "S3user=ann\nG3user", 1, "|ann 0|" NEW_SIGNED_PAIR "; Secure; Path=/"), "and read");
    ask(turns(1, NOW, "", "S0a=1\nG0a\nR0b", 1, "|1 0|a=1; Secure; Path=/"), "as it is");
}

static void reads_by_each_key_that_counts(void) {
    const char *gets = "G3user\nG4cart", *both = SIGNED_PAIR "; " SEALED_PAIR;
    ask(turns(1, NOW, both, gets, 2, "|ann 1|3 1"), "of the earlier key");
    ask(turns(1, NOW, NEW_SIGNED_PAIR "; " NEW_SEALED_PAIR, gets, 2, "|ann 0|3 0"), "of the current one");
    ask(turns(1, NOW + 59, both, gets, 2, "|ann 1|3 1"), "up to its end");
    ask(turns(1, NOW + 60, both, gets, 2, "|-|-"), "from its end on");
    ask(turns(0, NOW, both, gets, 2, "|-|-"), "without it");
    ends[0] = FONNALICH_NO_END;
    ask(turns(1, NOW + 60, both, gets, 2, "|ann 1|3 1"), "with no end");
    make_ring();
    /* the earlier key behind 15 others */
    memcpy(ring + 16 * FONNALICH_KEY_LENGTH, key, sizeof key);
    memset(ring + FONNALICH_KEY_LENGTH, 1, FONNALICH_KEY_LENGTH);
    ask(turns(16, NOW, both, gets, 2, "|ann 16|3 16"), "of the last key");
    ask(turns(15, NOW, both, gets, 2, "|-|-"), "but for it");
    make_ring();
}

static void sets_values_that_end(void) {
    const char *gets = "G5user\nG6cart\nG3user\nG4cart";
    const char *both = "user=" ENDING_SIGNED "; cart=" ENDING_SEALED;
    const char *old = "user=" OLD_ENDING_SIGNED "; cart=" OLD_ENDING_SEALED;
    ask(turns(1, NOW, "", "S5user=ann; Max-Age=5; " IN_30_MINUTES, 0,
              "|user=~OQezO6il2FOvoR27JzKPPzb0SOCp78xwKr6X7O8llso%3D2023-11-14T22%3A43%3A20Zann" ENDING_LINE),
        "a signing until then");
    ask(turns(1, NOW, "", "S6cart=3; HttpOnly; " IN_30_MINUTES, 0,
              "|cart=~AAECAwQFBgcICQoLf2poCGCkxm0xi2Xjs+8Ij5SdAa4s36F1yRuQw%2FqIsazAyIDdAg%3D%3D; HttpOnly"
              ENDING_LINE),
        "a sealing until then");
    ask(turns(1, NOW, both, gets, 4, "|ann 0|3 0|-|-"), "they are read");
    ask(turns(1, NOW + 1799, both, gets, 4, "|ann 0|3 0|-|-"), "up to their end");
    ask(turns(1, NOW + 1800, both, gets, 4, "|-|-|-|-"), "from their end on");
    ask(turns(1, NOW, old, gets, 4, "|ann 1|3 1|-|-"), "of the earlier key");
    ask(turns(1, NOW + 60, old, gets, 4, "|-|-|-|-"), "from the end of that key on");
    ask(turns(1, NOW, "name=" ENDING_SIGNED "; basket=" ENDING_SEALED, "G5name\nG6basket", 2, "|-|-"), "another name");
    ask(turns(1, NOW, SIGNED_PAIR "; " SEALED_PAIR, "G5user\nG6cart", 2, "|-|-"), "those without an end aren't");
    ask(turns(1, NOW, both, "R5user\nG5user", 1, "|-|user=" REMOVED), "a signing is removed");
    ask(turns(1, NOW, both, "R6cart\nG6cart", 1, "|-|cart=" REMOVED), "a sealing is removed");
}

static ptrdiff_t off(size_t keys_length, size_t earlier, int64_t second, const char *commands) {
    char out[64];
    return fonnalich_exchange_on_ring(ring, keys_length, ends, earlier, "", 0, second, T(commands), nonces, 11, out,
                                      sizeof out);
}

static void refuses_a_ring(void) {
    char out[64] = "#";
    ask(gives(off(64, 0, NOW, ""), 0), "one key");
    ask(gives(off(17 * 64, 16, NOW, ""), 0), "sixteen earlier ones");
    ask(gives(off(18 * 64, 17, NOW, ""), FONNALICH_MANY_KEYS), "seventeen");
    ask(gives(off(0, 0, NOW, ""), FONNALICH_KEYS), "none");
    ask(gives(off(63, 0, NOW, ""), FONNALICH_KEYS), "a short key");
    ask(gives(off(65, 0, NOW, ""), FONNALICH_KEYS), "a long key");
    ask(gives(off(127, 1, NOW, ""), FONNALICH_KEYS), "a short earlier key");
    ask(gives(off(64, 1, NOW, ""), FONNALICH_KEYS), "an end too many");
    ask(gives(off(128, 0, NOW, ""), FONNALICH_KEYS), "a key too many");
    ends[1] = INT64_MAX - 1;
    ask(gives(off(128, 1, NOW, ""), 0), "an end that isn't looked at");
    ask(gives(off(192, 2, NOW, ""), FONNALICH_KEY_END), "no end");
    /* the first of several causes */
    ask(gives(off(5, 17, INT64_MAX, "x"), FONNALICH_MOMENT), "second, keys, ends");
    ask(gives(off(5, 17, NOW, "x"), FONNALICH_MANY_KEYS), "too many, too short, no end");
    ask(gives(off(5, 2, NOW, "x"), FONNALICH_KEYS), "too short, no end, no command");
    ask(gives(off(192, 2, NOW, "x"), FONNALICH_KEY_END), "no end, no command");
    make_ring();
    static const char *none[] = {"S5a=1", "S6a=1; Max-Age=60", "S5a; " IN_30_MINUTES, "S7a=1", "X5a", "G5%ff", "G",
                                 "G7a", "S5a=1; Path=/x; " IN_30_MINUTES, "S3a=1; Domain=shop.com"};
    for (size_t i = 0; i < sizeof none / sizeof *none; i++)
        ask(gives(off(64, 0, NOW, none[i]), FONNALICH_COMMAND), none[i]);
    static const char *nameless[] = {FONNALICH_GET FONNALICH_SIGNED_UNTIL, FONNALICH_REMOVE FONNALICH_SEALED_UNTIL};
    for (size_t i = 0; i < sizeof nameless / sizeof *nameless; i++)
        ask(gives(off(64, 0, NOW, nameless[i]), FONNALICH_EMPTY_NAME), "no name is read or removed");
    ask(gives(off(64, 0, NOW, "S6a=1; " IN_30_MINUTES), FONNALICH_NONCES), "a short nonce");
    ptrdiff_t wanted = turn(1, NOW, SIGNED_PAIR, "G3user", out, 5);
    ask(gives(wanted, 8 + 3 + 8 + 8) && out[0] == '#', "nothing is written without room");
}

static void finds_suffixes(void) {
    char out[64];
    ask(is(out, fonnalich_suffix(T(LIST), T("www.example.com"), out, sizeof out), "com"), "a rule");
    ask(is(out, fonnalich_suffix(T(LIST), T("www.example.ck"), out, sizeof out), "example.ck"), "a wildcard");
    ask(is(out, fonnalich_suffix(T(LIST), T("www.example.net."), out, sizeof out), "net"), "no rule");
    ask(gives(fonnalich_suffix(T(LIST), T("www.example.com"), out, 2), 3), "no room");
    ask(gives(fonnalich_suffix(T(LIST), T("a..com"), out, sizeof out), FONNALICH_HOST), "an empty label");
    ask(gives(fonnalich_suffix(T("a..b"), T("a.com"), out, sizeof out), FONNALICH_LIST), "no list");
}

static void finds_shards(void) {
    char out[64];
    ask(is(out, fonnalich_shard(T(LIST), T("a.www.example.com"), out, sizeof out), "example.com"), "a rule");
    ask(is(out, fonnalich_shard(T(LIST), T("com"), out, sizeof out), "com"), "a suffix");
    ask(is(out, fonnalich_shard(T(LIST), T("www.example.net"), out, sizeof out), "net"), "no rule");
    ask(is(out, fonnalich_shard(T(LIST), T("127.0.0.1"), out, sizeof out), "127.0.0.1"), "an address");
    ask(is(out, fonnalich_shard(T(LIST), T("a..com"), out, sizeof out), ".com"), "an empty label");
    ask(gives(fonnalich_shard(T(LIST), T("www.example.com"), out, 2), 11), "no room");
    ask(gives(fonnalich_shard(T(LIST), T(""), out, sizeof out), FONNALICH_HOST), "no host");
    ask(gives(fonnalich_shard(T(LIST), T("a\xff.com"), out, sizeof out), FONNALICH_TEXT), "no UTF-8");
    ask(gives(fonnalich_shard(T("a..b"), T("a\xff"), out, sizeof out), FONNALICH_LIST), "no list, no UTF-8");
    ask(gives(fonnalich_shard(T("a..b"), T(""), out, sizeof out), FONNALICH_LIST), "no list, no host");
    const char *url = "https://u@A.WWW.example.com:8080/b";
    ask(is(out, fonnalich_shard_of_url(T(LIST), T(url), out, sizeof out), "example.com"), "of a URL");
    ask(is(out, fonnalich_shard_of_url(T(LIST), T("http://0x7f.1/"), out, sizeof out), "127.0.0.1"), "of an address");
    ask(gives(fonnalich_shard_of_url(T(LIST), T(url), out, 2), 11), "no room");
    ask(gives(fonnalich_shard_of_url(T(LIST), T("mailto:a@b.com"), out, sizeof out), FONNALICH_HOST), "no host");
    ask(gives(fonnalich_shard_of_url(T(LIST), T("a.com"), out, sizeof out), FONNALICH_URL), "no URL");
    ask(gives(fonnalich_shard_of_url(T("a..b"), T("a.com"), out, sizeof out), FONNALICH_LIST), "no list, no URL");
}

/* ---- a cookie's parts */

static fonnalich_attributes parts;

/* What is printed of a cookie's attributes, those that count by their numbers. */
static const char *attributes(void) {
    static char all[256];
    size_t used = 0;
    all[0] = 0;
    if (parts.has_max_age)
        used += snprintf(all + used, sizeof all - used, " age %lld", (long long)parts.max_age);
    if (parts.has_expires)
        used += snprintf(all + used, sizeof all - used, " end %lld", (long long)parts.expires);
    snprintf(all + used, sizeof all - used, "%s%s%s%s%s site %d", parts.has_path ? " path" : "",
             parts.has_domain ? " domain" : "", parts.http_only ? " http" : "", parts.secure ? " secure" : "",
             parts.partitioned ? " apart" : "", parts.same_site);
    return all;
}

static int reads(bool decode, const char *text, const char *wanted, const char *numbers) {
    char out[512];
    static const fonnalich_attributes all = {-7, -7, true, true, true, true, true, true, true, 9};
    parts = all;
    ptrdiff_t length = fonnalich_parse(decode, T(text), &parts, out, sizeof out);
    calls++;
    return length >= 0 && length <= (ptrdiff_t)sizeof out && strcmp(items(out, length), wanted) == 0
           && strcmp(attributes(), numbers) == 0;
}

static ptrdiff_t print(bool encode, const char *name, const char *value, const char *path, const char *domain,
                       char *out, size_t room) {
    return fonnalich_print(encode, &parts, T(name), T(value), T(path), T(domain), out, room);
}

static int prints(bool encode, const char *name, const char *value, const char *wanted) {
    char out[512];
    return is(out, print(encode, name, value, "/a", ".example.com", out, sizeof out), wanted);
}

static void takes_cookies_apart(void) {
    /* RFC 6265, section 3.1; the date is of RFC 9110, section 5.6.7 */
    ask(reads(false, SID, "|SID|31d4d96e407aad42|/|-", " path http secure site 0"), "a line of RFC 6265");
    ask(reads(false, "lang=en-US; Path=/; Domain=.example.com", "|lang|en-US|/|example.com", " path domain site 0"),
        "a domain loses its dot");
    ask(reads(false, "a=; Expires=Sun, 06 Nov 1994 08:49:37 GMT; Max-Age=0; SameSite=lax; Partitioned", "|a||-|-",
              " age 0 end 784111777 apart site 2"), "ends and flags");
    ask(reads(false, "a=1; expires=Sun, 06 Nov 1994 08:49:37 GMT; SameSite=None", "|a|1|-|-",
              " end 784111777 site 3"), "for all sites, with nothing said of Secure");
    ask(reads(false, "a=1; SameSite=Strict; Domain=; Max-Age=x; Expires=x", "|a|1|-|-", " site 1"), "what isn't valid");
    ask(reads(false, "a=1; Max-Age=5; Max-Age=6; Expires=Thu, 01 Jan 1970 00:00:00 GMT", "|a|1|-|-",
              " age 6 end 0 site 0"), "the last one counts");
    ask(reads(true, "a%20b=%3B%31; Path=/%20", "|a b|;1|/%20|-", " path site 0"), "a decoded name and value");
    ask(reads(false, "a%20b=%3B%31", "|a%20b|%3B%31|-|-", " site 0"), "the same as they stand");
    ask(reads(false, "  a = \"1\" ", "|a|\"1\"|-|-", " site 0"), "white space");
}

static void puts_cookies_together(void) {
    memset(&parts, 0, sizeof parts);
    ask(prints(false, "a", "1", "a=1"), "no attribute");
    ask(prints(false, "a b", "%;", "a b=%;"), "a name and a value as they stand");
    ask(prints(true, "a b", "%;\xc3\xa9", "a%20b=%25%3B%C3%A9"), "encoded");
    ask(prints(false, "", "", "="), "no byte");
    parts.has_path = true;
    ask(prints(true, "a", "1", "a=1; Path=/a"), "a path");
    parts.has_path = false, parts.has_domain = true;
    ask(prints(true, "a", "1", "a=1; Domain=example.com"), "a domain");
    parts.has_domain = false, parts.has_max_age = true, parts.max_age = -5, parts.expires = 784111777;
    ask(prints(false, "a", "1", "a=1; Max-Age=-5"), "an age");
    parts.has_max_age = false, parts.has_expires = true;
    ask(prints(false, "a", "1", "a=1; Expires=Sun, 06 Nov 1994 08:49:37 GMT"), "an end");
    parts.has_expires = false, parts.http_only = true;
    ask(prints(false, "a", "1", "a=1; HttpOnly"), "HttpOnly");
    parts.http_only = false, parts.secure = true;
    ask(prints(false, "a", "1", "a=1; Secure"), "Secure");
    parts.secure = false, parts.partitioned = true;
    ask(prints(false, "a", "1", "a=1; Partitioned; Secure"), "Partitioned");
    parts.partitioned = false, parts.same_site = FONNALICH_NONE;
    ask(prints(false, "a", "1", "a=1; SameSite=None; Secure"), "for all sites");
    parts.same_site = FONNALICH_LAX;
    ask(prints(false, "a", "1", "a=1; SameSite=Lax"), "Lax");
    parts.same_site = FONNALICH_STRICT;
    ask(prints(false, "a", "1", "a=1; SameSite=Strict"), "Strict");
    parts.max_age = INT64_MAX, parts.has_max_age = parts.has_path = parts.has_domain = parts.http_only = true;
    parts.has_expires = true, parts.expires = 253402300799;
    ask(prints(false, "a", "1", "a=1; HttpOnly; SameSite=Strict; Path=/a; Domain=example.com; "
               "Max-Age=9223372036854775807; Expires=Fri, 31 Dec 9999 23:59:59 GMT"), "all of them");
}

static void refuses_cookies(void) {
    char out[64] = "#";
    static const fonnalich_attributes none = {.max_age = 7, .same_site = 9};
    parts = none;
    ask(gives(fonnalich_parse(false, "a=\xff", 3, &parts, out, sizeof out), FONNALICH_TEXT), "no text");
    ask(gives(fonnalich_parse(true, T("a=%ff"), &parts, out, sizeof out), FONNALICH_TEXT), "no decoded text");
    ask(gives(fonnalich_parse(false, T("a; b=1"), &parts, out, sizeof out), FONNALICH_PAIR), "no pair");
    ask(gives(fonnalich_parse(true, "", 0, &parts, out, sizeof out), FONNALICH_PAIR), "no byte");
    ask(gives(fonnalich_parse(true, T(" =1"), &parts, out, sizeof out), FONNALICH_EMPTY_NAME), "no name");
    ask(memcmp(&parts, &none, sizeof parts) == 0, "the attributes stay as they were");
    ask(gives(print(false, "a", "1", "", "", out, sizeof out), FONNALICH_SITE), "no site");
    parts.same_site = FONNALICH_NO_SITE;
    ask(gives(print(false, "\xff", "1", "", "", out, sizeof out), FONNALICH_TEXT), "a name that is no text");
    ask(gives(print(true, "a", "\xff", "", "", out, sizeof out), FONNALICH_TEXT), "a value that is no text");
    ask(is(out, print(true, "a", "1", "\xff", "\xff", out, sizeof out), "a=1"), "texts that don't count");
    out[0] = '#';
    parts.has_path = true;
    ask(gives(print(false, "a", "1", "\xff", "", out, sizeof out), FONNALICH_TEXT), "a path that is no text");
    parts.has_path = false, parts.has_domain = true;
    ask(gives(print(false, "a", "1", "", "\xff", out, sizeof out), FONNALICH_TEXT), "a domain that is no text");
    parts.has_domain = false, parts.has_expires = true, parts.expires = 253402300800;
    ask(gives(print(false, "a", "1", "", "", out, sizeof out), FONNALICH_MOMENT), "the year 10000");
    parts.expires = INT64_MIN;
    ask(gives(print(false, "a", "1", "", "", out, sizeof out), FONNALICH_MOMENT), "no year at all");
    ask(out[0] == '#', "nothing is written");
}

static void tells_the_first_cause_of_a_cookie(void) {
    char out[64];
    static const fonnalich_attributes all = {.expires = INT64_MAX, .has_expires = true, .has_path = true,
                                             .same_site = 4};
    ask(gives(fonnalich_parse(true, "\xff", 1, &parts, out, sizeof out), FONNALICH_TEXT), "text, pair");
    ask(gives(fonnalich_parse(true, "=\xff", 2, &parts, out, sizeof out), FONNALICH_TEXT), "text, name");
    ask(gives(fonnalich_parse(true, T("=%ff"), &parts, out, sizeof out), FONNALICH_EMPTY_NAME), "name, decoded text");
    parts = all;
    ask(gives(print(true, "\xff", "\xff", "\xff", "", out, sizeof out), FONNALICH_MOMENT), "second, texts, site");
    ask(gives(print(true, "a", "1", "/", "", out, sizeof out), FONNALICH_MOMENT), "second, site");
    parts.has_expires = false;
    ask(gives(print(true, "a", "1", "\xff", "", out, sizeof out), FONNALICH_TEXT), "text, site");
    parts.same_site = FONNALICH_LAX, parts.has_expires = true;
    ask(gives(print(true, "a", "\xff", "/", "", out, sizeof out), FONNALICH_MOMENT), "second, text");
}

/* ---- plain URLs */

/* Texts in which RFC 3986 (section 3) and the URL Standard read one web address, and such in which they don't. */
static void tells_plain_urls(void) {
    static const char *plain[] = {"https://shop.test/", "https://shop.test", "http://shop.test:8080/a?b=c#d",
                                  "HTTPS://Shop.TEST/A", "http://127.0.0.1/", "http://[::1]/", "https://shop.test/%2F",
                                  "https://xn--bcher-kva.test/", "https://shop.test/a;b=c,d!$&()*+~@:"};
    static const char *others[] = {"https://shop.test\\@evil.test/x", "https:\\\\shop.test\\x", "https:/shop.test/x",
                                   "https:///shop.test/x", "https:shop.test", "https://u@shop.test/",
                                   "https://u:p@shop.test/", "https://shop.test:443/", "https://shop.test?q",
                                   "https://shop.test/a/../b", "https://shop.test\t/", " https://shop.test/",
                                   "https://shop.test%2eevil.test/", "https://b\xc3\xbc" "cher.test/", "https://127.1/",
                                   "https://0x7f.1/", "ftp://shop.test/", "mailto:a@shop.test", "//shop.test/",
                                   "shop.test", "/x", "", "\xff", "https://shop.test/\xff"};
    for (size_t i = 0; i < sizeof plain / sizeof *plain; i++)
        ask(gives(fonnalich_is_plain_url(T(plain[i])), 1), plain[i]);
    for (size_t i = 0; i < sizeof others / sizeof *others; i++)
        ask(gives(fonnalich_is_plain_url(T(others[i])), 0), others[i]);
    ask(gives(fonnalich_is_plain_url("https://shop.test/\0", 19), 0), "a NUL");
    ask(gives(fonnalich_is_plain_url("https://shop.test/ ", 18), 1), "the length counts");
}

static void is_told_the_room_of_parts(void) {
    char out[128];
    static const fonnalich_attributes none;
    const char *line = "a=1; Path=/; Secure";
    parts = none;
    memset(out, '#', sizeof out);
    ptrdiff_t wanted = fonnalich_parse(false, T(line), &parts, out, 34);
    ask(gives(wanted, 8 + 1 + 8 + 1 + 8 + 1 + 8) && out[0] == '#' && out[33] == '#', "no item without room");
    ask(memcmp(&parts, &none, sizeof parts) == 0, "and no attribute");
    ask(gives(fonnalich_parse(false, T(line), &parts, out, wanted), wanted) && out[wanted] == '#', "all with room");
    ask(strcmp(items(out, wanted), "|a|1|/|-") == 0 && parts.secure && parts.has_path, "the same call again");
    memset(out, '#', sizeof out);
    ask(gives(print(false, "a", "1", "/", "", out, 18), strlen(line)) && out[0] == '#', "no line without room");
    out[18] = '#';
    ask(is(out, print(false, "a", "1", "/", "", out, 19), "a=1; Secure; Path=/") && out[19] == '#', "the line");
}

/* What is printed is read again. */
static void comes_apart_again(long rounds) {
    char out[512], line[512], text[64], wanted[128];
    for (long i = 0; i < rounds; i++) {
        snprintf(text, sizeof text, "a b=%%;%ld\n", i);
        static const fonnalich_attributes all = {.has_max_age = true, .has_expires = true, .http_only = true};
        parts = all;
        parts.max_age = i, parts.expires = i * 40000000, parts.secure = i & 1, parts.partitioned = parts.secure;
        parts.same_site = i & 3;
        fonnalich_attributes made = parts;
        made.secure |= made.partitioned || made.same_site == FONNALICH_NONE;
        ptrdiff_t length = print(true, "n m", text, "", "", line, sizeof line);
        ask(length > 0 && length <= (ptrdiff_t)sizeof line, "a line");
        ptrdiff_t all_items = fonnalich_parse(true, line, length, &parts, out, sizeof out);
        snprintf(wanted, sizeof wanted, "|n m|%s|-|-", text);
        ask(strcmp(items(out, all_items), wanted) == 0, "its texts");
        ask(memcmp(&parts, &made, sizeof parts) == 0, "its attributes");
        calls += 2;
    }
}

static void serves_often(long rounds) {
    char commands[64], wanted[64];
    for (long i = 0; i < rounds; i++) {
        snprintf(commands, sizeof commands, "S0n=%ld\nS4m=%ld\nG4m\nR4m", i, i);
        snprintf(wanted, sizeof wanted, "|%ld|n=%ld; Secure; Path=/", i, i);
        ask(serves(SIGNED_PAIR, commands, wanted), "an exchange");
        snprintf(commands, sizeof commands, "S0n=%ld\nG4cart", i);
        snprintf(wanted, sizeof wanted, "|3 1|n=%ld; Secure; Path=/", i);
        ask(turns(1, NOW, SEALED_PAIR, commands, 1, wanted), "one on a ring");
    }
}

/* ---- many calls */

static void goes_on(long rounds) {
    char out[256], line[64];
    fonnalich at;
    fonnalich_begin(&at);
    fonnalich_rules(&at, FONNALICH_NO_RULES);
    fonnalich_list(&at, T(LIST));
    fonnalich_receive(&at, NOW, T(URL), T(SID), out, sizeof out);
    for (long i = 0; i < rounds; i++) {
        int length = snprintf(line, sizeof line, "lang=%ld; Path=/", i);
        ptrdiff_t count = fonnalich_receive(&at, NOW, T(URL), line, length, out, sizeof out);
        ask(gives(count, 1) && out[0] == (i ? FONNALICH_UPDATED_EXISTING : FONNALICH_INSERTED), "a new value");
        snprintf(line, sizeof line, "SID=31d4d96e407aad42; lang=%ld", i);
        ask(is(out, fonnalich_header(&at, NOW, T(URL), out, sizeof out), line), "its header");
    }
    fonnalich_free(&at);
}

/* ---- refused growths: a call is refused for want of memory, and is done when it is called again */

static int again(ptrdiff_t number) {
    return number == FONNALICH_MEMORY;
}

static void bears_a_refusal_behind_rules(fonnalich *at) {
    const char *http = "http://example.com/";
    const char *lines = "e=1; Expires=Tue, 1-Jan-30 0:00:00 UTC\nid=2\nf=3; Max-Age=99999999";
    char out[256];
    ask(gives(fonnalich_rules(at, FONNALICH_BROWSER), 0), "rules take no memory");
    ptrdiff_t number = fonnalich_receive(at, NOW, T(http), T(lines), out, sizeof out);
    if (again(number) || number <= FONNALICH_STOPPED) {
        ask(again(number) || number >= FONNALICH_STOPPED - 3, "a line that is there");
        number = fonnalich_receive(at, NOW, T(http), T(lines), out, sizeof out);
    }
    ask(gives(number, 3) && out[1] == FONNALICH_UPDATED_EXISTING, "three lines");
    if (again(number = fonnalich_header(at, NOW, T(http), out, sizeof out)))
        number = fonnalich_header(at, NOW, T(http), out, sizeof out);
    ask(is(out, number, "id=2; e=1; f=3"), "their header");
}

static void bears_a_refusal_of_a_list(fonnalich *at) {
    char out[256];
    ptrdiff_t number;
    fonnalich list;
    fonnalich_begin(&list);
    if (again(number = fonnalich_keep_list(&list, T(LIST))))
        number = fonnalich_keep_list(&list, T(LIST));
    ask(gives(number, 0), "a list is kept");
    if (again(number = fonnalich_client(at, &list)))
        number = fonnalich_client(at, &list);
    ask(gives(number, 0), "a client by it");
    fonnalich_receive(at, NOW, T(URL), T("id=1; SameSite=Lax"), out, sizeof out);
    fonnalich_receive(at, NOW, T(URL), T("id=1; SameSite=Lax"), out, sizeof out);
    if (again(number = header_for(at, FONNALICH_BY_NAVIGATION, "https://evil.org/", out, sizeof out)))
        number = header_for(at, FONNALICH_BY_NAVIGATION, "https://evil.org/", out, sizeof out);
    ask(is(out, number, "id=1"), "the header of a navigation");
    number = receive_for(at, FONNALICH_BY_PAGE, "https://evil.org/", "a=1; SameSite=Lax\nid=2", out, sizeof out);
    if (again(number) || number <= FONNALICH_STOPPED) {
        ask(again(number) || number >= FONNALICH_STOPPED - 2, "a line that is there");
        number = receive_for(at, FONNALICH_BY_PAGE, "https://evil.org/", "a=1; SameSite=Lax\nid=2", out, sizeof out);
    }
    ask(gives(number, 2) && out[0] == FONNALICH_BY_CROSS_SITE, "the answer to a page");
    if (again(number = fonnalich_load_by(at, &list, NOW, T("[]"))))
        number = fonnalich_load_by(at, &list, NOW, T("[]"));
    ask(gives(number, 0), "loaded by it");
    if (again(number = fonnalich_suffix_by(&list, T("a.com"), out, sizeof out)))
        number = fonnalich_suffix_by(&list, T("a.com"), out, sizeof out);
    ask(is(out, number, "com"), "a suffix by it");
    if (again(number = fonnalich_shard_by(&list, T("www.a.com"), out, sizeof out)))
        number = fonnalich_shard_by(&list, T("www.a.com"), out, sizeof out);
    ask(is(out, number, "a.com"), "a shard by it");
    if (again(number = fonnalich_shard_of_url_by(&list, T("https://www.a.com/"), out, sizeof out)))
        number = fonnalich_shard_of_url_by(&list, T("https://www.a.com/"), out, sizeof out);
    ask(is(out, number, "a.com"), "a shard of a URL by it");
    fonnalich_free(&list);
}

static ptrdiff_t turn_again(char *out, size_t room) {
    const char *header = "user=" OLD_ENDING_SIGNED "; cart=" OLD_ENDING_SEALED;
    return turn(1, NOW, header, "G5user\nG6cart\nS6cart=4; " IN_30_MINUTES, out, room);
}

/* What a client holds is as it was, and what is told of the lines is told again. */
static void bears_a_refusal_of_a_text(fonnalich *at) {
    static const ptrdiff_t refused[] = {1, FONNALICH_ROW_FIELDS};
    static const char *TEXT = "no row\nexample.com\tFALSE\t/\tFALSE\t0\tt\t1\nexample.com\tFALSE\t/\tFALSE\t1\tu\t2";
    char out[512];
    fonnalich_clear(at);
    ptrdiff_t number = fonnalich_import(at, NOW, T(TEXT), out, sizeof out);
    if (again(number)) {
        ask(gives(fonnalich_count(at, NOW), 0), "no line is taken");
        number = fonnalich_import(at, NOW, T(TEXT), out, sizeof out);
    }
    ask(imports(out, number, 1, 1, refused, 1), "lines of a cookies.txt");
    if (again(number = fonnalich_export(at, NOW, FONNALICH_FOR_CURL, true, out, sizeof out)))
        number = fonnalich_export(at, NOW, FONNALICH_FOR_CURL, true, out, sizeof out);
    ask(is(out, number, "# Netscape HTTP Cookie File\n\nexample.com\tFALSE\t/\tFALSE\t0\tt\t1\n"), "a cookies.txt");
}

static void bears_a_refusal_of_a_ring(void) {
    char out[1024];
    const char *at = out, *text;
    ptrdiff_t number, length = 0;
    size_t place;
    if (again(number = turn_again(out, sizeof out)))
        number = turn_again(out, sizeof out);
    ask(number > 0 && number <= (ptrdiff_t)sizeof out, "an exchange on a ring");
    ask(fonnalich_next_placed(&at, out + number, &text, &length, &place) && length == 3 && place == 1, "a signed one");
    ask(fonnalich_next_placed(&at, out + number, &text, &length, &place) && length == 1 && place == 1, "a sealed one");
    ask(fonnalich_next(&at, out + number, &text, &length) && length > 60 && text[5] == '~', "the other's line");
}

static void bears_a_refusal(long growth) {
    static const char *held[] = {"example.com / id=1 1700000060 h0"};
    char out[1024], saved[2048];
    ptrdiff_t number;
    fonnalich at;
    growths = 0;
    refused_at = growth;
    bears_a_refusal_of_a_ring();
    fonnalich_begin(&at);
    fonnalich_rules(&at, FONNALICH_NO_RULES);
    if (again(number = fonnalich_list(&at, T(LIST))))
        number = fonnalich_list(&at, T(LIST));
    ask(gives(number, 0), "a list");
    number = fonnalich_receive(&at, NOW, T(URL), T(BOTH), out, sizeof out);
    if (again(number) || number <= FONNALICH_STOPPED) {
        ask(number >= FONNALICH_STOPPED - 2, "a line that is there");
        number = fonnalich_receive(&at, NOW, T(URL), T(BOTH), out, sizeof out);
    }
    ask(gives(number, 2) && out[1] == FONNALICH_INSERTED, "two lines");
    if (again(number = fonnalich_header(&at, NOW, T(URL), out, 3)))
        number = fonnalich_header(&at, NOW, T(URL), out, 3);
    ask(gives(number, strlen(HEADER)), "a header without room");
    ask(is(out, fonnalich_answer(&at, out, sizeof out), HEADER), "it is handed out without memory");
    fonnalich_receive(&at, NOW, T(URL), T("id=1; Max-Age=60"), out, sizeof out);
    fonnalich_receive(&at, NOW, T(URL), T("id=1; Max-Age=60"), out, sizeof out);
    if (again(number = fonnalich_save(&at, NOW, saved, sizeof saved)))
        number = fonnalich_save(&at, NOW, saved, sizeof saved);
    ask(number > 0, "a saved text");
    ptrdiff_t length = number;
    if (again(number = fonnalich_restart(&at, NOW)))
        number = fonnalich_restart(&at, NOW);
    ask(gives(number, 0), "a restart");
    if (again(number = fonnalich_load(&at, NOW, saved, length, T(LIST))))
        number = fonnalich_load(&at, NOW, saved, length, T(LIST));
    ask(gives(number, 0), "loaded");
    if (again(number = fonnalich_header(&at, NOW, T(URL), out, sizeof out)))
        number = fonnalich_header(&at, NOW, T(URL), out, sizeof out);
    ask(is(out, number, "id=1"), "the header of what was saved");
    if (again(number = fonnalich_save_all(&at, saved, sizeof saved)))
        number = fonnalich_save_all(&at, saved, sizeof saved);
    ask(number > 0, "the saved text of all");
    length = number;
    if (again(number = fonnalich_reload(&at, saved, length)))
        number = fonnalich_reload(&at, saved, length);
    ask(gives(number, 0), "loaded again");
    if (again(number = fonnalich_count(&at, NOW)))
        number = fonnalich_count(&at, NOW);
    ask(gives(number, 1), "how many it holds");
    if (again(number = fonnalich_cookies(&at, NOW, out, sizeof out)))
        number = fonnalich_cookies(&at, NOW, out, sizeof out);
    ask(lists(out, number, held, 1), "the cookies that it holds");
    if (again(number = fonnalich_get(&at, NOW, T("example.com"), T("/"), T("id"), out, sizeof out)))
        number = fonnalich_get(&at, NOW, T("example.com"), T("/"), T("id"), out, sizeof out);
    ask(lists(out, number, held, 1), "one of them");
    bears_a_refusal_behind_rules(&at);
    if (again(number = fonnalich_remove(&at, T("example.com"), T("/"), T("id")))) {
        ask(gives(fonnalich_count(&at, NOW), 3), "it is still there");
        number = fonnalich_remove(&at, T("example.com"), T("/"), T("id"));
    }
    ask(gives(number, 1), "it is removed");
    if (again(number = fonnalich_clear(&at)))
        number = fonnalich_clear(&at);
    ask(gives(number, 0), "cleared");
    bears_a_refusal_of_a_text(&at);
    bears_a_refusal_of_a_list(&at);
    fonnalich_free(&at);
    const char *commands = "G3user\nS4a%20b=%2B; Max-Age=60\nG4a%20b\nR3user", *header = "x=1; " SIGNED_PAIR;
    if (again(number = serve(header, commands, 12, out, sizeof out)))
        number = serve(header, commands, 12, out, sizeof out);
    ask(number > 0 && strncmp(items(out, number), "|ann|+|", 7) == 0, "an exchange");
    if (again(number = fonnalich_suffix(T(LIST), T("a.com"), out, sizeof out)))
        number = fonnalich_suffix(T(LIST), T("a.com"), out, sizeof out);
    ask(is(out, number, "com"), "a suffix");
    if (again(number = fonnalich_shard(T(LIST), T("www.a.com"), out, sizeof out)))
        number = fonnalich_shard(T(LIST), T("www.a.com"), out, sizeof out);
    ask(is(out, number, "a.com"), "a shard");
    if (again(number = fonnalich_shard_of_url(T(LIST), T("https://www.a.com/"), out, sizeof out)))
        number = fonnalich_shard_of_url(T(LIST), T("https://www.a.com/"), out, sizeof out);
    ask(is(out, number, "a.com"), "a shard of a URL");
    const char *line = "a%20b=%2B; Path=/; HttpOnly";
    if (again(number = fonnalich_parse(true, T(line), &parts, out, sizeof out)))
        number = fonnalich_parse(true, T(line), &parts, out, sizeof out);
    ask(number > 0 && strcmp(items(out, number), "|a b|+|/|-") == 0 && parts.http_only, "a cookie's parts");
    if (again(number = print(true, "a b", "+", "/", "", out, sizeof out)))
        number = print(true, "a b", "+", "/", "", out, sizeof out);
    ask(is(out, number, "a%20b=+; HttpOnly; Path=/"), "a cookie of its parts");
    if (again(number = fonnalich_is_plain_url(T("HTTPS://shop.test"))))
        number = fonnalich_is_plain_url(T("HTTPS://shop.test"));
    ask(gives(number, 1), "a plain URL");
}

int main(int count, char **words) {
    long rounds = count > 1 ? atol(words[1]) : 5000;
    fonnalich place;
    ask(fonnalich_size() == 1024 && sizeof place == 1024, "a handle has room");
    ask(fonnalich_begin(&place) == 0, "it is begun");
    fonnalich_free(&place);
    more = 1;
    ask(fonnalich_begin(&place) == FONNALICH_HANDLE, "a handle has no room");
    more = 0;
    ask(fonnalich_processor() == 0, "the processor");
    char version[16] = "";
    ask(fonnalich_version(version, sizeof version) == 5 && strcmp(version, FONNALICH_VERSION) == 0, "the version");
    ask(fonnalich_version(version, 4) == 5 && strcmp(version, FONNALICH_VERSION) == 0, "no room for the version");
    is_told_in_words();
    tells_refusals();
    tells_the_first_cause();
    keeps_rules();
    lets_secure_cookies_win();
    tells_rules_apart();
    goes_from_page_to_page();
    keeps_an_answer();
    keeps_the_answer_of_a_line();
    comes_back();
    hands_all_over();
    tells_what_it_holds();
    reads_what_is_cut_off();
    finds_and_removes();
    takes_what_others_wrote();
    tells_refused_lines();
    writes_for_readers();
    tells_what_starts_a_request();
    tells_what_started_an_answers_request();
    refuses_a_list_without_a_rule();
    shares_a_list();
    asks_a_list_that_is_kept();
    is_one_line("1\\r\\n2");
    is_one_line("\\u{7f}");
    for (int i = 0; i < FONNALICH_KEY_LENGTH; i++)
        key[i] = i;
    for (int i = 0; i < 2 * FONNALICH_NONCE_LENGTH; i++)
        nonces[i] = i;
    is_a_site();
    signs_and_seals();
    is_told_its_room();
    refuses_a_site();
    tells_the_first_cause_of_a_site();
    make_ring();
    sets_by_the_current_key();
    reads_by_each_key_that_counts();
    sets_values_that_end();
    refuses_a_ring();
    finds_suffixes();
    finds_shards();
    takes_cookies_apart();
    puts_cookies_together();
    refuses_cookies();
    tells_the_first_cause_of_a_cookie();
    tells_plain_urls();
    is_told_the_room_of_parts();
    comes_apart_again(rounds);
    goes_on(rounds);
    serves_often(rounds);
    long refused = 0;
    do {
        bears_a_refusal(++refused);
    } while (growths >= refused && !failures);
    printf("%ld calls, %ld growths refused, %d failures\n", calls, refused - 1, failures);
    return failures != 0;
}

/* Makes calls of every export that a seed draws, on two sides of handles. On the one growths of memory are refused, and
   the call is made again; on the other none is. Both answer alike, so what a refusal leaves is as it was. Its words are
   how many calls each side makes, and the seed. It prints these, how many growths were refused, and a sum of all
   answers, which is the same of each build of the library. */
#include "fonnalich.h"
#include <stdio.h>
#include <stdlib.h>
#include <string.h>

/* ---- growths */

static long growths, refused_at, refused;

void *__real_malloc(size_t size);
void *__real_realloc(void *old, size_t size);

static int is_refused(void) {
    return ++growths == refused_at && ++refused;
}

void *__wrap_malloc(size_t size) {
    return is_refused() ? NULL : __real_malloc(size);
}

void *__wrap_realloc(void *old, size_t size) {
    return is_refused() ? NULL : __real_realloc(old, size);
}

/* ---- what is drawn */

#define T(text) (text), strlen(text)
#define ONE_OF(texts) texts[drawn(sizeof texts / sizeof *texts)]

static uint64_t state;

/* A number below this one (xorshift64*). */
static size_t drawn(size_t below) {
    state ^= state >> 12, state ^= state << 25, state ^= state >> 27;
    return (size_t)((state * 0x2545f4914f6cdd1dull >> 33) % below);
}

static const int64_t NOW = 1700000000;
static const char *LISTS[] = {"com\norg\n*.ck\n", "com\norg\n*.ck\n", "*.ck\n!www.ck\norg\n", "com", "a..b", "// com\n",
                              "", "lists/list.dat", "\xff\n"};
static const char *HOSTS[] = {"example.com", "www.example.com", "com", "a.www.ck", "a.b.ck", "127.0.0.1", "[::1]",
                              "a..com", "", "\xff", "localhost"};
static const char *URLS[] = {"https://example.com/", "https://example.com/a/b", "http://www.example.com/a",
                             "https://www.example.com/", "http://example.org/", "https://a.b.ck/", "https://127.0.0.1/",
                             "https://[::1]:8080/", "wss://example.com/", "https://com/", "file:///a", "data:,",
                             "no url", "https://example.com\\@evil.org/", "\xff"};
static const char *NAMES[] = {"a", "b", "sid", "s%69d", "__Host-c", "__Secure-d", "%5F_Host-c", " ", "\xff", "e\x01"};
static const char *VALUES[] = {"", "1", "two", "\"3\"", "%3B", "a=b", "\xc3\xa9", "\xff", "x\r", "x\ty",
                               "0123456789012345678901234567890123456789012345678901234567890123456789"};
static const char *ATTRIBUTES[] = {"", "; Path=/", "; Path=/a", "; Domain=example.com", "; Domain=.www.example.com",
                                   "; Domain=com", "; Secure", "; Secure; Path=/", "; HttpOnly", "; Max-Age=60",
                                   "; Max-Age=0", "; Max-Age=-1", "; Max-Age=9223372036854775807", "; SameSite=Lax",
                                   "; Expires=Tue, 15 Nov 2033 12:00:00 GMT", "; Expires=Thu, 1-Jan-70 0:00:00 UTC",
                                   "; SameSite=Strict", "; SameSite=None", "; Partitioned", "; unknown"};
static const char *PATHS[] = {"/", "/a", "/a/b", "a", "", "\xff"};
static const char *FIELDS[] = {"TRUE", "FALSE", "FALSE", "yes", "", "\xff"};
static const char *EXPIRIES[] = {"", "0", "1", "1700000005", "1700000060", "2000000000.5", "-1", "soon",
                                 "99999999999999999999"};
static const char *WAYS[] = {"0", "1", "2", "3", "4", "5", "6", "7", ""};
static const char *DOINGS[] = {"S", "R", "G", "x"};
static const int64_t ODD[] = {INT64_MIN, INT64_MAX, -62167219201, -377705116801, 253402300799, 253402300800, 0};
static const size_t ROOMS[] = {0, 1, 8, 64};

enum { HANDLES = 4, ROOM = 8192, LINES = 2048, TEXT = 1 << 17, GROWTHS = 24, EARLIER = FONNALICH_EARLIER_KEYS + 1 };

/* ---- a call */

enum word {
    LIST, LOAD, RECEIVE, HEADER, SAVE, RESTART, RULES, SAVE_ALL, RELOAD, COUNT, COOKIES, CLEAR, HEADER_FOR, KEEP_LIST,
    SHARE, CLIENT, LOAD_BY, SUFFIX_BY, SHARD_BY, SHARD_OF_URL_BY, GET, REMOVE, RECEIVE_FOR, IMPORT, EXPORT, ANSWER,
    ACT, ONE, BEGIN, EXCHANGE, ON_RING, SUFFIX, SHARD, SHARD_OF_URL, PARSE, PRINT, IS_PLAIN_URL, NAMES_FILE,
    TELL, VERSION, ALL
};

/* What calls are drawn of: some more often, so that handles have clients with cookies. */
static const enum word OFTEN[] = {LIST, RECEIVE, RECEIVE, RECEIVE, RECEIVE, RECEIVE_FOR, HEADER, HEADER, HEADER_FOR,
                                  SAVE_ALL, CLIENT, KEEP_LIST, COOKIES, GET, REMOVE, IMPORT, IMPORT, EXPORT, ON_RING,
                                  ON_RING};

struct call {
    enum word word;
    size_t at, other, room, lines_length, saved_length, header_length, newest, earlier, keys_length;
    int64_t second, number, ends[EARLIER];
    uint32_t started;
    const char *url, *page, *list, *host, *domain, *path, *name, *value;
    char lines[LINES], header[LINES];
    bool decodes;
    fonnalich_attributes parts;
};

/* The last text that a client was saved as, and what is handed in for it. */
static char saved[TEXT], given[TEXT];
static size_t saved_length;

/* The pairs of the lines that an exchange last answered. */
static char pairs[LINES];
static size_t pairs_length;

static size_t put(char *to, size_t used, const char *text) {
    size_t length = strlen(text);
    if (used + length > LINES)
        return used;
    memcpy(to + used, text, length);
    return used + length;
}

/* Commands of a site that are as they should be, each of a value that ends late, joined by line feeds. */
static size_t put_commands(char *to) {
    size_t used = 0, count = 1 + drawn(4);
    for (size_t i = 0; i < count; i++) {
        size_t doing = drawn(3);
        used = put(to, used, i ? "\n" : "");
        used = put(to, used, DOINGS[doing]);
        used = put(to, used, WAYS[drawn(7)]);
        used = put(to, used, NAMES[drawn(3)]);
        used = put(to, used, doing ? "" : "=two; Expires=Tue, 15 Nov 2033 12:00:00 GMT");
    }
    return used;
}

/* Lines of Set-Cookie, or commands of a site, joined by line feeds. */
static size_t put_lines(char *to, bool commands) {
    size_t used = 0, count = 1 + drawn(4);
    if (commands && drawn(4))
        return put_commands(to);
    for (size_t i = 0; i < count; i++) {
        used = put(to, used, i ? "\n" : "");
        if (commands) {
            used = put(to, used, ONE_OF(DOINGS));
            used = put(to, used, ONE_OF(WAYS));
        }
        used = put(to, used, ONE_OF(NAMES));
        if (drawn(8)) {
            used = put(to, used, "=");
            used = put(to, used, ONE_OF(VALUES));
        }
        for (size_t j = drawn(4); j-- > 0;)
            used = put(to, used, ONE_OF(ATTRIBUTES));
    }
    return used;
}

/* Rows of a cookies.txt, some of them faulty, and lines between them that are none. */
static size_t put_rows(char *to) {
    static const char *MARKS[] = {"", "", "#HttpOnly_", ".", "# ", " "};
    size_t used = 0, count = drawn(6);
    for (size_t i = 0; i < count; i++) {
        const char *fields[] = {ONE_OF(HOSTS), ONE_OF(FIELDS), ONE_OF(PATHS), ONE_OF(FIELDS), ONE_OF(EXPIRIES),
                                ONE_OF(NAMES), ONE_OF(VALUES)};
        used = put(to, used, ONE_OF(MARKS));
        for (size_t j = 0; j < (drawn(16) ? 7 : drawn(8)); j++) {
            used = put(to, used, j ? "\t" : "");
            used = put(to, used, fields[j]);
        }
        used = put(to, used, drawn(8) ? "\n" : "\r\n");
    }
    return used;
}

/* A saved text: the last one, one that was cut or changed, or none. */
static size_t put_saved(void) {
    size_t length = saved_length;
    memcpy(given, saved, length);
    switch (drawn(6)) {
    case 0:
        return drawn(length + 1);
    case 1:
        if (length)
            given[drawn(length)] = (char)drawn(256);
        return length;
    case 2:
        memcpy(given, "[]", 2);
        return drawn(2) ? 2 : 0;
    default:
        return length;
    }
}

static fonnalich_attributes drawn_parts(void) {
    fonnalich_attributes parts = {0};
    parts.max_age = (int64_t)drawn(1000) - 10, parts.expires = NOW + (int64_t)drawn(1000);
    parts.has_max_age = drawn(2), parts.has_expires = drawn(2), parts.has_path = drawn(2), parts.has_domain = drawn(2);
    parts.http_only = drawn(2), parts.secure = drawn(2), parts.partitioned = drawn(2);
    parts.same_site = (uint8_t)drawn(5);
    if (!drawn(8))
        parts.expires = ONE_OF(ODD);
    return parts;
}

/* A request's header and a ring: the pairs of the last lines, or what no site has set, and some earlier keys. */
static void draw_request(struct call *it) {
    it->header_length = drawn(4) ? pairs_length : it->lines_length / 2;
    memcpy(it->header, it->header_length == pairs_length ? pairs : it->lines, it->header_length);
    it->newest = drawn(3);
    it->earlier = drawn(16) ? drawn(3) : drawn(EARLIER + 1);
    it->keys_length = (it->earlier + 1) * FONNALICH_KEY_LENGTH - !drawn(16);
    for (size_t i = 0; i < EARLIER; i++)
        it->ends[i] = drawn(3) ? FONNALICH_NO_END : drawn(16) ? NOW + (int64_t)drawn(120) - 10 : ONE_OF(ODD);
}

static void draw(struct call *it) {
    it->word = drawn(2) ? ONE_OF(OFTEN) : (enum word)drawn(ALL);
    it->at = drawn(HANDLES), it->other = (it->at + 1 + drawn(HANDLES - 1)) % HANDLES;
    it->room = it->word == RECEIVE || it->word == RECEIVE_FOR || drawn(3) ? ROOM : ONE_OF(ROOMS);
    it->second = drawn(40) ? NOW + (int64_t)drawn(120) - 10 : ONE_OF(ODD);
    it->number = drawn(8) ? (int64_t)drawn(2048) : (int64_t)drawn(4096) - 1024;
    it->started = (uint32_t)drawn(4);
    it->url = ONE_OF(URLS), it->page = ONE_OF(URLS), it->list = ONE_OF(LISTS), it->host = ONE_OF(HOSTS);
    it->domain = ONE_OF(HOSTS), it->path = ONE_OF(PATHS), it->name = ONE_OF(NAMES), it->value = ONE_OF(VALUES);
    it->lines_length = it->word == IMPORT ? put_rows(it->lines)
                                          : put_lines(it->lines, it->word == EXCHANGE || it->word == ON_RING);
    draw_request(it);
    it->saved_length = put_saved();
    it->decodes = drawn(2), it->parts = drawn_parts();
}

/* ---- a side */

struct side {
    fonnalich at[HANDLES];
    char out[ROOM];
    fonnalich_attributes parts;
};

/* Keys of which no two are one, the first of them that of a session with one. A ring begins at one of the first. */
static char keys[(EARLIER + 3) * FONNALICH_KEY_LENGTH], nonces[2 * FONNALICH_NONCE_LENGTH];
static long calls;
static int failures;

static void ask(int holds, const char *what, const struct call *it) {
    if (holds)
        return;
    failures++;
    printf("not so: %s, at call %ld, word %d\n", what, calls, it->word);
}

/* Ends a handle and begins it again, by the header's forms or by what they call. */
static ptrdiff_t begun_anew(fonnalich *at, bool by_forms) {
    if (by_forms) {
        fonnalich_free(at);
        return fonnalich_begin(at);
    }
    fonnalich_end(at);
    fonnalich_place(at);
    return fonnalich_size() > sizeof *at ? FONNALICH_HANDLE : fonnalich_processor();
}

/* A call that needs no handle. */
static ptrdiff_t made_alone(const struct call *it, struct side *on) {
    char *out = on->out;
    size_t room = it->room;
    switch (it->word) {
    case EXCHANGE:
        return fonnalich_exchange(keys, FONNALICH_KEY_LENGTH - !it->started, it->header, it->header_length, it->second,
                                  it->lines, it->lines_length, nonces, sizeof nonces, out, room);
    case ON_RING:
        return fonnalich_exchange_on_ring(keys + it->newest * FONNALICH_KEY_LENGTH, it->keys_length, it->ends,
                                          it->earlier, it->header, it->header_length, it->second, it->lines,
                                          it->lines_length, nonces, sizeof nonces, out, room);
    case SUFFIX: return fonnalich_suffix(T(it->list), T(it->host), out, room);
    case SHARD: return fonnalich_shard(T(it->list), T(it->host), out, room);
    case SHARD_OF_URL: return fonnalich_shard_of_url(T(it->list), T(it->url), out, room);
    case PARSE: return fonnalich_parse(it->decodes, it->lines, it->lines_length, &on->parts, out, room);
    case PRINT:
        return fonnalich_print(it->decodes, &it->parts, T(it->name), T(it->value), T(it->path), T(it->domain), out,
                               room);
    case IS_PLAIN_URL: return fonnalich_is_plain_url(T(it->url));
    case NAMES_FILE: return fonnalich_names_file(T(it->list));
    case TELL: return fonnalich_text(-(it->number & 63), out, room);
    default: return fonnalich_version(out, room);
    }
}

/* A call with two handles, or of the list that one keeps. */
static ptrdiff_t made_by_list(const struct call *it, struct side *on) {
    fonnalich *at = &on->at[it->at], *other = &on->at[it->other];
    char *out = on->out;
    size_t room = it->room;
    switch (it->word) {
    case KEEP_LIST: return fonnalich_keep_list(at, T(it->list));
    case SHARE: return fonnalich_share(at, other);
    case CLIENT: return fonnalich_client(at, other);
    case LOAD_BY: return fonnalich_load_by(at, other, it->second, given, it->saved_length);
    case SUFFIX_BY: return fonnalich_suffix_by(at, T(it->host), out, room);
    case SHARD_BY: return fonnalich_shard_by(at, T(it->host), out, room);
    default: return fonnalich_shard_of_url_by(at, T(it->url), out, room);
    }
}

/* Words of fonnalich_act and fonnalich_one as they are, and such as there are none. */
static ptrdiff_t made_bare(const struct call *it, struct side *on) {
    fonnalich *at = &on->at[it->at];
    uint32_t word = (uint32_t)it->number & 31;
    if (it->word == ONE)
        return fonnalich_one(at, word & 3, it->second, T(it->domain), T(it->path), T(it->name), on->out, it->room);
    /* (of a refused one the lines that were taken would be put twice) */
    word = word == FONNALICH_DO_RECEIVE ? UINT32_MAX : word;
    return fonnalich_act(at, word, it->second, given, it->saved_length, T(it->list), on->out, it->room);
}

/* A call of a client, of the lines from this byte on. */
static ptrdiff_t made(const struct call *it, struct side *on, size_t from) {
    fonnalich *at = &on->at[it->at];
    char *out = on->out;
    size_t room = it->room;
    switch (it->word) {
    case LIST: return fonnalich_list(at, T(it->list));
    case LOAD: return fonnalich_load(at, it->second, given, it->saved_length, T(it->list));
    case RECEIVE:
        return fonnalich_receive(at, it->second, T(it->url), it->lines + from, it->lines_length - from, out, room);
    case RECEIVE_FOR:
        return fonnalich_receive_for(at, it->started, it->second, T(it->url), T(it->page), it->lines + from,
                                     it->lines_length - from, out, room);
    case HEADER: return fonnalich_header(at, it->second, T(it->url), out, room);
    case HEADER_FOR: return fonnalich_header_for(at, it->second, T(it->url), it->started, T(it->page), out, room);
    case SAVE: return fonnalich_save(at, it->second, out, room);
    case SAVE_ALL: return fonnalich_save_all(at, out, room);
    case RESTART: return fonnalich_restart(at, it->second);
    case RELOAD: return fonnalich_reload(at, given, it->saved_length);
    case RULES: return fonnalich_rules(at, it->number);
    case COUNT: return fonnalich_count(at, it->second);
    case COOKIES: return fonnalich_cookies(at, it->second, out, room);
    case CLEAR: return fonnalich_clear(at);
    case GET: return fonnalich_get(at, it->second, T(it->domain), T(it->path), T(it->name), out, room);
    case REMOVE: return fonnalich_remove(at, T(it->domain), T(it->path), T(it->name));
    case IMPORT: return fonnalich_import(at, it->second, it->lines, it->lines_length, out, room);
    case EXPORT: return fonnalich_export(at, it->second, it->started, it->decodes, out, room);
    case ANSWER: return fonnalich_answer(at, out, room);
    case BEGIN: return begun_anew(at, it->decodes);
    case ACT: case ONE: return made_bare(it, on);
    default: return it->word < GET ? made_by_list(it, on) : made_alone(it, on);
    }
}

/* ---- both sides */

static int is_want(ptrdiff_t number) {
    return number == FONNALICH_MEMORY || number <= FONNALICH_STOPPED;
}

static void clean(struct side *on) {
    memset(on->out, '#', sizeof on->out);
    memset(&on->parts, 0, sizeof on->parts);
    calls++;
}

/* Where the line of this number begins, counted from 1. */
static size_t line_at(const struct call *it, size_t line) {
    size_t at = 0;
    while (line-- > 1)
        at += (size_t)((const char *)memchr(it->lines + at, '\n', it->lines_length - at) - it->lines) - at + 1;
    return at;
}

/* The call with one of its next growths refused, and then again. Tells how many lines it had taken before. */
static ptrdiff_t borne(const struct call *it, struct side *on, size_t *taken) {
    static struct side blank;
    long before = refused;
    refused_at = drawn(4) ? growths + 1 + (long)drawn(drawn(2) ? 4 : GROWTHS) : 0;
    clean(on);
    ptrdiff_t number = made(it, on, 0);
    refused_at = 0, *taken = 0;
    if (!is_want(number))
        return number;
    ask(refused > before, "want of memory where none was refused", it);
    memset(blank.out, '#', sizeof blank.out);
    ask(memcmp(on->out, blank.out, sizeof blank.out) == 0, "a refusal writes nothing", it);
    if (number <= FONNALICH_STOPPED - 1)
        *taken = (size_t)(FONNALICH_STOPPED - number) - 1;
    clean(on);
    return made(it, on, line_at(it, *taken + 1)) + (ptrdiff_t)*taken;
}

static uint64_t sum = 0xcbf29ce484222325;

/* Adds bytes to the sum (FNV-1a). */
static void add(const void *bytes, size_t length) {
    for (size_t i = 0; i < length; i++)
        sum = (sum ^ ((const unsigned char *)bytes)[i]) * 0x100000001b3;
}

static void keep(const struct side *on, ptrdiff_t length) {
    if (length > 0 && length <= TEXT && length <= ROOM) {
        memcpy(saved, on->out, (size_t)length);
        saved_length = (size_t)length;
    }
}

/* Keeps the pair of a line that an exchange answered. */
static void keep_pair(const char *line, size_t length) {
    const char *end = memchr(line, ';', length);
    size_t more = end ? (size_t)(end - line) : 0;
    if (!more || pairs_length + more + 2 > LINES)
        return;
    memcpy(pairs + pairs_length, line, more);
    memcpy(pairs + pairs_length + more, "; ", 2);
    pairs_length += more + 2;
}

/* How many values the commands of a site read. */
static size_t reads(const struct call *it) {
    size_t count = 0;
    for (size_t i = 0; i < it->lines_length; i++)
        count += (i == 0 || it->lines[i - 1] == '\n') && it->lines[i] == *FONNALICH_GET;
    return count;
}

/* Takes an answer apart by what the header has for it, and adds to the sum what that tells. */
static void take_apart(const struct call *it, const char *at, const char *end) {
    const char *text;
    ptrdiff_t length, cause;
    size_t number;
    fonnalich_cookie cookie;
    fonnalich_imported counts = {0};
    switch (it->word) {
    case COOKIES: case GET:
        while (fonnalich_next_cookie(&at, end, &cookie))
            add(cookie.name, cookie.name_length), add(&cookie.expires, sizeof cookie.expires);
        break;
    case EXCHANGE: case ON_RING:
        pairs_length = drawn(2) ? 0 : pairs_length;
        for (size_t i = it->word == ON_RING ? reads(it) : 0; i > 0; i--) {
            ask(fonnalich_next_placed(&at, end, &text, &length, &number), "a value and its place", it);
            add(&number, sizeof number);
        }
        while (fonnalich_next(&at, end, &text, &length))
            keep_pair(text, length < 0 ? 0 : (size_t)length);
        break;
    case IMPORT:
        number = (size_t)fonnalich_number(at);
        ask(fonnalich_counts(&at, end, &counts), "the counts of an import", it);
        ask(number == counts.taken + counts.expired + counts.refused, "they are all lines", it);
        while (fonnalich_next_refused(&at, end, &number, &cause))
            add(&number, sizeof number), add(&cause, sizeof cause);
        break;
    default: return;
    }
    ask(at == end, "an answer to its end", it);
}

/* The same call on both sides, which answer alike. */
static void go_on(struct side *one, struct side *other) {
    static struct call it;
    size_t taken;
    draw(&it);
    ptrdiff_t bears = borne(&it, one, &taken);
    clean(other);
    ptrdiff_t number = made(&it, other, 0);
    ask(!is_want(number), "want of memory that nobody refused", &it);
    ask(bears == number, "one number", &it);
    ask(memcmp(one->out, other->out + taken, sizeof other->out - taken) == 0, "one answer", &it);
    ask(memcmp(&one->parts, &other->parts, sizeof one->parts) == 0, "the same attributes", &it);
    int64_t told = number;
    add(&told, sizeof told);
    add(other->out, number > 0 && number <= (ptrdiff_t)it.room ? (size_t)number : 0);
    if (number > 0 && number <= (ptrdiff_t)it.room)
        take_apart(&it, other->out, other->out + number);
    if ((it.word == SAVE || it.word == SAVE_ALL) && number <= (ptrdiff_t)it.room)
        keep(other, number);
}

int main(int count, char **words) {
    static struct side one, other;
    long wanted = count > 1 ? atol(words[1]) : 5000, first = count > 2 ? atol(words[2]) : 1;
    state = 0x9e3779b97f4a7c15ull * (uint64_t)(first + 1);
    for (size_t i = 0; i < sizeof keys; i++)
        keys[i] = (char)(i / FONNALICH_KEY_LENGTH);
    for (int i = 0; i < HANDLES; i++)
        if (fonnalich_begin(&one.at[i]) < 0 || fonnalich_begin(&other.at[i]) < 0)
            return 2;
    for (long i = 0; i < wanted && !failures; i++)
        go_on(&one, &other);
    for (int i = 0; i < HANDLES; i++)
        fonnalich_free(&one.at[i]), fonnalich_free(&other.at[i]);
    printf("%ld calls, %ld growths refused, sum %016llx\n", calls, refused, (unsigned long long)sum);
    return failures != 0;
}

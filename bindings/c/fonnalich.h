/* Fonnalich for C: the cookies of a client and of a site (RFC 6265), by a proved static library. A client stands behind
   a handle; what a site asks for is a call by itself, as fonnalich_exchange, and takes no handle.

   A text is a pointer and a length in bytes; no pointer may be null, even for no bytes ("" serves). A moment is a whole
   second since 1970-01-01T00:00:00 UTC. A call answers the length of its answer, which then stands at the beginning of
   `out`; where that is more than `out` has room for, nothing is written, and fonnalich_answer hands it out later, or,
   of a call without a handle, the same call with more room does. A number below 0 is a refusal of the table below, and
   writes nothing. So what stands in `out` is looked at only where `length >= 0 && length <= (ptrdiff_t)sizeof out`.

   What the caller owes, since nothing checks it:
   - a handle is begun once before its first use and freed once after its last, and never copied or moved between;
   - it lies at an address that is a multiple of 8, as every `fonnalich` of C does. A byte buffer of ctypes, Go or Zig
     may miss it: the library that is compiled with no proof ends the process then (SIGILL);
   - one call at a time uses a handle, on any thread, and on one side of a `fork`: save, and load in the child. Calls
     without a handle keep nothing, and may run on several threads at once;
   - fonnalich_share, _client and _load_by use both handles that they are given: where several threads begin by one
     handle's list, they take turns by a lock of yours, or each is given a handle of its own that shares the list.
     Handles that share one may else be used and freed on several threads at once, each by one call;
   - each length is that of its text, and `out` overlaps no other text and no attributes. */
#ifndef FONNALICH_H
#define FONNALICH_H
#include <stdbool.h>
#include <stddef.h>
#include <stdint.h>

/* The version of this file. fonnalich_version tells the library's. */
#define FONNALICH_VERSION "0.9.0"

/* A handle: memory of the caller's own, which the library alone reads and writes. */
typedef struct fonnalich {
    uint64_t words[128];
} fonnalich;

/* What the functions with a body are here. The library exports each of them too, for callers without a C compiler. */
#ifndef FONNALICH_FORM
#define FONNALICH_FORM static inline
#endif

/* ---- why a call answers no text. Of several causes the first of this table is told: the one with the number nearest
   to 0. But FONNALICH_NO_RULE is told where FONNALICH_LIST would be, and FONNALICH_NO_LIST before what is wrong with a
   second or a text. Where the second and the keys of an exchange are right, the first of its commands that is refused
   is told, and of one that sets, first that nonces are too few, then the expiry, then the length. Want of memory may
   be told in the place of any cause. */
enum {
    FONNALICH_MEMORY = -1,    /* memory was refused; what the handle holds is as it was */
    FONNALICH_WORD = -2,      /* no word of fonnalich_act or _one, none of FONNALICH_BY_.. that starts a request, or
                                 none of FONNALICH_FOR_.. that reads a cookies.txt */
    FONNALICH_NO_CLIENT = -3, /* none of fonnalich_list, _load, _client and _load_by was called with success */
    FONNALICH_LIST = -4,      /* the text is no public suffix list */
    FONNALICH_MOMENT = -5,    /* the second is before the year -9999 or after 9999 */
    FONNALICH_URL = -6,       /* the text is no URL */
    FONNALICH_SAVED = -7,     /* the text is no saved client */
    FONNALICH_YEAR = -8,      /* a cookie that is to be saved ends in a year below 0 */
    FONNALICH_READ = -9,      /* the saved text wasn't read to its end: no run was seen to answer this, but the
                                 contract lets fonnalich_load, _load_by and _reload */
    FONNALICH_KEY = -10,      /* the key has under 64 bytes */
    FONNALICH_COMMAND = -11,  /* a line is no command: the letter or the digit is none, or the text behind them is no
                                 cookie that could be set, as one without a name, with a Domain, or with another Path
                                 than /, or no UTF-8 */
    FONNALICH_EMPTY_NAME = -12, /* the name that a command reads or removes is empty, or that of the text of
                                   fonnalich_parse */
    FONNALICH_EXPIRY = -13,   /* the expiry of a cookie is of a year below 100 */
    FONNALICH_TOO_LONG = -14, /* the value or the name of a cookie is too long to be sealed */
    FONNALICH_NONCES = -15,   /* a cookie is to be sealed, and fewer than twelve bytes of nonces are left */
    FONNALICH_HOST = -16,     /* the host has no byte, or, of fonnalich_suffix, an empty label; the URL has none */
    FONNALICH_TEXT = -17,     /* a text isn't UTF-8, as it stands or percent-decoded */
    FONNALICH_PAIR = -18,     /* the text before the first semicolon has no '=' */
    FONNALICH_SITE = -19,     /* the number is none of an attribute SameSite */
    FONNALICH_RULES = -20,    /* the number is none of FONNALICH_RULE_.. */
    FONNALICH_LINE = -21,     /* the header has a control character, as a line break */
    FONNALICH_PROCESSOR = -22, /* this processor lacks what the library needs: from fonnalich_processor and _begin */
    FONNALICH_HANDLE = -23,   /* the library's handle is larger than this file's: from fonnalich_begin alone */
    FONNALICH_NO_RULE = -24,  /* the suffix list has no rule, as a page that is empty */
    FONNALICH_NO_LIST = -25,  /* the handle keeps no list: neither fonnalich_keep_list nor fonnalich_share was called
                                 with success */
    /* from fonnalich_exchange_on_ring alone: */
    FONNALICH_MANY_KEYS = -26, /* there are over 16 earlier keys */
    FONNALICH_KEYS = -27,     /* the keys haven't 64 bytes each, or aren't one more than the ends */
    FONNALICH_KEY_END = -28,  /* the end of an earlier key is before the year -9999 or after 9999 */
    /* -40 to -50 are none of a call: fonnalich_import tells them of lines */
    FONNALICH_STOPPED = -100  /* this or less, from fonnalich_receive and fonnalich_receive_for alone: see there */
};

/* ---- what became of a line, as fonnalich_receive and fonnalich_receive_for write it */
enum {
    FONNALICH_INSERTED = 0,            /* it is a new cookie */
    FONNALICH_EXPIRED_EXISTING = 1,    /* it is expired, and so is now the cookie that stood in its place */
    FONNALICH_UPDATED_EXISTING = 2,    /* it took the place of a cookie */
    FONNALICH_NOT_TEXT = 3,            /* it isn't UTF-8 */
    FONNALICH_HOST_PREFIX = 4,         /* it is against the prefix __Host- */
    FONNALICH_NON_HTTP_SCHEME = 10,    /* it is HttpOnly, and the scheme isn't HTTP's */
    FONNALICH_NON_RELATIVE_SCHEME = 11,/* it has no domain, and the URL no host */
    FONNALICH_DOMAIN_MISMATCH = 12,    /* the URL's host doesn't domain-match */
    FONNALICH_EXPIRED = 13,            /* it is expired, and none stood in its place */
    FONNALICH_PARSE = 14,              /* it is no cookie */
    FONNALICH_PUBLIC_SUFFIX = 15,      /* its domain is a public suffix */
    /* a rule of fonnalich_rules refused it, and nothing changed */
    FONNALICH_BY_CONTROL = 20,
    FONNALICH_BY_TOO_LONG = 21,
    FONNALICH_BY_SECURE_PREFIX = 22,
    FONNALICH_BY_HOST_PREFIX = 23,
    FONNALICH_BY_SECURE_FROM_HTTP = 24,
    FONNALICH_BY_SECURE_OVERLAY = 25,
    FONNALICH_BY_LACKS_SECURE = 26,
    /* it was refused by its SameSite, and nothing changed */
    FONNALICH_BY_CROSS_SITE = 27,       /* a page of another site started the request, which navigates nothing */
    FONNALICH_BY_NONE_LACKS_SECURE = 28 /* it has SameSite=None and isn't Secure */
};

/* ---- why fonnalich_import doesn't take a line of a cookies.txt: of several causes the first. fonnalich_text says each
   in words */
enum {
    FONNALICH_ROW_TEXT = -40,      /* it isn't UTF-8 */
    FONNALICH_ROW_FIELDS = -41,    /* it has neither six nor seven fields, parted by tabs */
    FONNALICH_ROW_NO_DOMAIN = -42, /* it has no domain */
    FONNALICH_ROW_FLAG = -43,      /* one of its two flags is neither TRUE nor FALSE, in any case */
    FONNALICH_ROW_PATH = -44,      /* its path doesn't begin with '/' */
    FONNALICH_ROW_EXPIRY = -45,    /* its expiry is neither empty nor a number of seconds */
    FONNALICH_ROW_NO_NAME = -46,   /* its name is empty */
    FONNALICH_ROW_DOMAIN = -47,    /* its domain has no IDNA form, or a second dot in front */
    FONNALICH_ROW_CONTROL = -48,   /* a control character stands in its name, value, domain or path: a byte below 32 but
                                      the tab, or 127 */
    FONNALICH_ROW_PAIR = -49,      /* no Set-Cookie line gives such a name or value, as one with a semicolon, or with
                                      white space at an end */
    FONNALICH_ROW_HOST_PREFIX = -50 /* it is against the prefix __Host- */
};

/* ---- who reads a cookies.txt, as fonnalich_export is told */
enum {
    FONNALICH_FOR_CURL = 0,  /* curl, and others that read the format as it documents it */
    FONNALICH_FOR_WGET = 1,  /* wget, which takes "#HttpOnly_" for a comment: no line says that it is HttpOnly */
    FONNALICH_FOR_PYTHON = 2 /* MozillaCookieJar, which takes 0 for a second of 1970: without an expiry that is empty */
};

/* ---- the rules of user agents (the draft that follows RFC 6265, sections 5.5 to 5.7): fonnalich_rules takes a sum */
enum {
    FONNALICH_NO_RULES = 0,
    /* these refuse, the first of them that is against a line: */
    FONNALICH_RULE_CONTROL = 1,          /* one with a control character other than a tab; a header leaves out a cookie
                                            that has one in its name or value */
    FONNALICH_RULE_TOO_LONG = 2,         /* one whose name and value have over 4,096 bytes together */
    FONNALICH_RULE_SECURE_PREFIX = 4,    /* __Secure- in any case, decoded, not Secure or not from https */
    FONNALICH_RULE_HOST_PREFIX = 8,      /* __Host- in any case, decoded, not as that prefix asks, or not from https */
    FONNALICH_RULE_SECURE_FROM_HTTP = 16,/* a Secure one from a URL that isn't secure */
    FONNALICH_RULE_SECURE_OVERLAY = 32,  /* one without Secure from such a URL, over a live Secure cookie */
    /* and these change the line that the client gets: */
    FONNALICH_RULE_LONG_ATTRIBUTES = 64, /* attributes whose value has over 1,024 bytes are passed over */
    FONNALICH_RULE_DATES = 128,          /* dates are read in the forms in which servers send them */
    FONNALICH_RULE_LONG_LIVES = 256,     /* lives are cut at 400 days */
    FONNALICH_BROWSER = 511,             /* all of these */
    /* no browser's: a header leaves out what isn't Secure and has the name, decoded, of a Secure cookie in it, and one
       of SameSite=None or Partitioned that isn't Secure is refused from a URL that isn't secure; it rests on
       FONNALICH_RULE_SECURE_FROM_HTTP */
    FONNALICH_RULE_SECURE_WINS = 512,
    /* the draft's, which Firefox and Safari lack: fonnalich_header_for and fonnalich_receive_for take a cookie without
       SameSite as one with SameSite=Lax */
    FONNALICH_RULE_LAX_BY_DEFAULT = 1024,
    /* likewise: one with SameSite=None that isn't Secure is refused */
    FONNALICH_RULE_NONE_NEEDS_SECURE = 2048
};

/* ---- what starts a request, as fonnalich_header_for and fonnalich_receive_for are told */
enum {
    FONNALICH_BY_USER = 0,      /* the user, as by a typed URL or a bookmark */
    FONNALICH_BY_PAGE = 1,      /* a page, as an image of it, a script, or a form that is sent by POST */
    FONNALICH_BY_NAVIGATION = 2 /* a page, by a navigation of the top level with a safe method, as a link by GET */
};

/* ---- the words of fonnalich_act */
enum {
    FONNALICH_DO_ANSWER = 0,
    FONNALICH_DO_LIST = 1,
    FONNALICH_DO_LOAD = 2,
    FONNALICH_DO_RECEIVE = 3,
    FONNALICH_DO_HEADER = 4,
    FONNALICH_DO_SAVE = 5,
    FONNALICH_DO_RESTART = 6,
    FONNALICH_DO_RULES = 7,
    FONNALICH_DO_SAVE_ALL = 8,
    FONNALICH_DO_RELOAD = 9,
    FONNALICH_DO_COUNT = 10,
    FONNALICH_DO_COOKIES = 11,
    FONNALICH_DO_CLEAR = 12,
    FONNALICH_DO_HEADER_BY_PAGE = 13,
    FONNALICH_DO_HEADER_BY_NAVIGATION = 14,
    FONNALICH_DO_KEEP_LIST = 15,
    FONNALICH_DO_CLIENT = 16,
    FONNALICH_DO_LOAD_BY = 17,
    FONNALICH_DO_SUFFIX_BY = 18,
    FONNALICH_DO_SHARD_BY = 19,
    FONNALICH_DO_SHARD_OF_URL_BY = 20,
    FONNALICH_DO_IMPORT = 21,
    /* and these by FONNALICH_FOR_.. more: */
    FONNALICH_DO_EXPORT = 22,
    FONNALICH_DO_EXPORT_LASTING = 25
};

/* ---- the words of fonnalich_one */
enum { FONNALICH_DO_GET = 0, FONNALICH_DO_REMOVE = 1 };

/* ---- the fronts of a command's line: what is done, and the way in which the cookie is kept */
#define FONNALICH_SET "S"    /* and behind the way a Set-Cookie line, whose name and value are percent-decoded */
#define FONNALICH_REMOVE "R" /* and behind the way a name, which is percent-decoded */
#define FONNALICH_GET "G"    /* the same */
#define FONNALICH_PLAIN "0"
#define FONNALICH_HOST_WAY "1"   /* under the prefix __Host- */
#define FONNALICH_SECURE_WAY "2" /* under the prefix __Secure- */
#define FONNALICH_SIGNED "3"
#define FONNALICH_SEALED "4"
/* of fonnalich_exchange_on_ring alone: the same of a value that ends when the set cookie expires, so its line has an
   Expires, else it is refused as FONNALICH_COMMAND. From that second on it isn't read, whatever the client kept, nor is
   its text under another name. Neither form reads what the other has set, but as FONNALICH_PLAIN, by which it is the
   text. */
#define FONNALICH_SIGNED_UNTIL "5"
#define FONNALICH_SEALED_UNTIL "6"

/* ---- a cookie's attributes, but for the texts of two; a number or a text counts where its flag is set. Each bool is
   true or false before every call, so begin with {0}. */
typedef struct fonnalich_attributes {
    int64_t max_age; /* whole seconds */
    int64_t expires; /* a second since 1970 */
    bool has_max_age;
    bool has_expires;
    bool has_path;
    bool has_domain;
    bool http_only;
    bool secure;
    bool partitioned;
    uint8_t same_site; /* one of those below */
} fonnalich_attributes;

enum { FONNALICH_NO_SITE = 0, FONNALICH_STRICT = 1, FONNALICH_LAX = 2, FONNALICH_NONE = 3 };

/* ---- a cookie that a client holds. Its texts lie in the answer that it was read of, with no byte 0 behind them; the
   domain is a host's, without a leading dot, and the name and the value are as they were received. No two cookies of a
   client have the same domain, path and name. */
typedef struct fonnalich_cookie {
    const char *domain, *path, *name, *value;
    size_t domain_length, path_length, name_length, value_length;
    int64_t expires;   /* a second since 1970, where has_expires is set */
    bool has_expires;  /* else it ends with the session */
    bool host_only;    /* it is for its domain alone, and else for the hosts below it too */
    bool secure;
    bool http_only;
    bool partitioned;
    uint8_t same_site; /* one of those above */
} fonnalich_cookie;

/* How many bytes a key has, and a nonce. */
enum { FONNALICH_KEY_LENGTH = 64, FONNALICH_NONCE_LENGTH = 12 };

/* How many earlier keys a ring may have, and the end of one that counts at each moment. */
enum { FONNALICH_EARLIER_KEYS = 16 };
#define FONNALICH_NO_END INT64_MAX

#ifdef __cplusplus
extern "C" {
#endif

/* What fonnalich_text says of FONNALICH_PROCESSOR. On such a processor print this: that call may end the process. */
#define FONNALICH_PROCESSOR_TEXT "this processor lacks SSE 4.2"

/* Answers 0, or FONNALICH_PROCESSOR on a processor of x86-64 that lacks SSE 4.2, which stands for all of x86-64-v2. Ask
   it before a call that takes no handle, which would end the process there by an illegal instruction. */
FONNALICH_FORM ptrdiff_t fonnalich_processor(void) {
#if defined(__x86_64__) && defined(__GNUC__)
    uint32_t a = 1, b, c = 0, d;
    __asm__("cpuid" : "+a"(a), "=b"(b), "+c"(c), "=d"(d));
    return c >> 20 & 1 ? 0 : FONNALICH_PROCESSOR;
#else
    return 0;
#endif
}

/* Writes the version of the library, as FONNALICH_VERSION. It takes no memory and is never refused. */
ptrdiff_t fonnalich_version(char *out, size_t out_length);

/* Writes what the number of a refusal says, in English and without a full stop; nothing of another number. It takes no
   memory and is never refused. */
ptrdiff_t fonnalich_text(int64_t number, char *out, size_t out_length);

/* One exchange of a site: a session with this key on a request's Cookie header obeys the commands, lines joined by
   '\n', as FONNALICH_SET FONNALICH_SEALED "cart=3; Max-Age=60; HttpOnly". A set cookie gets Secure and Path=/;
   with a Domain, or another Path, it is refused as FONNALICH_COMMAND. A later set of its name takes its place. The
   second is the moment of removals.

   The answer has an item for each value that was read, in their order, and behind these one for each Set-Cookie line,
   in no promised order: fonnalich_next takes them out. A command that is refused refuses the call.

   Each set by FONNALICH_SEALED takes the next twelve bytes of `nonces`, which have to be random and never used before
   with this key. The call keeps nothing. Where the answer has no room, make the call again with more, and with the same
   nonces: the answer is as long then, since all but the order of its lines is the same. */
ptrdiff_t fonnalich_exchange(const char *key, size_t key_length, const char *header, size_t header_length,
                             int64_t second, const char *commands, size_t commands_length, const char *nonces,
                             size_t nonces_length, char *out, size_t out_length);

/* The same on a ring of keys, so that a key can be replaced and what the one before it signed or sealed is still read.
   `keys` has the current key and behind it at most 16 earlier ones, 64 bytes each, and `ends` for each earlier one the
   second from which it counts no more, or FONNALICH_NO_END. Its length is in numbers, not in bytes, and "" won't do
   for no number: hand in the address of one. What is set is signed or sealed by the current key; what is read is what
   the first of the keys gives that counts at the second and that signed or sealed it.

   A value that is read has two items: its own, and eight bytes of the place of its key, which is 0 for the current one,
   1 for the first of the earlier ones, and 0 in the ways without a key: fonnalich_next_placed takes both out. Where the
   place isn't 0, set the value anew. To rotate, put the new key before the others, with an end for the one that was the
   current one, and leave out those whose end is past. A set by FONNALICH_SEALED_UNTIL takes a nonce too. */
ptrdiff_t fonnalich_exchange_on_ring(const char *keys, size_t keys_length, const int64_t *ends, size_t ends_length,
                                     const char *header, size_t header_length, int64_t second, const char *commands,
                                     size_t commands_length, const char *nonces, size_t nonces_length, char *out,
                                     size_t out_length);

/* Writes the public suffix of a host by the bytes of a public suffix list, which is read anew at each call. The host is
   in IDNA ASCII form and lower case. FONNALICH_HOST where it is no name. */
ptrdiff_t fonnalich_suffix(const char *list, size_t list_length, const char *host, size_t host_length, char *out,
                           size_t out_length);

/* Writes the shard of a host by the bytes of a public suffix list, which is read anew at each call: the shortest of the
   host and the texts behind its dots that is no public suffix of the list; the whole host where each of them is one,
   and for an address. Hosts that can share a cookie have one shard, so a client may be cut into one for each shard.
   The host is that of a URL, in IDNA ASCII form and lower case. FONNALICH_HOST where it has no byte, FONNALICH_TEXT
   where it isn't UTF-8. */
ptrdiff_t fonnalich_shard(const char *list, size_t list_length, const char *host, size_t host_length, char *out,
                          size_t out_length);

/* The same of the host of a URL, as a handle reads it. FONNALICH_HOST where it has none. */
ptrdiff_t fonnalich_shard_of_url(const char *list, size_t list_length, const char *url, size_t url_length, char *out,
                                 size_t out_length);

/* Answers 1 where a text is a plain URL, which each program reads as the same web address, and 0 where it isn't, or
   FONNALICH_MEMORY. Ask it of a URL before you hand it to another program, as curl, a browser or a proxy. Programs read
   odd URLs differently: of https://shop.test\@evil.test/x this library, by the URL Standard, reads the host shop.test,
   and curl evil.test. So one would send the cookies of the one site to the other. */
ptrdiff_t fonnalich_is_plain_url(const char *url, size_t url_length);

/* Reads a cookie of a Set-Cookie line, or of a pair of a Cookie header, into its parts: writes the items of its name,
   its value, its path and its domain, and its attributes. The name and the value are percent-decoded where `decode`
   says so. Of an attribute that stands twice the last valid one counts; the domain has lost one leading dot.

   Where the items have no room, the attributes stay as they were too: make the call again with more. FONNALICH_TEXT,
   FONNALICH_PAIR or FONNALICH_EMPTY_NAME where the text is no cookie; one that isn't UTF-8 is FONNALICH_TEXT, whatever
   its name. */
ptrdiff_t fonnalich_parse(bool decode, const char *text, size_t length, fonnalich_attributes *attributes, char *out,
                          size_t out_length);

/* Writes the Set-Cookie line of these parts, its name and value percent-encoded where `encode` says so. What isn't
   encoded is written as it is, a semicolon or a line feed too. Secure is written as well where the cookie is
   partitioned, or for all sites.

   FONNALICH_TEXT where a text that counts isn't UTF-8, FONNALICH_SITE and FONNALICH_MOMENT where same_site or expires
   is no number of its kind. */
ptrdiff_t fonnalich_print(bool encode, const fonnalich_attributes *attributes, const char *name, size_t name_length,
                          const char *value, size_t value_length, const char *path, size_t path_length,
                          const char *domain, size_t domain_length, char *out, size_t out_length);

/* Takes the first item out of an answer that lies from *at to `end`: its text, and its length, or -1 where the text
   isn't there, as of a cookie that the header hasn't, or that isn't by this key: *text has no byte then. Answers 0
   where no item is left, and where one is cut off. */
FONNALICH_FORM int fonnalich_next(const char **at, const char *end, const char **text, ptrdiff_t *length) {
    uint64_t bytes = 0;
    if (end - *at < 8)
        return 0;
    for (int i = 8; i-- > 0;)
        bytes = bytes << 8 | (unsigned char)(*at)[i];
    if (bytes != UINT64_MAX && bytes > (uint64_t)(end - *at - 8))
        return 0;
    *text = *at + 8;
    *length = bytes == UINT64_MAX ? -1 : (ptrdiff_t)bytes;
    *at = *text + (*length < 0 ? 0 : *length);
    return 1;
}

/* Takes a value and the place of its key out of an answer of fonnalich_exchange_on_ring, as fonnalich_next takes an
   item. Where *length is -1 there is no value, and *place is 0. */
FONNALICH_FORM int fonnalich_next_placed(const char **at, const char *end, const char **text, ptrdiff_t *length,
                                         size_t *place) {
    const char *bytes;
    ptrdiff_t count;
    *place = 0;
    if (!fonnalich_next(at, end, text, length) || !fonnalich_next(at, end, &bytes, &count))
        return 0;
    for (ptrdiff_t i = count; i-- > 0;)
        *place = *place << 8 | (unsigned char)bytes[i];
    return 1;
}

/* What became of the lines of a cookies.txt that are neither blank nor comments. */
typedef struct fonnalich_imported {
    size_t taken;
    size_t expired; /* these are passed over */
    size_t refused;
} fonnalich_imported;

/* Reads an eight-byte number, the lowest byte first. */
FONNALICH_FORM uint64_t fonnalich_number(const char *bytes) {
    uint64_t number = 0;
    for (int i = 8; i-- > 0;)
        number = number << 8 | (unsigned char)bytes[i];
    return number;
}

/* Takes the counts out of an answer of fonnalich_import that lies from *at to `end`. Answers 0 where there are none. */
FONNALICH_FORM int fonnalich_counts(const char **at, const char *end, fonnalich_imported *counts) {
    if (end - *at < 16)
        return 0;
    size_t lines = (size_t)fonnalich_number(*at);
    counts->taken = (size_t)fonnalich_number(*at + 8);
    *at += 16;
    counts->refused = (size_t)(end - *at) / 9;
    counts->expired = lines - counts->taken - counts->refused;
    return 1;
}

/* Takes the first refused line out of what is left of it: its number, counted from 1, and why it was, FONNALICH_ROW_..
   Answers 0 where none is left. */
FONNALICH_FORM int fonnalich_next_refused(const char **at, const char *end, size_t *line, ptrdiff_t *cause) {
    if (end - *at < 9)
        return 0;
    *line = (size_t)fonnalich_number(*at);
    *cause = -(ptrdiff_t)(unsigned char)(*at)[8];
    *at += 9;
    return 1;
}

/* How many bytes a handle takes. */
size_t fonnalich_size(void);

/* Begins a handle of fonnalich_size bytes. It takes no memory and is never refused. */
void fonnalich_place(fonnalich *at);

/* Begins a handle, and answers 0. It takes no memory. No handle is begun where it answers FONNALICH_PROCESSOR, or
   FONNALICH_HANDLE, as of a program that was compiled by another version of this file. */
FONNALICH_FORM ptrdiff_t fonnalich_begin(fonnalich *at) {
    if (fonnalich_processor() < 0)
        return FONNALICH_PROCESSOR;
    if (fonnalich_size() > sizeof *at)
        return FONNALICH_HANDLE;
    fonnalich_place(at);
    return 0;
}

/* Does what a word says; the functions below are its forms. The number is a second, or the rules. */
ptrdiff_t fonnalich_act(fonnalich *at, uint32_t word, int64_t number, const char *subject, size_t subject_length,
                        const char *text, size_t text_length, char *out, size_t out_length);

/* Does what a word says with the cookie of this domain, path and name. */
ptrdiff_t fonnalich_one(fonnalich *at, uint32_t word, int64_t second, const char *domain, size_t domain_length,
                        const char *path, size_t path_length, const char *name, size_t name_length, char *out,
                        size_t out_length);

/* Takes the Set-Cookie lines of an answer as fonnalich_receive does, where it is said what started its request,
   FONNALICH_BY_..: `page` is the URL of the document at the top of the frames, where the one that starts the request
   and each above it are of one site with it; else `data:,`, as for a frame of ads.com in a page of shop.com. It isn't
   looked at for FONNALICH_BY_USER. Where it is of another site, and but for FONNALICH_BY_NAVIGATION, the answer sets no
   cookie whose SameSite is Strict or Lax (the draft that follows RFC 6265, section 5.7). Here FONNALICH_BY_NAVIGATION
   is any navigation of the top level, as a form that is sent by POST too.
   Without rules none is on. FONNALICH_WORD where it is started by none of the three. */
ptrdiff_t fonnalich_receive_for(fonnalich *at, uint32_t started, int64_t second, const char *url, size_t url_length,
                                const char *page, size_t page_length, const char *lines, size_t lines_length, char *out,
                                size_t out_length);

/* Has a handle keep the list that another handle keeps, and answers 0: they share its rules, which are given back with
   the last handle and the last client that has them. The call uses both handles, which are two, and takes no memory.
   What is shared is counted by atomic instructions and else only read: afterwards each of the handles may be used on a
   thread of its own. FONNALICH_NO_LIST where the other keeps none. */
ptrdiff_t fonnalich_share(fonnalich *at, fonnalich *other);

/* Ends a handle and gives all memory back, but for a list that another shares. */
void fonnalich_end(fonnalich *at);

/* Whether a text is the name of a file, as suffixes.dat or My Lists/suffixes.dat, which could be a rule: one line that
   ends in .dat or .txt, the case of letters and white space around it aside, and up to its first white space, where a
   rule ends, has letters, digits, dots and hyphens alone. White space is that of ASCII, and each byte past ASCII counts
   as a letter. */
FONNALICH_FORM int fonnalich_names_file(const char *text, size_t length) {
    while (length > 0 && (*text == ' ' || (*text >= '\t' && *text <= '\r')))
        text++, length--;
    while (length > 0 && (text[length - 1] == ' ' || (text[length - 1] >= '\t' && text[length - 1] <= '\r')))
        length--;
    if (length < 4)
        return 0;
    int is_behind = 0;
    for (size_t i = 0; i < length - 4; i++) {
        char it = text[i];
        int is_letter = (it >= 'a' && it <= 'z') || (it >= 'A' && it <= 'Z') || (unsigned char)it >= 0x80;
        int is_of_rule = is_letter || (it >= '0' && it <= '9') || it == '.' || it == '-';
        is_behind = is_behind || it == ' ' || (it >= '\t' && it <= '\r');
        if (it == '\n' || it == '\0' || !(is_of_rule || is_behind))
            return 0;
    }
    /* (0x20 is what a small letter has beside its capital) */
    char end[3] = {(char)(text[length - 3] | 0x20), (char)(text[length - 2] | 0x20), (char)(text[length - 1] | 0x20)};
    return text[length - 4] == '.' && ((end[0] == 'd' && end[1] == 'a' && end[2] == 't') ||
                                       (end[0] == 't' && end[1] == 'x' && end[2] == 't'));
}

/* A client without a cookie, by the bytes of a public suffix list, in place of the one that was there. Answers 0. The
   list is the text of a file, and not its name: suffixes.dat would be a rule, by which a site sets cookies for
   Domain=com. So what fonnalich_names_file takes for one is FONNALICH_NO_RULE here, by fonnalich_load and by
   fonnalich_keep_list; another with a slash or an underscore is no list, so FONNALICH_LIST. To the words of
   fonnalich_act the first is a rule, and to fonnalich_suffix and fonnalich_shard, which keep nothing. */
FONNALICH_FORM ptrdiff_t fonnalich_list(fonnalich *at, const char *list, size_t list_length) {
    char none;
    if (fonnalich_names_file(list, list_length))
        return FONNALICH_NO_RULE;
    return fonnalich_act(at, FONNALICH_DO_LIST, 0, "", 0, list, list_length, &none, 0);
}

/* The same with the cookies of a saved text that aren't expired at this second. Answers 0. */
FONNALICH_FORM ptrdiff_t fonnalich_load(fonnalich *at, int64_t second, const char *saved, size_t saved_length,
                                       const char *list, size_t list_length) {
    char none;
    if (fonnalich_names_file(list, list_length))
        return FONNALICH_NO_RULE;
    return fonnalich_act(at, FONNALICH_DO_LOAD, second, saved, saved_length, list, list_length, &none, 0);
}

/* Has a handle keep the list of these bytes, in place of the one that was there, and answers 0. Others may get it by
   fonnalich_share, and clients by fonnalich_client and fonnalich_load_by: so a list is read once and lies in memory
   once, however many clients have it. What client the handle has stays as it is. */
FONNALICH_FORM ptrdiff_t fonnalich_keep_list(fonnalich *at, const char *list, size_t list_length) {
    char none;
    if (fonnalich_names_file(list, list_length))
        return FONNALICH_NO_RULE;
    return fonnalich_act(at, FONNALICH_DO_KEEP_LIST, 0, "", 0, list, list_length, &none, 0);
}

/* A client without a cookie, by the list that another handle keeps, or this one, in place of the one that was there.
   Answers 0. */
FONNALICH_FORM ptrdiff_t fonnalich_client(fonnalich *at, fonnalich *list) {
    char none;
    ptrdiff_t number = at == list ? 0 : fonnalich_share(at, list);
    return number < 0 ? number : fonnalich_act(at, FONNALICH_DO_CLIENT, 0, "", 0, "", 0, &none, 0);
}

/* The same with the cookies of a saved text that aren't expired at this second. Answers 0. Where the second or that
   text is refused, the handle keeps the list all the same. */
FONNALICH_FORM ptrdiff_t fonnalich_load_by(fonnalich *at, fonnalich *list, int64_t second, const char *saved,
                                          size_t saved_length) {
    char none;
    ptrdiff_t number = at == list ? 0 : fonnalich_share(at, list);
    return number < 0 ? number : fonnalich_act(at, FONNALICH_DO_LOAD_BY, second, saved, saved_length, "", 0, &none, 0);
}

/* What fonnalich_suffix, fonnalich_shard and fonnalich_shard_of_url write, by the list that a handle keeps, which isn't
   read again. */
FONNALICH_FORM ptrdiff_t fonnalich_suffix_by(fonnalich *list, const char *host, size_t host_length, char *out,
                                            size_t out_length) {
    return fonnalich_act(list, FONNALICH_DO_SUFFIX_BY, 0, host, host_length, "", 0, out, out_length);
}

FONNALICH_FORM ptrdiff_t fonnalich_shard_by(fonnalich *list, const char *host, size_t host_length, char *out,
                                           size_t out_length) {
    return fonnalich_act(list, FONNALICH_DO_SHARD_BY, 0, host, host_length, "", 0, out, out_length);
}

FONNALICH_FORM ptrdiff_t fonnalich_shard_of_url_by(fonnalich *list, const char *url, size_t url_length, char *out,
                                                  size_t out_length) {
    return fonnalich_act(list, FONNALICH_DO_SHARD_OF_URL_BY, 0, url, url_length, "", 0, out, out_length);
}

/* Puts lines that come later behind these rules, a sum of FONNALICH_RULE_.., or behind none. A handle begins behind
   FONNALICH_BROWSER, and keeps its rules whatever client it gets. They judge no cookie that is there, or is loaded, but
   in headers. Answers 0. */
FONNALICH_FORM ptrdiff_t fonnalich_rules(fonnalich *at, int64_t rules) {
    char none;
    return fonnalich_act(at, FONNALICH_DO_RULES, rules, "", 0, "", 0, &none, 0);
}

/* Takes the Set-Cookie lines of an answer from this URL, joined by '\n', and writes a byte for each: what became of it.
   An empty text has no line: so one empty line alone, which is no cookie, is told 0 outcomes. Behind a last '\n' stands
   one more line, which is empty: FONNALICH_PARSE. A '\r' before the '\n' is one of the line's bytes: it is trimmed as
   white space, but FONNALICH_RULE_CONTROL refuses the line. So join lines by '\n' alone, and end none by it.
   FONNALICH_STOPPED - n says that memory was refused at line n, counted from 1: those before it were taken, and no
   later one; at 0 none was. */
FONNALICH_FORM ptrdiff_t fonnalich_receive(fonnalich *at, int64_t second, const char *url, size_t url_length,
                                          const char *lines, size_t lines_length, char *out, size_t out_length) {
    return fonnalich_act(at, FONNALICH_DO_RECEIVE, second, url, url_length, lines, lines_length, out, out_length);
}

/* Writes the Cookie header of a request to this URL; where the answer is 0, the request has none. It is one line: it
   has no byte below 32 but the tab, and no 127. Behind FONNALICH_RULE_CONTROL a cookie that would put one there is left
   out. Without that rule it is FONNALICH_LINE, which a neighbour's line can bring about, as x=^A; Domain=shop.com. */
FONNALICH_FORM ptrdiff_t fonnalich_header(fonnalich *at, int64_t second, const char *url, size_t url_length, char *out,
                                         size_t out_length) {
    return fonnalich_act(at, FONNALICH_DO_HEADER, second, url, url_length, "", 0, out, out_length);
}

/* The same of a request that is started so, FONNALICH_BY_..: `page` is the URL of the document at the top of the
   frames, where the one that starts the request and each above it are of one site with it; else `data:,`, as for a
   frame of ads.com in a page of shop.com. It isn't looked at for FONNALICH_BY_USER. Where it is of another site, the
   header leaves out the cookies whose SameSite is Strict, and but for FONNALICH_BY_NAVIGATION those whose is Lax (the
   draft that follows RFC 6265, section 5.8.3). Here a form that is sent by POST is FONNALICH_BY_PAGE, at the top level
   too. A site is a scheme and a registrable domain by the client's list. FONNALICH_WORD where it is started by none of
   the three. */
FONNALICH_FORM ptrdiff_t fonnalich_header_for(fonnalich *at, int64_t second, const char *url, size_t url_length,
                                             uint32_t started, const char *page, size_t page_length, char *out,
                                             size_t out_length) {
    uint32_t word = UINT32_MAX;
    if (started == FONNALICH_BY_USER)
        word = FONNALICH_DO_HEADER;
    else if (started == FONNALICH_BY_PAGE)
        word = FONNALICH_DO_HEADER_BY_PAGE;
    else if (started == FONNALICH_BY_NAVIGATION)
        word = FONNALICH_DO_HEADER_BY_NAVIGATION;
    return fonnalich_act(at, word, second, url, url_length, page, page_length, out, out_length);
}

/* Writes the saved text of the cookies that have an expiry and aren't expired at this second. */
FONNALICH_FORM ptrdiff_t fonnalich_save(fonnalich *at, int64_t second, char *out, size_t out_length) {
    return fonnalich_act(at, FONNALICH_DO_SAVE, second, "", 0, "", 0, out, out_length);
}

/* Writes the saved text of all cookies, expired ones and those without an expiry too. */
FONNALICH_FORM ptrdiff_t fonnalich_save_all(fonnalich *at, char *out, size_t out_length) {
    return fonnalich_act(at, FONNALICH_DO_SAVE_ALL, 0, "", 0, "", 0, out, out_length);
}

/* Puts all cookies of a saved text in the place of those that are there, expired ones too. The list and the rules stay,
   and nothing is read but the text: so it is quick beside fonnalich_load. Answers 0. */
FONNALICH_FORM ptrdiff_t fonnalich_reload(fonnalich *at, const char *saved, size_t saved_length) {
    char none;
    return fonnalich_act(at, FONNALICH_DO_RELOAD, 0, saved, saved_length, "", 0, &none, 0);
}

/* Puts the cookies of a cookies.txt, Netscape's form that curl, wget and Python share, into the client, and writes what
   became of its lines: fonnalich_counts takes the numbers out, and fonnalich_next_refused the lines that were refused.
   Each line is read by itself. One that is expired at this second is passed over; the others are put in one after
   another, and of two of one domain, path and name the later takes the place of the earlier, as of those that the
   client holds. Neither the suffix list nor the rules judge a line: so of a file that isn't trusted they don't keep a
   cookie of Domain=com out. Blank lines and comments are passed over, and "#HttpOnly_" before a domain is none. It
   takes a copy of what the client holds.
   Where the answer is longer than `out`, the lines are taken all the same: fonnalich_answer hands it out, and to call
   this again would import them again. */
FONNALICH_FORM ptrdiff_t fonnalich_import(fonnalich *at, int64_t second, const char *text, size_t text_length,
                                          char *out, size_t out_length) {
    return fonnalich_act(at, FONNALICH_DO_IMPORT, second, "", 0, text, text_length, out, out_length);
}

/* Writes the cookies that the client holds and that aren't expired at this second as a cookies.txt for this reader,
   FONNALICH_FOR_..; without `sessions` those are left out that end with the session. So are those that no line can
   hold, as one with a tab in its value. FONNALICH_WORD where the reader is none of the three. */
FONNALICH_FORM ptrdiff_t fonnalich_export(fonnalich *at, int64_t second, uint32_t reader, bool sessions, char *out,
                                          size_t out_length) {
    uint32_t word = reader > FONNALICH_FOR_PYTHON ? UINT32_MAX
                    : sessions                    ? FONNALICH_DO_EXPORT + reader
                                                  : FONNALICH_DO_EXPORT_LASTING + reader;
    return fonnalich_act(at, word, second, "", 0, "", 0, out, out_length);
}

/* Answers how many cookies the client holds that aren't expired at this second. */
FONNALICH_FORM ptrdiff_t fonnalich_count(fonnalich *at, int64_t second) {
    unsigned char bytes[8];
    ptrdiff_t count = fonnalich_act(at, FONNALICH_DO_COUNT, second, "", 0, "", 0, (char *)bytes, sizeof bytes);
    if (count < 0)
        return count;
    count = 0;
    for (int i = 8; i-- > 0;)
        count = count << 8 | bytes[i];
    return count;
}

/* Writes the cookies that the client holds and that aren't expired at this second: fonnalich_next_cookie takes them
   out. */
FONNALICH_FORM ptrdiff_t fonnalich_cookies(fonnalich *at, int64_t second, char *out, size_t out_length) {
    return fonnalich_act(at, FONNALICH_DO_COOKIES, second, "", 0, "", 0, out, out_length);
}

/* Writes the cookie of this domain, path and name, where the client holds one that isn't expired at this second:
   fonnalich_next_cookie takes it out. Else it answers 0. FONNALICH_TEXT where one of the three isn't UTF-8. */
FONNALICH_FORM ptrdiff_t fonnalich_get(fonnalich *at, int64_t second, const char *domain, size_t domain_length,
                                       const char *path, size_t path_length, const char *name, size_t name_length,
                                       char *out, size_t out_length) {
    return fonnalich_one(at, FONNALICH_DO_GET, second, domain, domain_length, path, path_length, name, name_length, out,
                         out_length);
}

/* Takes the cookie of this domain, path and name out of the client. Answers 1, or 0 where it holds none. An expired one
   that it still keeps counts too. What it took out fonnalich_answer then hands out, for fonnalich_next_cookie. */
FONNALICH_FORM ptrdiff_t fonnalich_remove(fonnalich *at, const char *domain, size_t domain_length, const char *path,
                                          size_t path_length, const char *name, size_t name_length) {
    char none;
    ptrdiff_t length = fonnalich_one(at, FONNALICH_DO_REMOVE, 0, domain, domain_length, path, path_length, name,
                                     name_length, &none, 0);
    return length > 0 ? 1 : length;
}

/* Takes all cookies out of the client; the list stays. Answers 0. */
FONNALICH_FORM ptrdiff_t fonnalich_clear(fonnalich *at) {
    char none;
    return fonnalich_act(at, FONNALICH_DO_CLEAR, 0, "", 0, "", 0, &none, 0);
}

/* Takes the first cookie out of an answer that lies from *at to `end`. Answers 0 where none is left. */
FONNALICH_FORM int fonnalich_next_cookie(const char **at, const char *end, fonnalich_cookie *cookie) {
    const char *text[6];
    ptrdiff_t length[6];
    uint64_t second = 0;
    for (int i = 0; i < 6; i++)
        if (!fonnalich_next(at, end, &text[i], &length[i]) || length[i] < 0)
            return 0;
    if (length[4] != 8 || length[5] < 6)
        return 0;
    const char *flags = text[5];
    for (int i = 8; i-- > 0;)
        second = second << 8 | (unsigned char)text[4][i];
    cookie->domain = text[0], cookie->domain_length = (size_t)length[0];
    cookie->path = text[1], cookie->path_length = (size_t)length[1];
    cookie->name = text[2], cookie->name_length = (size_t)length[2];
    cookie->value = text[3], cookie->value_length = (size_t)length[3];
    cookie->expires = (int64_t)second;
    cookie->has_expires = flags[0], cookie->host_only = flags[1], cookie->secure = flags[2];
    cookie->http_only = flags[3], cookie->partitioned = flags[4], cookie->same_site = (uint8_t)flags[5];
    return 1;
}

/* Keeps what saving and loading at this second keeps: it ends the session cookies. Answers 0. */
FONNALICH_FORM ptrdiff_t fonnalich_restart(fonnalich *at, int64_t second) {
    char none;
    return fonnalich_act(at, FONNALICH_DO_RESTART, second, "", 0, "", 0, &none, 0);
}

/* Hands out the last answer that had no room, without doing the work again; 0 where there is none. It is kept until it
   is handed out with room for all of it, or another call by the handle but fonnalich_share isn't refused:
   fonnalich_list, _load, _rules, _restart, _clear, _keep_list and _client drop it too, and so does _remove, which keeps
   what it takes out. */
FONNALICH_FORM ptrdiff_t fonnalich_answer(fonnalich *at, char *out, size_t out_length) {
    return fonnalich_act(at, FONNALICH_DO_ANSWER, 0, "", 0, "", 0, out, out_length);
}

FONNALICH_FORM void fonnalich_free(fonnalich *at) {
    fonnalich_end(at);
}

#ifdef __cplusplus
}
#endif
#endif

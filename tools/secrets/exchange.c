/* Exchanges by a key of which nothing is known, and by a ring of such keys. With the word `counts` it has callgrind
   write down how many instructions readings take whose codes, or whose sealed texts, are wrong at one place. */
#include "fonnalich.h"
#include "secrets.h"

static const char *VALUES[] = {"3", "a text of 41 bytes, so of two blocks more"};
enum { VALUES_COUNT = 2 };

/* A moment, and a cookie's attribute by which its value ends an hour later. */
enum { NOW = 1700000000, HOUR = 3600 };
#define UNTIL "; Expires=Tue, 14 Nov 2023 23:13:20 GMT"

/* A ring of keys, and behind it one that isn't in it. */
enum { KEYS = 3 };
static const int64_t ends[KEYS - 1] = {FONNALICH_NO_END, NOW + 2 * HOUR};
static char ring[KEYS + 1][FONNALICH_KEY_LENGTH];

static char key[FONNALICH_KEY_LENGTH], nonces[FONNALICH_NONCE_LENGTH];
/* The answer of the last exchange, and the item at its front. */
static char out[1024];
static const char *item;
static ptrdiff_t item_length;

/* Takes the item at the front of an answer, of which all is told. */
static void tell(ptrdiff_t length) {
    PUBLIC(length);
    PUBLIC(out);
    const char *at = out;
    demand(length > 0 && length <= (ptrdiff_t)sizeof out, "an exchange");
    demand(fonnalich_next(&at, out + length, &item, &item_length), "an exchange");
}

/* Makes an exchange by `key`, or on so many keys of the ring. */
static void ask(const char *keys, size_t count, int64_t second, const char *header, const char *commands) {
    size_t length = strlen(header), more = strlen(commands);
    if (keys == key)
        tell(fonnalich_exchange(key, sizeof key, header, length, second, commands, more, nonces, sizeof nonces, out,
                                sizeof out));
    else
        tell(fonnalich_exchange_on_ring(keys, count * FONNALICH_KEY_LENGTH, ends, count - 1, header, length, second,
                                        commands, more, nonces, sizeof nonces, out, sizeof out));
}

static void set(const char *keys, size_t count, char way, const char *value) {
    char command[128];
    snprintf(command, sizeof command, FONNALICH_SET "%cuser=%s%s", way, value, keys == key ? "" : UNTIL);
    ask(keys, count, NOW, "", command);
}

static void get(const char *keys, size_t count, int64_t second, char way, const char *header) {
    char command[] = FONNALICH_GET "-user";
    command[1] = way;
    ask(keys, count, second, header, command);
}

/* The header that brings back what the line at the front of the answer sets, not escaped. */
static const char *brought_back(void) {
    static char header[512];
    char *to = header;
    for (const char *at = item; *at != ';'; at++) {
        unsigned byte = (unsigned char)*at;
        if (*at == '%' && sscanf(at + 1, "%2x", &byte) == 1)
            at += 2;
        *to++ = (char)byte;
    }
    *to = 0;
    return header;
}

/* The header that brings a value back, made by a key of which all is known. */
static const char *header_of(const char *by, char way, const char *value) {
    PUBLIC(key);
    PUBLIC(ring);
    set(by, 1, way, value);
    SECRET(key);
    SECRET(ring);
    return brought_back();
}

static const char *LETTERS = "ABCDEFGHIJKLMNOPQRSTUVWXYZabcdefghijklmnopqrstuvwxyz0123456789+/";

/* A character of base64 in which one bit of four is another one: a letter for a letter and a digit for a digit, where
   there is one, since whoever reads a header may take them in different ways. */
static char another(char letter) {
    ptrdiff_t at = strchr(LETTERS, letter) - LETTERS;
    for (int bit = 4; bit < 64; bit *= 2)
        if ((at < 52) == ((at ^ bit) < 52) && (at ^ bit) < 62)
            return LETTERS[at ^ bit];
    return LETTERS[at ^ 4];
}

/* The header with one bit changed of what stands at a place of the base64, counted from its end where it is below 0. */
static const char *wrong(char way, const char *value, int place) {
    static char header[512];
    strcpy(header, header_of(key, way, value));
    char *text = header + strlen("user="), *at = place < 0 ? strchr(text, 0) + place : text + place;
    while (*at == '=')
        at--;
    *at = another(*at);
    return header;
}

static int is_read(const char *value) {
    return item_length == (ptrdiff_t)strlen(value) && memcmp(item, value, strlen(value)) == 0;
}

static void sets(const char *keys, char way) {
    for (int i = 0; i < VALUES_COUNT; i++)
        set(keys, KEYS, way, VALUES[i]);
}

/* (a key is a ring of one: an opening has three verdicts, as below) */
static void reads(char way) {
    for (int i = 0; i < VALUES_COUNT; i++) {
        verdicts += 3;
        get(key, 1, NOW, way, header_of(key, way, VALUES[i]));
        demand(is_read(VALUES[i]), "a reading");
    }
}

static void reads_wrong(char way, const int *places, int count) {
    for (int i = 0; i < count; i++) {
        verdicts += 2;
        get(key, 1, NOW, way, wrong(way, VALUES[i % VALUES_COUNT], places[i]));
        demand(item_length < 0, "a wrong reading");
    }
}

/* The first, a middle and the last byte of a code, and the value. */
static const int CODES[] = {0, 21, 42, 44};
/* Those of a nonce and of the text's beginning, and of the tag. */
static const int SEALINGS[] = {0, 15, 16, -20, -11, -1};
#define COUNT(places) (int)(sizeof(places) / sizeof *(places))

/* Reads what the key of a place made. There is a verdict for each key of the ring, and one whether there is a value; of
   an opening the compiler asks for that of each key where it is kept, too. */
static void read_until(char way, size_t place, int64_t second) {
    const char *value = VALUES[place % VALUES_COUNT];
    verdicts += (way == *FONNALICH_SEALED_UNTIL ? 2 * KEYS : KEYS) + 1;
    get(ring[0], KEYS, second, way, header_of(ring[place], way, value));
    int is_wanted = place < KEYS && second < NOW + HOUR;
    demand(is_wanted ? is_read(value) : item_length < 0, "a reading of a value that ends");
}

/* What each key made, before its end and from then on, and what another one did. */
static void reads_until(char way) {
    for (size_t place = 0; place <= KEYS; place++) {
        read_until(way, place, NOW + HOUR - 1);
        read_until(way, place, NOW + HOUR);
    }
}

/* (of a reading of a signed value that is right memcheck tells wherever its value goes, since the compiler takes that
   by the verdict, and not by a branch: text_verified_under_ring of calls.c looks at it) */
#define LOOKS(X) \
    X(sets_signed, sets(key, *FONNALICH_SIGNED)) \
    X(sets_sealed, sets(key, *FONNALICH_SEALED)) \
    X(reads_wrong_signed, reads_wrong(*FONNALICH_SIGNED, CODES, COUNT(CODES))) \
    X(reads_sealed, reads(*FONNALICH_SEALED)) \
    X(reads_wrong_sealed, reads_wrong(*FONNALICH_SEALED, SEALINGS, COUNT(SEALINGS))) \
    X(sets_signed_until, sets(ring[0], *FONNALICH_SIGNED_UNTIL)) \
    X(sets_sealed_until, sets(ring[0], *FONNALICH_SEALED_UNTIL)) \
    X(reads_wrong_signed_until, read_until(*FONNALICH_SIGNED_UNTIL, KEYS, NOW)) \
    X(reads_sealed_until, reads_until(*FONNALICH_SEALED_UNTIL))
LOOKS(DEFINED)

/* Has callgrind write down what a reading takes that is wrong at a place, where it is to be kept. */
static void count(char way, int place, int is_kept) {
    char header[512], name[32];
    strcpy(header, wrong(way, VALUES[1], place));
    snprintf(name, sizeof name, "%s %d", way == *FONNALICH_SIGNED ? "signed" : "sealed", place);
    get(key, 1, NOW, way, header);
    CALLGRIND_ZERO_STATS;
    get(key, 1, NOW, way, header);
    if (is_kept)
        CALLGRIND_DUMP_STATS_AT(name);
}

static void counts(void) {
    count(*FONNALICH_SIGNED, 1, 0);
    count(*FONNALICH_SEALED, 1, 0);
    for (int place = 0; place < 43; place += 2)
        count(*FONNALICH_SIGNED, place, 1);
    for (int i = 0; i < COUNT(SEALINGS); i++)
        count(*FONNALICH_SEALED, SEALINGS[i], 1);
}

int main(int count, char **words) {
    for (int i = 0; i < FONNALICH_KEY_LENGTH; i++)
        key[i] = (char)(7 * i + 1);
    for (size_t i = 0; i <= KEYS; i++)
        memset(ring[i], (int)i + 1, sizeof ring[i]);
    for (int i = 0; i < FONNALICH_NONCE_LENGTH; i++)
        nonces[i] = (char)(11 * i + 3);
    bool is_look = count > 1 && strcmp(words[1], "counts") != 0;
    if (is_look) {
        SECRET(key);
        SECRET(ring);
    }
    TAKE_ALL(LOOKS, count, words, counts)
    return 0;
}

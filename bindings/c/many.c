/* Hands the library a thousand times what a visit does: 100,000 lines at once, their header, a saved text of megabytes,
   an exchange of as many commands, and values of a megabyte under 17 keys. Each must end as one of a few does. */
#include "fonnalich.h"
#include <stdio.h>
#include <stdlib.h>
#include <string.h>

#define T(text) (text), strlen(text)

enum { MANY = 100000, ROOM = 64 << 20, COMMANDS = 20000 };
static const char *LIST = "com\norg\n*.ck\n", *URL = "https://example.com/";
static const int64_t NOW = 1700000000;
static int failures;

static void ask(int holds, const char *what) {
    if (!holds) {
        failures++;
        printf("not so: %s\n", what);
    }
}

static char *room(void) {
    char *found = malloc(ROOM);
    if (!found)
        exit(3);
    return found;
}

/* MANY texts, by this format of their number, joined by `between`. */
static size_t joined(char *to, int many, const char *format, const char *between) {
    size_t used = 0;
    for (int i = 0; i < many; i++) {
        used += sprintf(to + used, "%s", i ? between : "");
        used += sprintf(to + used, format, i, i);
    }
    return used;
}

static int is_each(const char *out, ptrdiff_t length, int number) {
    ptrdiff_t i = 0;
    while (i < length && out[i] == number)
        i++;
    return i == MANY && length == MANY;
}

/* Whether the client holds each of MANY cookies, in their order, by its number in the name and the value. */
static int holds_each(fonnalich *at, char *out) {
    fonnalich_cookie cookie;
    ptrdiff_t number = fonnalich_cookies(at, NOW, out, ROOM), i = 0;
    const char *next = out;
    char name[16];
    if (number <= 0 || number > ROOM)
        return 0;
    for (; fonnalich_next_cookie(&next, out + number, &cookie); i++) {
        size_t length = sprintf(name, "n%d", (int)i);
        if (cookie.name_length != length || memcmp(cookie.name, name, length) || cookie.value_length != length - 1
            || memcmp(cookie.value, name + 1, length - 1) || !cookie.has_expires || cookie.expires != NOW + 60)
            return 0;
    }
    return i == MANY && next == out + number && fonnalich_count(at, NOW) == MANY;
}

static void takes_many_lines(int64_t rules) {
    char *lines = room(), *header = room(), *out = room(), *saved = room();
    size_t length = joined(lines, MANY, "n%d=%d; Path=/; Max-Age=60", "\n");
    size_t header_length = joined(header, MANY, "n%d=%d", "; ");
    fonnalich at, other;
    fonnalich_begin(&at);
    fonnalich_begin(&other);
    ask(fonnalich_rules(&at, rules) == 0 && fonnalich_list(&at, T(LIST)) == 0, "a list");
    ptrdiff_t number = fonnalich_receive(&at, NOW, T(URL), lines, length, out, ROOM);
    ask(is_each(out, number, FONNALICH_INSERTED), "each line is a new cookie");
    number = fonnalich_header(&at, NOW, T(URL), out, ROOM);
    ask(number == (ptrdiff_t)header_length && !memcmp(out, header, header_length), "the header has each of them");
    ptrdiff_t saved_length = fonnalich_save(&at, NOW, saved, ROOM);
    ask(saved_length > 4 << 20 && saved_length <= ROOM, "a saved text of megabytes");
    ask(fonnalich_load(&other, NOW + 1, saved, saved_length, T(LIST)) == 0, "it is loaded");
    number = fonnalich_header(&other, NOW + 1, T(URL), out, ROOM);
    ask(number == (ptrdiff_t)header_length && !memcmp(out, header, header_length), "with each of them");
    number = fonnalich_receive(&at, NOW, T(URL), lines, length, out, ROOM);
    ask(is_each(out, number, FONNALICH_UPDATED_EXISTING), "each line takes the place of one");
    ask(holds_each(&at, out), "it tells each of them");
    ask(fonnalich_get(&at, NOW, T("example.com"), T("/"), T("n99999"), out, ROOM) > 0, "the last one by its key");
    ask(fonnalich_remove(&other, T("example.com"), T("/"), T("n50000")) == 1, "one in the middle is removed");
    ask(fonnalich_count(&other, NOW) == MANY - 1 && fonnalich_clear(&other) == 0, "it alone, then all");
    ask(fonnalich_count(&other, NOW) == 0, "none is left");
    ask(fonnalich_restart(&at, NOW) == 0, "a restart");
    number = fonnalich_header(&at, NOW + 60, T(URL), out, ROOM);
    ask(number == 0, "all of them end");
    fonnalich_free(&other);
    fonnalich_free(&at);
    free(lines), free(header), free(out), free(saved);
}

/* Rows of a cookies.txt: each is taken, or tells why it isn't, and what is written of them is taken again. */
static void takes_many_rows(void) {
    char *rows = room(), *out = room(), *text = room();
    size_t length = joined(rows, MANY, "example.com\tFALSE\t/\tFALSE\t1700000060\tn%d\t%d\n", "");
    fonnalich at, other;
    fonnalich_imported done;
    fonnalich_begin(&at);
    fonnalich_begin(&other);
    ask(fonnalich_list(&at, T(LIST)) == 0 && fonnalich_list(&other, T(LIST)) == 0, "a list");
    const char *next = out;
    ptrdiff_t number = fonnalich_import(&at, NOW, rows, length, out, ROOM);
    ask(number == 16 && fonnalich_counts(&next, out + number, &done) && done.taken == MANY, "each row is taken");
    ask(holds_each(&at, out), "it tells each of them");
    ptrdiff_t text_length = fonnalich_export(&at, NOW, FONNALICH_FOR_CURL, true, text, ROOM);
    ask(text_length > (ptrdiff_t)length && text_length <= ROOM, "each has a line");
    number = fonnalich_import(&other, NOW, text, text_length, out, ROOM);
    ask(number == 16 && holds_each(&other, out), "and is taken again");
    number = fonnalich_import(&other, NOW, text, text_length, out, ROOM);
    ask(number == 16 && holds_each(&other, out), "in its own place");
    next = out;
    number = fonnalich_import(&at, NOW + 60, rows, length, out, ROOM);
    ask(number == 16 && fonnalich_counts(&next, out + number, &done) && done.expired == MANY, "all of them end");
    length = joined(rows, MANY, "no row %d", "\n");
    number = fonnalich_import(&at, NOW, rows, length, out, ROOM);
    next = out;
    ask(number == 16 + 9 * MANY && fonnalich_counts(&next, out + number, &done), "each line is told");
    size_t line, last = 0;
    ptrdiff_t cause;
    while (fonnalich_next_refused(&next, out + number, &line, &cause))
        last += line == last + 1 && cause == FONNALICH_ROW_FIELDS;
    ask(last == MANY, "by its number and its cause");
    fonnalich_free(&other);
    fonnalich_free(&at);
    free(rows), free(out), free(text);
}

static void obeys_many_commands(void) {
    static const char key[FONNALICH_KEY_LENGTH];
    char *header = room(), *commands = room(), *out = room();
    size_t header_length = joined(header, COMMANDS, "n%d=%d", "; "), length = joined(commands, COMMANDS, "G0n%d", "\n");
    commands[length++] = '\n';
    length += joined(commands + length, COMMANDS, "S0m%d=%d", "\n");
    ptrdiff_t number = fonnalich_exchange(key, sizeof key, header, header_length, NOW, commands, length, "", 0, out,
                                          ROOM);
    ask(number > 0 && number <= ROOM, "an exchange of many commands");
    const char *at = out, *text;
    ptrdiff_t text_length;
    char wanted[16];
    int items = 0, read = 0;
    while (fonnalich_next(&at, out + number, &text, &text_length)) {
        int is = sprintf(wanted, "%d", items++);
        read += items <= COMMANDS && text_length == is && !memcmp(text, wanted, is);
    }
    ask(read == COMMANDS && items == 2 * COMMANDS, "each value is read, and each cookie has a line");
    free(header), free(commands), free(out);
}

/* A value of a megabyte in each mode, under a key and sixteen earlier ones: it is set and read. */
static void obeys_under_many_keys(void) {
    enum { KEYS = 17, LONG = 1000000, TWELVE = 12 };
    static char keys[KEYS * FONNALICH_KEY_LENGTH], nonces[TWELVE], commands[2 * LONG];
    static int64_t ends[KEYS - 1];
    char *out = room(), *value = malloc(LONG);
    if (!value)
        exit(3);
    memset(value, 'v', LONG);
    for (int i = 0; i < KEYS; i++)
        memset(keys + i * FONNALICH_KEY_LENGTH, i, FONNALICH_KEY_LENGTH);
    for (int i = 0; i < KEYS - 1; i++)
        ends[i] = FONNALICH_NO_END;
    for (const char *mode = "0123456"; *mode; mode++) {
        size_t length = sprintf(commands, "S%ca=%.*s; Expires=Tue, 14 Nov 2023 22:43:20 GMT\nG%ca", *mode, LONG, value,
                                *mode);
        ptrdiff_t number = fonnalich_exchange_on_ring(keys, sizeof keys, ends, KEYS - 1, "", 0, NOW, commands, length,
                                                      nonces, sizeof nonces, out, ROOM);
        const char *at = out, *text;
        ptrdiff_t text_length;
        size_t place;
        ask(number > LONG && number <= ROOM, "an exchange of a long value under many keys");
        int is_read = fonnalich_next_placed(&at, out + number, &text, &text_length, &place);
        ask(is_read && text_length == LONG && !memcmp(text, value, LONG), "it is read");
    }
    free(value), free(out);
}

int main(void) {
    takes_many_lines(FONNALICH_NO_RULES);
    takes_many_lines(FONNALICH_BROWSER);
    takes_many_rows();
    obeys_many_commands();
    obeys_under_many_keys();
    printf("%s\n", failures ? "not as of a few" : "as of a few");
    return failures != 0;
}

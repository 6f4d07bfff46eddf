/* Counts the bytes that the library holds, by its own calls of malloc, realloc and free: a handle, and a call without
   one, hold some while they work, and give all back. Built with KEEPS, the end of a handle gives nothing back, and this
   must tell so. */
#include "fonnalich.h"
#include <stdio.h>
#include <stdlib.h>
#include <string.h>

/* ---- what is held: each block begins with its length */

enum { FRONT = 16 };

static size_t held, most;
static long grown;

void *__real_malloc(size_t size);
void *__real_realloc(void *old, size_t size);
void __real_free(void *old);

static void *counted(char *block, size_t size) {
    if (!block)
        return NULL;
    memcpy(block, &size, sizeof size);
    held += size;
    grown++;
    most = held > most ? held : most;
    return block + FRONT;
}

static char *uncounted(void *old) {
    size_t size;
    char *block = (char *)old - FRONT;
    memcpy(&size, block, sizeof size);
    held -= size;
    return block;
}

void *__wrap_malloc(size_t size) {
    return counted(__real_malloc(size + FRONT), size);
}

void *__wrap_realloc(void *old, size_t size) {
    return counted(__real_realloc(old ? uncounted(old) : NULL, size + FRONT), size);
}

void __wrap_free(void *old) {
    if (old)
        __real_free(uncounted(old));
}

#ifdef KEEPS
void __wrap_fonnalich_end(fonnalich *at) {
    (void)at;
}
#endif

/* ---- what is asked */

#define T(text) (text), strlen(text)

static int failures;

static void ask(int holds, const char *what) {
    if (!holds) {
        failures++;
        printf("not so (%zu bytes held, %zu at most): %s\n", held, most, what);
    }
}

static const char *LIST = "com\norg\n*.ck\n", *URL = "https://example.com/";
static const int64_t NOW = 1700000000;
enum { ROWS = 100, VALUE = 64 };
static char lines[ROWS * (VALUE + 40)], out[1 << 16], saved[1 << 16];

/* What each step of a client leaves held. */
static void is_a_client(void) {
    fonnalich at, other;
    size_t begun = held, used = 0;
    for (int i = 0; i < ROWS; i++)
        used += snprintf(lines + used, sizeof lines - used, "%sn%d=%0*d; Max-Age=60", i ? "\n" : "", i, VALUE, i);
    fonnalich_begin(&at);
    ask(held == begun, "a handle begins without memory");
    ask(fonnalich_list(&at, T(LIST)) == 0 && held > begun, "a list is held");
    size_t listed = held;
    ask(fonnalich_receive(&at, NOW, T(URL), lines, used, out, sizeof out) == ROWS, "lines are taken");
    ask(held >= listed + ROWS * VALUE, "their values are held");
    size_t full = held;
    ptrdiff_t length = fonnalich_header(&at, NOW, T(URL), out, sizeof out);
    ask(length > ROWS * VALUE, "a header");
    ask(fonnalich_header(&at, NOW, T(URL), out, 1) == length && held >= full + length, "one without room is kept");
    ask(fonnalich_answer(&at, out, sizeof out) == length, "it is handed out");
    length = fonnalich_cookies(&at, NOW, out, 1);
    ask(length > ROWS * VALUE && held >= full + length, "its cookies, without room");
    ask(fonnalich_count(&at, NOW) == ROWS && held < full + length, "their number drops them");
    ask(fonnalich_remove(&at, T("example.com"), T("/"), T("n7")) == 1, "a cookie is removed");
    ask(fonnalich_count(&at, NOW) == ROWS - 1 && held <= full, "and given back");
    ask(fonnalich_receive(&at, NOW, T(URL), T("n7=7; Max-Age=60"), out, sizeof out) == 1, "it is set anew");
    length = fonnalich_save(&at, NOW, saved, sizeof saved);
    ask(length > 0 && length <= (ptrdiff_t)sizeof saved, "a saved text");
    fonnalich_begin(&other);
    size_t one = held;
    ask(fonnalich_load(&other, NOW, saved, length, T(LIST)) == 0 && held >= one + ROWS * VALUE, "another is loaded");
    fonnalich_free(&other);
    ask(held == one, "its end gives all of it back");
    ask(fonnalich_load(&at, NOW + 61, saved, length, T(LIST)) == 0 && held < full, "a replaced client is given back");
    ask(fonnalich_load(&at, NOW, saved, length, "a..b", 4) == FONNALICH_LIST && held < full, "a refusal holds nothing");
    ask(fonnalich_receive(&at, NOW, T(URL), lines, used, out, sizeof out) == ROWS, "lines are taken again");
    ask(held > listed + ROWS * VALUE, "their values are held again");
    size_t again = held;
    ask(fonnalich_receive_for(&at, FONNALICH_BY_PAGE, NOW, T(URL), T("https://evil.org/"), T("n7=7; SameSite=Lax"), out,
                              sizeof out) == 1 && out[0] == FONNALICH_BY_CROSS_SITE && held <= again,
        "a line that is kept out, and its page, hold nothing");
    length = fonnalich_export(&at, NOW, FONNALICH_FOR_CURL, true, saved, sizeof saved);
    ask(length > ROWS * VALUE && length <= (ptrdiff_t)sizeof saved, "a cookies.txt");
    ask(fonnalich_clear(&at) == 0 && held < listed + ROWS * VALUE, "cleared cookies are given back");
    size_t cleared = held;
    ask(fonnalich_import(&at, NOW, saved, length, out, sizeof out) == 16 && held >= cleared + ROWS * VALUE,
        "those of a cookies.txt are held");
    size_t imported = held;
    ask(fonnalich_import(&at, NOW, saved, length, out, sizeof out) == 16 && held <= imported, "once");
    ask(fonnalich_clear(&at) == 0 && held < listed + ROWS * VALUE, "and are given back");
    fonnalich_free(&at);
    ask(held == begun, "the end gives all back");
}

/* A list that clients share is held once, and as long as one of them has it. */
static void is_a_shared_list(void) {
    enum { CLIENTS = 100 };
    static fonnalich clients[CLIENTS];
    fonnalich list;
    size_t begun = held;
    fonnalich_begin(&list);
    ask(fonnalich_keep_list(&list, T(LIST)) == 0 && held > begun, "a list is held");
    size_t one = held;
    for (int i = 0; i < CLIENTS; i++) {
        fonnalich_begin(&clients[i]);
        ask(fonnalich_client(&clients[i], &list) == 0, "a client by it");
    }
    ask(held == one, "which takes no memory");
    most = held;
    ask(fonnalich_suffix_by(&list, T("a.com"), out, sizeof out) == 3 && most < one + 64, "a suffix by it");
    fonnalich_free(&list);
    ask(held == one, "the list stays");
    for (int i = 0; i < CLIENTS; i++)
        fonnalich_free(&clients[i]);
    ask(held == begun, "the last client gives it back");
}

/* What calls without a handle hold while they work, and leave. */
static void is_a_site(void) {
    static const char key[FONNALICH_KEY_LENGTH], nonces[FONNALICH_NONCE_LENGTH];
    static const char *commands = "S3user=ann\nS4cart=3; HttpOnly\nG4cart\nR0theme";
    fonnalich_attributes parts = {0};
    size_t begun = held;
    most = held;
    ptrdiff_t length = fonnalich_exchange(key, sizeof key, T("theme=dark"), NOW, T(commands), nonces, sizeof nonces,
                                          out, sizeof out);
    ask(length > 0 && most > begun && held == begun, "an exchange");
    ask(fonnalich_exchange(key, sizeof key, T("theme=dark"), NOW, T("S4a=1\nS4b=1"), nonces, sizeof nonces, out,
                           sizeof out) == FONNALICH_NONCES && held == begun, "one that is refused");
    most = held;
    static const char ring[2 * FONNALICH_KEY_LENGTH];
    const int64_t end = NOW + 60;
    const char *turned = "S5user=ann; Expires=Tue, 14 Nov 2023 22:43:20 GMT\nG5user\nG4cart\nS4cart=3";
    length = fonnalich_exchange_on_ring(ring, sizeof ring, &end, 1, T("cart=x"), NOW, T(turned), nonces,
                                        sizeof nonces, out, sizeof out);
    ask(length > 0 && most > begun && held == begun, "an exchange on a ring");
    ask(fonnalich_exchange_on_ring(ring, sizeof ring, &end, 1, T("cart=x"), NOW, T("S4a=1\nS4b=1"), nonces,
                                   sizeof nonces, out, sizeof out) == FONNALICH_NONCES && held == begun,
        "one that is refused");
    most = held;
    ask(fonnalich_suffix(T(LIST), T("a.com"), out, sizeof out) == 3 && most > begun && held == begun, "a suffix");
    most = held;
    ask(fonnalich_shard(T(LIST), T("a.com"), out, sizeof out) == 5 && most > begun && held == begun, "a shard");
    most = held;
    ask(fonnalich_shard_of_url(T(LIST), T("https://a.com/"), out, sizeof out) == 5 && most > begun && held == begun,
        "a shard of a URL");
    most = held;
    ask(fonnalich_parse(true, T("a%20b=3%204; Path=/"), &parts, out, sizeof out) > 0 && most > begun && held == begun,
        "a cookie's parts");
    most = held;
    ask(fonnalich_print(true, &parts, T("a b"), T("3 4"), T("/"), "", 0, out, sizeof out) > 0 && most > begun
        && held == begun, "a cookie of its parts");
    most = held;
    ask(fonnalich_is_plain_url(T(URL)) == 1 && most > begun && held == begun, "a plain URL");
}

int main(void) {
    for (int i = 0; i < 3; i++) {
        is_a_client();
        is_a_shared_list();
        is_a_site();
    }
    printf("%s\n", held ? "bytes are held at the end" : "nothing is held at the end");
    return failures || held || !grown;
}

/* The blocks in C of bindings/README.md, as they stand there, each in a function of its own. */
#include "fonnalich.h"
#include <stdio.h>
#include <stdlib.h>
#include <string.h>

static const char *list = "com\norg\n", *url = "https://shop.com/", *page = "https://other.org/";
static const char *lines = "cart=3; Secure; SameSite=None; Max-Age=60\nuser=ann; Path=/; SameSite=Lax; Max-Age=60";
static const char *line = "cart=3%204; Domain=shop.com; HttpOnly; Max-Age=60";
static const int64_t second = 1700000000, next_week = 1700000000 + 7 * 24 * 3600;
static size_t list_length, url_length, page_length, lines_length, line_length, header_length;
static char header[1024], out[1024], longer[1024], ends[2], keys[2 * FONNALICH_KEY_LENGTH];
static const char *key = keys, *nonces = "a nonce, once";
/* The client of the blocks that begin none. */
static fonnalich client;

/* How many bytes of a text are told: of a sealed value those of its nonce alone. */
static int most = 1024;

static int refused(void) {
    puts("refused");
    return 1;
}

static void use(const char *text, ptrdiff_t length) {
    printf("%.*s\n", length < most ? (int)length : most, text);
}

static void no_such_cookie(void) {
    puts("no such cookie");
}

static void set_anew(void) {
    puts("by an earlier key");
}

static void told(size_t row, ptrdiff_t cause) {
    char text[256];
    ptrdiff_t length = fonnalich_text(cause, text, sizeof text);
    printf("row %zu: %.*s\n", row, (int)length, text);
}

static int of_one_client(void) {
    /* README: bindings/README.md c 1 */
    return 0;
}

static int of_a_shared_list(void) {
    /* README: bindings/README.md c 2 */
    printf("%td cookies\n", fonnalich_count(&client, second));
    fonnalich_free(&client);
    return 0;
}

static int of_a_site(void) {
    most = (int)strlen("cart=") + 4 * FONNALICH_NONCE_LENGTH / 3;
    const char *text;
    ptrdiff_t text_length;
    /* README: bindings/README.md c 3 */
    most = 1024;
    return 0;
}

/* Puts into the header what a site set by the earlier key. */
static void set_by_the_earlier_key(void) {
    const char *command = FONNALICH_SET FONNALICH_SEALED_UNTIL "user=ann; Expires=Tue, 15 Nov 2033 12:00:00 GMT";
    const char *at = out, *text;
    int64_t none;
    ptrdiff_t text_length;
    ptrdiff_t length = fonnalich_exchange_on_ring(keys + FONNALICH_KEY_LENGTH, FONNALICH_KEY_LENGTH, &none, 0, "", 0,
                                                  second, command, strlen(command), nonces, FONNALICH_NONCE_LENGTH,
                                                  out, sizeof out);
    if (length > 0 && fonnalich_next(&at, out + length, &text, &text_length))
        header_length = (size_t)snprintf(header, sizeof header, "%.*s", (int)strcspn(text, ";"), text);
}

static int of_a_ring(void) {
    const char *text;
    ptrdiff_t text_length;
    size_t place;
    set_by_the_earlier_key();
    /* README: bindings/README.md c 4 */
    return 0;
}

static int of_a_cookie(void) {
    /* README: bindings/README.md c 5 */
    use(longer, all);
    return 0;
}

static int of_a_page(void) {
    ptrdiff_t length, count;
    /* README: bindings/README.md c 6 */
    use(header, length);
    /* README: bindings/README.md c 7 */
    printf("%td lines: %d, %d\n", count, ends[0], ends[1]);
    return 0;
}

static int of_what_is_held(void) {
    ptrdiff_t length;
    /* README: bindings/README.md c 8 */
    printf("%td cookies\n", fonnalich_count(&client, second));
    return fonnalich_clear(&client) < 0;
}

/* With room for no refused line, so that the answer is fetched. */
static int of_cookies_txt(const char *text, size_t text_length) {
    char out[20];
    ptrdiff_t length;
    /* README: bindings/README.md c 9 */
    printf("%zu taken, %zu refused\n", done.taken, done.refused);
    if (fonnalich_answer(&client, longer, sizeof longer) != length)
        return refused();
    use(longer, length);
    return 0;
}

int main(void) {
    const char *rows = "shop.com\tFALSE\t/\tFALSE\t0\tcart\t3\nshop.com\tFALSE\t/\tFALSE\t0\n";
    list_length = strlen(list), url_length = strlen(url), page_length = strlen(page);
    lines_length = strlen(lines), line_length = strlen(line);
    memset(keys, 'n', FONNALICH_KEY_LENGTH);
    if (fonnalich_begin(&client) < 0 || fonnalich_list(&client, list, list_length) < 0)
        return refused();
    fonnalich_receive(&client, second, url, url_length, lines, lines_length, ends, sizeof ends);
    int failed = of_one_client() || of_a_shared_list() || of_a_site() || of_a_ring() || of_a_cookie() || of_a_page() ||
                 of_what_is_held() || of_cookies_txt(rows, strlen(rows));
    fonnalich_free(&client);
    return failed;
}

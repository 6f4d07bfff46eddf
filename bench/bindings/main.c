// Times a handle's calls beside the client's own, and a site's exchange.
#include <stdint.h>
#include <stdio.h>
#include <stdlib.h>
#include <string.h>
#include "fonnalich.h"
#include "../time.h"

size_t bench_client(const char *list, size_t list_length, const char *url, size_t url_length, const char *lines,
                    size_t lines_length, const char *line, size_t line_length, int64_t second, uint64_t receives,
                    uint64_t headers);

#define T(text) (text), strlen(text)
#define TIMES 1000

static const char *LIST = "com\norg\n*.ck\n", *URL = "https://www.shop.com/cart/list";
static const char *OTHER = "https://www.shop.com/cart/last";
static const char *LINE = "user=ann; Path=/; Secure; HttpOnly; Max-Age=3600";
static const char *NO_COOKIE = "user";
static const int64_t NOW = 1700000000;
static char lines[100 * 64], out[8192];
static fonnalich at;

static void some(ptrdiff_t answer) {
    if (answer <= 0) {
        fprintf(stderr, "refused: %td\n", answer);
        exit(1);
    }
}

static void receive_once(void) {
    some(fonnalich_receive(&at, NOW, T(URL), T(LINE), out, sizeof out));
}

// What a handle does beside its client: the client's own part is least here.
static void refuse_once(void) {
    some(fonnalich_receive(&at, NOW, T(URL), T(NO_COOKIE), out, sizeof out));
}

static void header_once(void) {
    some(fonnalich_header(&at, NOW, T(URL), out, sizeof out));
}

// A handle keeps its last URL parsed, so calls of these parse theirs.
static const char *other_url(void) {
    static int turn;
    return turn++ % 2 ? OTHER : URL;
}

static void receive_elsewhere(void) {
    const char *url = other_url();
    some(fonnalich_receive(&at, NOW, T(url), T(LINE), out, sizeof out));
}

static void header_elsewhere(void) {
    const char *url = other_url();
    some(fonnalich_header(&at, NOW, T(url), out, sizeof out));
}

static void none(void) {
    some(bench_client(T(LIST), T(URL), T(lines), T(LINE), NOW, 1, 1));
}

static void own_receives(void) {
    some(bench_client(T(LIST), T(URL), T(lines), T(LINE), NOW, TIMES + 1, 1));
}

static void own_refusals(void) {
    some(bench_client(T(LIST), T(URL), T(lines), T(NO_COOKIE), NOW, TIMES + 1, 1));
}

static void own_headers(void) {
    some(bench_client(T(LIST), T(URL), T(lines), T(LINE), NOW, 1, TIMES + 1));
}

// What a call of many takes, by what one of a single call takes.
static double each(void (*many)(void)) {
    return (least_time(many) - least_time(none)) / TIMES;
}

static const char key[FONNALICH_KEY_LENGTH], nonces[FONNALICH_NONCE_LENGTH];
static const char *commands;
static char header[512];

static void exchange_once(void) {
    some(fonnalich_exchange(key, sizeof key, T(header), NOW, T(commands), nonces, sizeof nonces, out, sizeof out));
}

static void time_client(int rows) {
    char name[64];
    *lines = 0;
    for (int i = 0; i < rows; i++)
        sprintf(lines + strlen(lines), "%sn%d=0123456789; Domain=shop.com; Path=%s", i ? "\n" : "", i,
                i < 4 ? "/" : "/other");
    fonnalich_begin(&at);
    if (fonnalich_list(&at, T(LIST)) < 0)
        exit(1);
    some(fonnalich_receive(&at, NOW, T(URL), T(lines), out, sizeof out));
    receive_once();
    double receive = least_time(receive_once), header = least_time(header_once);
    double own_receive = each(own_receives), own_header = each(own_headers);
    snprintf(name, sizeof name, "receive, %d rows", rows);
    report(name, 0, receive);
    snprintf(name, sizeof name, "the client's own: %.2f times", receive / own_receive);
    report(name, 0, own_receive);
    report("at another URL each time", 0, least_time(receive_elsewhere));
    report("a line that is no cookie", 0, least_time(refuse_once));
    report("the client's own", 0, each(own_refusals));
    snprintf(name, sizeof name, "header, %d rows", rows);
    report(name, 0, header);
    snprintf(name, sizeof name, "the client's own: %.2f times", header / own_header);
    report(name, 0, own_header);
    report("at another URL each time", 0, least_time(header_elsewhere));
    fonnalich_free(&at);
}

int main(void) {
    time_client(10);
    time_client(100);
    commands = "S4cart=0123456789abcdef";
    report("a cookie is sealed", 0, least_time(exchange_once));
    some(fonnalich_exchange(key, sizeof key, "", 0, NOW, T(commands), nonces, sizeof nonces, out, sizeof out));
    memcpy(header, out + 8, strcspn(out + 8, ";"));
    commands = "G4cart";
    report("it is read", 0, least_time(exchange_once));
    commands = "G4cart\nS4cart=0123456789abcdef";
    report("it is read and sealed anew", 0, least_time(exchange_once));
    return 0;
}

// Times parsing and printing of five lines of Set-Cookie.
#include <stdint.h>
#include <stdio.h>
#include <stdlib.h>
#include <string.h>
#include "../time.h"

size_t bench_parse(const uint8_t *line, size_t len);
size_t bench_parse_encoded(const uint8_t *line, size_t len);
size_t bench_parse_and_print(const uint8_t *line, size_t len);
size_t bench_parse_and_encode(const uint8_t *line, size_t len);
size_t bench_print(const uint8_t *line, size_t len, size_t times);
size_t bench_encode(const uint8_t *line, size_t len, size_t times);

static const char *const lines[] = {
    "foo=bar",
    "id=a3fWa; Path=/; Secure",
    "SID=31d4d96e407aad42; Path=/; Secure; HttpOnly; SameSite=Lax",
    "lang=en-US; Path=/docs; Domain=example.com; Max-Age=2592000; Secure; HttpOnly; SameSite=Strict",
    "session=eyJhbGciOiJIUzI1NiJ9.e30.Zm9v; Path=/account; Domain=.shop.example.com; "
    "Expires=Wed, 21 Oct 2026 07:28:00 GMT; Max-Age=86400; Secure; HttpOnly",
};

static const char *line;
static size_t length;

static void some(size_t answer) {
    if (answer == 0) {
        fprintf(stderr, "no cookie: %s\n", line);
        exit(1);
    }
}

static void parse_once(void) {
    some(bench_parse((const uint8_t *)line, length));
}

static void parse_encoded_once(void) {
    some(bench_parse_encoded((const uint8_t *)line, length));
}

static void parse_and_print_once(void) {
    some(bench_parse_and_print((const uint8_t *)line, length));
}

static void parse_and_encode_once(void) {
    some(bench_parse_and_encode((const uint8_t *)line, length));
}

// A text is read once in a call, and printed so many times.
enum { TIMES = 100 };

static void print_once(void) {
    some(bench_print((const uint8_t *)line, length, TIMES));
}

static void encode_once(void) {
    some(bench_encode((const uint8_t *)line, length, TIMES));
}

int main(void) {
    for (size_t i = 0; i < sizeof lines / sizeof *lines; i++) {
        line = lines[i];
        length = strlen(line);
        char name[40];
        snprintf(name, sizeof name, "parse %zu bytes", length);
        report(name, length, least_time(parse_once));
        snprintf(name, sizeof name, "parse encoded %zu bytes", length);
        report(name, length, least_time(parse_encoded_once));
        snprintf(name, sizeof name, "parse and print %zu bytes", length);
        report(name, length, least_time(parse_and_print_once));
        snprintf(name, sizeof name, "parse and encode %zu bytes", length);
        report(name, length, least_time(parse_and_encode_once));
        snprintf(name, sizeof name, "print %zu bytes", length);
        report(name, length, least_time(print_once) / TIMES);
        snprintf(name, sizeof name, "encode %zu bytes", length);
        report(name, length, least_time(encode_once) / TIMES);
    }
}

// Times reading of lists of rows, and writing by itself, in RON and in JSON.
#include <stdint.h>
#include <stdio.h>
#include <stdlib.h>
#include <string.h>
#include "../time.h"

size_t bench_read_ron(const uint8_t *text, size_t len);
size_t bench_write_ron(const uint8_t *text, size_t len, size_t times);
size_t bench_read_json(const uint8_t *text, size_t len);
size_t bench_write_json(const uint8_t *text, size_t len, size_t times);

static const char ron_row[] =
    "    (\n        raw_cookie: \"name=value; Secure; Path=/; Max-Age=3600\",\n        path: (\"/\", true),\n"
    "        domain: HostOnly(\"shop.example.com\"),\n        expires: AtUtc(\"2024-01-01T01:00:00Z\"),\n    ),\n";

static const char json_row[] =
    "  {\n    \"raw_cookie\": \"name=value; Secure; Path=/; Max-Age=3600\",\n    \"path\": [\n      \"/\",\n"
    "      true\n    ],\n    \"domain\": {\n      \"HostOnly\": \"shop.example.com\"\n    },\n"
    "    \"expires\": {\n      \"AtUtc\": \"2024-01-01T01:00:00Z\"\n    }\n  }";

static char *text;
static size_t length;
static size_t rows;
static size_t writes;

static void same(size_t answer, size_t wanted) {
    if (answer != wanted) {
        fprintf(stderr, "%zu in the place of %zu\n", answer, wanted);
        exit(1);
    }
}

static void read_ron(void) {
    same(bench_read_ron((const uint8_t *)text, length), rows);
}

static void write_ron(void) {
    same(bench_write_ron((const uint8_t *)text, length, writes), length);
}

static void read_json(void) {
    same(bench_read_json((const uint8_t *)text, length), rows);
}

static void write_json(void) {
    same(bench_write_json((const uint8_t *)text, length, writes), length);
}

// The list of so many equal rows, in the layout in which it is written.
static void make(const char *row, const char *between, const char *end) {
    size_t most = 2 + rows * (strlen(row) + strlen(between)) + strlen(end) + 1;
    text = realloc(text, most);
    if (text == NULL) {
        exit(1);
    }
    char *at = text;
    at += sprintf(at, "[\n");
    for (size_t i = 0; i < rows; i++) {
        at += sprintf(at, "%s%s", i == 0 ? "" : between, row);
    }
    at += sprintf(at, "%s", end);
    length = (size_t)(at - text);
}

static void times(const char *what, void (*call)(void)) {
    char name[48];
    snprintf(name, sizeof name, "%s %zu rows", what, rows);
    report(name, length, least_time(call));
}

// The time of one writing: rows are read once in a call, and written once, or MORE times more.
enum { MORE = 8 };

static void times_written(const char *what, void (*call)(void)) {
    char name[48];
    snprintf(name, sizeof name, "%s %zu rows", what, rows);
    writes = 1;
    double once = least_time(call);
    writes = 1 + MORE;
    report(name, length, (least_time(call) - once) / MORE);
}

int main(void) {
    for (rows = 1000; rows <= 100000; rows *= 10) {
        make(ron_row, "", "]\n");
        times("RON: read", read_ron);
        times_written("RON: write", write_ron);
        make(json_row, ",\n", "\n]\n");
        times("JSON: read", read_json);
        times_written("JSON: write", write_json);
    }
}

// Times sealing and opening, in registers and by tables, and HMAC of texts of three lengths.
#include <stdbool.h>
#include <stdint.h>
#include <stdio.h>
#include <stdlib.h>
#include <string.h>
#include "../time.h"

bool bench_seal(const uint8_t *key, size_t key_len, const uint8_t *nonce, size_t nonce_len,
                const uint8_t *aad, size_t aad_len, uint8_t *text, size_t text_len,
                uint8_t *tag, size_t tag_len);
bool bench_open(const uint8_t *key, size_t key_len, const uint8_t *nonce, size_t nonce_len,
                const uint8_t *aad, size_t aad_len, uint8_t *text, size_t text_len,
                const uint8_t *tag, size_t tag_len);
bool bench_seal_by_tables(const uint8_t *key, size_t key_len, const uint8_t *nonce, size_t nonce_len,
                          const uint8_t *aad, size_t aad_len, uint8_t *text, size_t text_len,
                          uint8_t *tag, size_t tag_len);
bool bench_open_by_tables(const uint8_t *key, size_t key_len, const uint8_t *nonce, size_t nonce_len,
                          const uint8_t *aad, size_t aad_len, uint8_t *text, size_t text_len,
                          const uint8_t *tag, size_t tag_len);
bool bench_hmac(const uint8_t *key, size_t key_len, const uint8_t *text, size_t text_len,
                uint8_t *code, size_t code_len);

static uint8_t key[32], nonce[12], tag[16], code[32];
static const uint8_t aad[4] = "name";
static uint8_t plain[65536], sealed[65536], work[65536];
static size_t length;

static void check(bool good) {
    if (!good) {
        fprintf(stderr, "a call answered wrongly\n");
        exit(1);
    }
}

static void seal_once(void) {
    memcpy(work, plain, length);
    check(bench_seal(key, sizeof key, nonce, sizeof nonce, aad, sizeof aad, work, length, tag, sizeof tag));
}

static void open_once(void) {
    memcpy(work, sealed, length);
    check(bench_open(key, sizeof key, nonce, sizeof nonce, aad, sizeof aad, work, length, tag, sizeof tag));
}

static void seal_by_tables_once(void) {
    memcpy(work, plain, length);
    check(bench_seal_by_tables(key, sizeof key, nonce, sizeof nonce, aad, sizeof aad, work, length, tag, sizeof tag));
}

static void open_by_tables_once(void) {
    memcpy(work, sealed, length);
    check(bench_open_by_tables(key, sizeof key, nonce, sizeof nonce, aad, sizeof aad, work, length, tag, sizeof tag));
}

static void hmac_once(void) {
    check(bench_hmac(key, sizeof key, plain, length, code, sizeof code));
}

int main(void) {
    memset(key, 7, sizeof key);
    memset(nonce, 9, sizeof nonce);
    for (size_t i = 0; i < sizeof plain; i++) plain[i] = (uint8_t)(i * 31 + 5);
    const size_t lengths[] = {16, 1024, 65536};
    for (size_t i = 0; i < 3; i++) {
        length = lengths[i];
        seal_once();
        memcpy(sealed, work, length);
        open_once();
        check(memcmp(work, plain, length) == 0);
        open_by_tables_once();
        check(memcmp(work, plain, length) == 0);
        char name[40];
        snprintf(name, sizeof name, "seal %zu bytes", length);
        report(name, length, least_time(seal_once));
        snprintf(name, sizeof name, "open %zu bytes", length);
        report(name, length, least_time(open_once));
        snprintf(name, sizeof name, "seal %zu bytes by tables", length);
        report(name, length, least_time(seal_by_tables_once));
        snprintf(name, sizeof name, "open %zu bytes by tables", length);
        report(name, length, least_time(open_by_tables_once));
        snprintf(name, sizeof name, "hmac %zu bytes", length);
        report(name, length, least_time(hmac_once));
    }
}

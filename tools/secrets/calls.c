/* The calls of tools/measured/secrets.rt.txt, where of no argument anything is known but its length. With the word
   `counts` callgrind counts the instructions of readings under a ring, by the key that made what is read. */
#include "secrets.h"

/* A text with its length, as the library takes it. */
#define TEXT(name) const uint8_t *name, size_t name##_length
#define ALL(bytes) bytes, sizeof bytes

bool derive_key(TEXT(master_key), uint8_t *key);
bool same_keys(TEXT(a), TEXT(b));
void sign(TEXT(key), TEXT(text), uint8_t *code);
size_t sign_value(TEXT(key), TEXT(value), uint8_t *out, size_t out_length);
size_t seal_value(TEXT(key), TEXT(name), TEXT(value), uint8_t *out, size_t out_length);
size_t verify_under_ring(TEXT(keys), TEXT(text));
size_t open_under_ring(TEXT(keys), TEXT(name), TEXT(text));
bool seal_text(const uint8_t *key, const uint8_t *nonce, TEXT(aad), uint8_t *text, size_t text_length, uint8_t *tag);
bool open_text(const uint8_t *key, const uint8_t *nonce, TEXT(aad), uint8_t *text, size_t text_length,
               const uint8_t *tag);
bool ends_early(const uint8_t *a, const uint8_t *b);
uint8_t looks_up(const uint8_t *table, uint8_t key);
void branches(const uint8_t *h, const uint8_t *block, uint8_t *product);
void masks(const uint8_t *h, const uint8_t *block, uint8_t *product);

static uint8_t master[40], key[64], other_key[64], nonce[12], name[20], text[41], sealed[41], tag[16], code[32];
static uint8_t other_code[32], table[256], h[16], block[16], product[16];

/* A ring of keys one behind another, and one more key that isn't in it. */
enum { KEYS = 5, NONE = 99 };
static uint8_t keys[KEYS + 1][64], ring[KEYS * 64], made[256];

/* Makes a key and a sealed text, of which all is known. */
static void prepare(void) {
    demand(derive_key(ALL(master), key), "derive_key");
    for (size_t i = 0; i <= KEYS; i++)
        memset(keys[i], (int)i + 1, sizeof keys[i]);
    memcpy(sealed, text, sizeof text);
    demand(seal_text(key, nonce, ALL(name), ALL(sealed), tag), "seal_text");
}

/* An answer that is told. */
static void answers(bool given, bool wanted, const char *what) {
    PUBLIC(given);
    demand(given == wanted, what);
}

static void derives(void) {
    SECRET(master);
    answers(derive_key(ALL(master), key), true, "derive_key");
}

static void compares(void) {
    for (int i = 0; i < 2; i++) {
        memcpy(other_key, key, sizeof key);
        other_key[63] ^= (uint8_t)i;
        SECRET(key);
        SECRET(other_key);
        answers(same_keys(ALL(key), ALL(other_key)), !i, "same_keys");
    }
}

static void signs(void) {
    SECRET(key);
    SECRET(text);
    sign(ALL(key), ALL(text), code);
}

static size_t made_by(const uint8_t *by, bool is_sealed) {
    return is_sealed ? seal_value(by, 64, ALL(name), ALL(text), ALL(made)) : sign_value(by, 64, ALL(text), ALL(made));
}

static size_t read_under_ring(bool is_sealed, size_t length) {
    return is_sealed ? open_under_ring(ALL(ring), ALL(name), made, length)
                     : verify_under_ring(ALL(ring), made, length);
}

/* What each key of the ring made, and at last what another one did. There is a verdict for each key, and one whether
   there is a value; the compiler asks for that of an opening where it is kept, too. */
static void reads_under_ring(bool is_sealed) {
    for (size_t i = 0; i <= KEYS; i++) {
        size_t length = made_by(keys[i], is_sealed);
        demand(length > 0, "a value");
        memcpy(ring, keys, sizeof ring);
        SECRET(ring);
        size_t place = read_under_ring(is_sealed, length);
        verdicts += (is_sealed ? 2 * KEYS : KEYS) + 1;
        PUBLIC(place);
        demand(place == (i < KEYS ? i : NONE), "a reading under a ring");
    }
}

static void seals(void) {
    SECRET(key);
    SECRET(nonce);
    SECRET(name);
    SECRET(text);
    answers(seal_text(key, nonce, ALL(name), ALL(text), tag), true, "seal_text");
}

static void opens(void) {
    for (int i = 0; i < 2; i++) {
        memcpy(text, sealed, sizeof sealed);
        tag[15] ^= (uint8_t)i;
        SECRET(key);
        SECRET(nonce);
        SECRET(name);
        SECRET(text);
        SECRET(tag);
        verdicts++;
        answers(open_text(key, nonce, ALL(name), ALL(text), tag), !i, "open_text");
    }
}

static void compares_codes(void) {
    memset(code, 7, sizeof code);
    memset(other_code, 7, sizeof other_code);
    SECRET(code);
    verdicts++;
    answers(ends_early(code, other_code), true, "ends_early");
}

#define LOOKS(X) \
    X(key_derived, derives()) \
    X(keys_compared, compares()) \
    X(text_signed, signs()) \
    X(text_verified_under_ring, reads_under_ring(false)) \
    X(text_opened_under_ring, reads_under_ring(true)) \
    X(text_sealed, seals()) \
    X(text_opened, opens()) \
    X(planted_end, compares_codes()) \
    X(planted_look_up, SECRET(key); looks_up(table, key[0])) \
    X(planted_branch, SECRET(h); branches(h, block, product)) \
    X(planted_mask, SECRET(h); masks(h, block, product))
LOOKS(DEFINED)

static void count_under_ring(bool is_sealed, size_t by, bool is_kept) {
    size_t length = made_by(keys[by], is_sealed);
    char label[32];
    snprintf(label, sizeof label, "%s %zu", is_sealed ? "sealed" : "signed", by);
    demand(read_under_ring(is_sealed, length) == by, "a reading under a ring");
    CALLGRIND_ZERO_STATS;
    read_under_ring(is_sealed, length);
    if (is_kept)
        CALLGRIND_DUMP_STATS_AT(label);
}

static void counts(void) {
    memcpy(ring, keys, sizeof ring);
    for (size_t turn = 0; turn < 3 * KEYS; turn++) {
        count_under_ring(false, turn % KEYS, turn >= 2 * KEYS);
        /* (the current key is found sooner once it is chosen, by some twenty instructions) */
        if (turn % KEYS > 0)
            count_under_ring(true, turn % KEYS, turn >= 2 * KEYS);
    }
}

int main(int count, char **words) {
    prepare();
    TAKE_ALL(LOOKS, count, words, counts)
    return 0;
}

// Times reading of lists that are drawn from a seed, and a look-up in them (of ten names, the mean).
#include <stdint.h>
#include <stdio.h>
#include <stdlib.h>
#include <string.h>
#include "../time.h"

size_t bench_suffix(const uint8_t *rules, size_t rules_len, const uint8_t *names, size_t names_len, size_t times);

static char *rules, names[1024];
static size_t rules_len, names_len, times;
static uint64_t seed;

// A linear congruential generator (D. Knuth, MMIX).
static uint32_t draw(uint32_t below) {
    seed = seed * 6364136223846793005u + 1442695040888963407u;
    return (uint32_t)(seed >> 33) % below;
}

static size_t put_label(char *to) {
    size_t length = 2 + draw(10);
    for (size_t i = 0; i < length; i++) to[i] = (char)('a' + draw(26));
    return length;
}

// A list in the shape of the published one: of eight rules one is a label alone, five have a label under an earlier
// such label, one has two; one is a wildcard, with an exception now and then. Eight names are made from rules of the
// list, two from none.
static void draw_list(size_t count) {
    static char tops[2000][12];
    static size_t lengths[2000];
    size_t held = 0;
    seed = 17;
    rules_len = names_len = 0;
    for (size_t i = 0; i < count; i++) {
        size_t begin = rules_len;
        uint32_t kind = held == 0 ? 0 : draw(8);
        if (kind == 0) {
            size_t length = put_label(rules + rules_len);
            size_t at = held < 2000 ? held++ : draw(2000);
            memcpy(tops[at], rules + rules_len, lengths[at] = length);
            rules_len += length;
        } else {
            size_t at = draw((uint32_t)held);
            if (kind == 7) {
                if (draw(4) == 0) {
                    rules[rules_len++] = '!';
                    rules_len += put_label(rules + rules_len);
                } else {
                    rules[rules_len++] = '*';
                }
                rules[rules_len++] = '.';
            } else if (kind == 6) {
                rules_len += put_label(rules + rules_len);
                rules[rules_len++] = '.';
            }
            if (kind != 7 || draw(2) == 0) {
                rules_len += put_label(rules + rules_len);
                rules[rules_len++] = '.';
            }
            memcpy(rules + rules_len, tops[at], lengths[at]);
            rules_len += lengths[at];
        }
        if (i % (count / 8) == count / 16) {
            memcpy(names + names_len, "www.example.", 12);
            names_len += 12;
            size_t skip = rules[begin] == '!' || rules[begin] == '*' ? 1 : 0;
            if (skip) names[names_len++] = 'x';
            memcpy(names + names_len, rules + begin + skip, rules_len - begin - skip);
            names_len += rules_len - begin - skip;
            names[names_len++] = '\n';
        }
        rules[rules_len++] = '\n';
    }
    const char *others = "example.com\nno-such-suffix.example.zzzz";
    memcpy(names + names_len, others, strlen(others));
    names_len += strlen(others);
}

static void once(void) {
    if (bench_suffix((const uint8_t *)rules, rules_len, (const uint8_t *)names, names_len, times) == 0 && times > 0) {
        fprintf(stderr, "a call answered wrongly\n");
        exit(1);
    }
}

int main(void) {
    rules = malloc(100000 * 60);
    if (rules == NULL) return 1;
    const size_t counts[] = {1000, 10000, 100000};
    for (size_t i = 0; i < 3; i++) {
        draw_list(counts[i]);
        times = 0;
        double reading = least_time(once);
        times = 1;
        double look_ups = least_time(once) - reading;
        // So often that the look-ups take some times as long as the reading, whose noise then counts little.
        times = (size_t)(5 * reading / (look_ups > 1000 ? look_ups : 1000)) + 1;
        look_ups = (least_time(once) - reading) / (double)times;
        char name[40];
        snprintf(name, sizeof name, "read %zu rules", counts[i]);
        report(name, rules_len, reading);
        snprintf(name, sizeof name, "look up in %zu rules", counts[i]);
        report(name, 0, look_ups / 10);
    }
}

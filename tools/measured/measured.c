/* Makes the calls of scripts that it reads, and counts some of them. A call is a line of its word, 1 where it is
   counted, and the lengths of two texts, and then these. A script begins with `row`, its name and its size, and ends
   with `end`. It writes these, and the bytes that counted calls asked for, or that are kept for each of the size
   between `mark` and `kept`; callgrind writes down the instructions. The status is 1 where a call is refused. */
#include <dlfcn.h>
#include <stdbool.h>
#include <stdint.h>
#include <stdio.h>
#include <stdlib.h>
#include <string.h>
#include <valgrind/callgrind.h>
#include "fonnalich.h"

/* (of heap.c, whose compiler has no headers) */
extern struct {
    size_t asked, kept;
} heap;
void heap_begin(void);

typedef bool call(void *at, const char *, size_t, const char *, size_t);
size_t measured_size(void);
void measured_begin(void *at);
void measured_end(void *at);

static const int64_t NOW = 1700000000;
static uint64_t place[1024];
static char *name;
static size_t size, asked, before;
static bool is_counted;

static void demand(bool holds, const char *what) {
    if (!holds) {
        fprintf(stderr, "measured: refused: %s: %s\n", name ? name : "", what);
        exit(1);
    }
}

static void tell(size_t bytes) {
    printf("%s\t%zu\t%zu\n", name, size, bytes);
    fflush(stdout);
}

/* A call of this file, which holds where what it does is true. */
#define STEP(name, does) \
    bool does_##name(void *at, const char *first, size_t length, const char *second, size_t more) { \
        (void)at, (void)first, (void)length, (void)second, (void)more; \
        return does; \
    }

/* ---- a handle, without rules, as the clients are */

static fonnalich handle;
static char out[1 << 16];

STEP(handle_begin, (fonnalich_place(&handle), fonnalich_rules(&handle, FONNALICH_NO_RULES),
                    fonnalich_list(&handle, first, length) == 0))
STEP(handle_receive, fonnalich_receive(&handle, NOW, first, length, second, more, out, sizeof out) > 0 &&
                         *out == FONNALICH_INSERTED)
STEP(handle_header, fonnalich_header(&handle, NOW, first, length, out, sizeof out) > 0)
STEP(handle_import, fonnalich_import(&handle, NOW, first, length, out, sizeof out) == 16)
STEP(handle_export,
     fonnalich_export(&handle, NOW, FONNALICH_FOR_CURL, true, out, sizeof out) > (ptrdiff_t)size)
STEP(handle_end, (fonnalich_end(&handle), true))

/* ---- the scripts */

static bool begun(void *at, const char *its_name, size_t length, const char *its_size) {
    free(name);
    name = strndup(its_name, length);
    size = strtoul(its_size, NULL, 10);
    is_counted = false, asked = 0;
    heap_begin();
    measured_begin(at);
    return true;
}

static bool ended(void *at) {
    char label[128];
    snprintf(label, sizeof label, "%s\t%zu", name, size);
    if (is_counted) {
        CALLGRIND_DUMP_STATS_AT(label);
        tell(asked);
    }
    measured_end(at);
    return heap.kept == 0;
}

STEP(row, begun(at, first, length, second))
STEP(end, ended(at))
STEP(mark, (before = heap.kept, true))
STEP(kept, (tell((heap.kept - before) / size), true))

/* What is done for a word: a call of this file, or of the library. */
static call *called(const char *word) {
    char its_name[72];
    snprintf(its_name, sizeof its_name, "does_%s", word);
    call *it = (call *)dlsym(NULL, its_name);
    demand(it, word);
    return it;
}

static void make(call *it, int counts, const char *word, const char *first, size_t length, const char *second,
                 size_t more) {
    size_t so_far = heap.asked;
    if (counts)
        CALLGRIND_TOGGLE_COLLECT;
    bool holds = it(place, first, length, second, more);
    if (counts) {
        CALLGRIND_TOGGLE_COLLECT;
        asked += heap.asked - so_far;
        is_counted = true;
    }
    demand(holds, word);
}

int main(void) {
    char word[64];
    int counts;
    size_t length, more;
    demand(measured_size() <= sizeof place, "the place is too small");
    while (scanf("%63s %d %zu %zu", word, &counts, &length, &more) == 4) {
        char *texts = malloc(length + more + 1);
        demand(texts && getchar() == '\n' && fread(texts, 1, length + more, stdin) == length + more, word);
        texts[length + more] = 0;
        make(called(word), counts, word, texts, length, texts + length, more);
        free(texts);
    }
    return 0;
}

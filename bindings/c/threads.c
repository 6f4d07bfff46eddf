/* Handles that share a list on several threads at once, each used by one: they share it further, begin clients by it,
   ask it and end, while the handle that read it is freed. Its words are how often each thread does so. */
#include "fonnalich.h"
#include <pthread.h>
#include <stdatomic.h>
#include <stdio.h>
#include <stdlib.h>
#include <string.h>

#define T(text) (text), strlen(text)

enum { THREADS = 8, FURTHER = 4 };

static const int64_t NOW = 1700000000;
static fonnalich lists[THREADS];
static long rounds;
static atomic_int failures;

static void ask(int holds, const char *what) {
    if (holds)
        return;
    atomic_fetch_add(&failures, 1);
    printf("not so: %s\n", what);
}

static int is(const char *out, ptrdiff_t length, const char *text) {
    return length == (ptrdiff_t)strlen(text) && memcmp(out, text, strlen(text)) == 0;
}

/* A client by the list of a handle, which takes it over for its life. */
static void visits(fonnalich *list) {
    char out[64];
    fonnalich client;
    fonnalich_begin(&client);
    ask(fonnalich_client(&client, list) == 0, "a client by it");
    ptrdiff_t count = fonnalich_receive(&client, NOW, T("https://a.com/"), T("a=1; Domain=com\nb=2"), out, sizeof out);
    ask(count == 2 && out[0] == FONNALICH_PUBLIC_SUFFIX && out[1] == FONNALICH_INSERTED, "two lines");
    ask(is(out, fonnalich_header(&client, NOW, T("https://a.com/"), out, sizeof out), "b=2"), "a header");
    fonnalich_free(&client);
}

static void *works(void *list) {
    char out[64];
    for (long i = 0; i < rounds; i++) {
        fonnalich further[FURTHER];
        for (int j = 0; j < FURTHER; j++) {
            fonnalich_begin(&further[j]);
            ask(fonnalich_share(&further[j], j ? &further[j - 1] : list) == 0, "it is shared further");
        }
        visits(&further[i % FURTHER]);
        ask(is(out, fonnalich_suffix_by(&further[0], T("a.b.ck"), out, sizeof out), "b.ck"), "a suffix by it");
        for (int j = 0; j < FURTHER; j++)
            fonnalich_free(&further[j]);
    }
    fonnalich_free(list);
    return NULL;
}

int main(int count, char **words) {
    rounds = count > 1 ? atol(words[1]) : 100;
    pthread_t threads[THREADS];
    fonnalich list;
    fonnalich_begin(&list);
    ask(fonnalich_keep_list(&list, T("com\norg\n*.ck\n")) == 0, "a list");
    for (int i = 0; i < THREADS; i++) {
        fonnalich_begin(&lists[i]);
        ask(fonnalich_share(&lists[i], &list) == 0, "it is shared");
    }
    for (int i = 0; i < THREADS; i++)
        ask(pthread_create(&threads[i], NULL, works, &lists[i]) == 0, "a thread");
    fonnalich_free(&list);
    for (int i = 0; i < THREADS; i++)
        pthread_join(threads[i], NULL);
    printf("%d threads, %d failures\n", THREADS, failures);
    return failures != 0;
}

/* What memcheck is told, and the lines that tools/no-secret-time reads. */
#ifndef SECRETS_H
#define SECRETS_H
#include <malloc.h>
#include <stdbool.h>
#include <stdint.h>
#include <stdio.h>
#include <stdlib.h>
#include <string.h>
#include <valgrind/callgrind.h>
#include <valgrind/memcheck.h>

/* Of a secret nothing is known, so that memcheck tells of each branch and each address that hangs on it. */
#define SECRET(bytes) ((void)VALGRIND_MAKE_MEM_UNDEFINED(&(bytes), sizeof(bytes)))
#define PUBLIC(bytes) ((void)VALGRIND_MAKE_MEM_DEFINED(&(bytes), sizeof(bytes)))

/* How many answers that say yes or no were asked for, by which the library itself goes on. */
static int verdicts;

/* Does what a word names, and writes how many verdicts it asked for; writes the name where there is no word. */
static inline void take(const char *word, const char *name, void (*look)(void)) {
    if (!word) {
        puts(name);
    } else if (strcmp(word, name) == 0) {
        verdicts = 0;
        look();
        printf("%d\n", verdicts);
    }
}

/* A program's looks, as LOOKS(X) has them by X(name, what it does). Each stands in a function of its own and gets a run
   of its own, since memcheck tells of a place once in a run. */
#define DEFINED(name, does) static void name(void) { does; }
#define TAKEN(name, does) take(words[1], #name, name);
/* With the word `counts` callgrind writes down what calls take. What is taken from the system and given back to it
   hangs on what was asked before. */
#define TAKE_ALL(looks, count, words, counts) \
    if (count > 1 && strcmp(words[1], "counts") == 0) { \
        mallopt(M_TRIM_THRESHOLD, 1 << 30); \
        counts(); \
        return 0; \
    } \
    looks(TAKEN)

/* Ends the program where an answer isn't the one that is looked at. */
static inline void demand(int holds, const char *what) {
    if (!holds) {
        printf("%s: an answer is wrong\n", what);
        exit(1);
    }
}
#endif

/* What the toolchain's library asks of Linux through C, for processors other than x86-64: for that one alone it has
   these functions. The declarations of its `os` say what each does, and only what the programs here call is there. */
#include <errno.h>
#include <stdlib.h>
#include <string.h>
#include <sys/types.h>

int rattle_errno(void) {
    return errno;
}

void rattle_set_errno(int error) {
    errno = error;
}

/* ---- the words of the program, and what stands in its environment */

static int count;
static char **words;

/* (glibc hands a program's words to what begins with it) */
__attribute__((constructor)) static void keep(int given, char **at) {
    count = given;
    words = at;
}

/* Puts a text at the start of `room`. Answers its length, -1 where there is none, and -2 where it has more. */
static ssize_t put(const char *text, char *room, size_t length) {
    if (!text)
        return -1;
    size_t bytes = strlen(text), most = bytes < length ? bytes : length;
    memcpy(room, text, most);
    return bytes <= length ? (ssize_t)bytes : -2;
}

size_t rattle_arg_count(void) {
    return (size_t)count;
}

ssize_t rattle_arg(size_t i, char *room, size_t length) {
    return put(i < (size_t)count ? words[i] : NULL, room, length);
}

ssize_t rattle_env(const char *name, char *room, size_t length) {
    return put(getenv(name), room, length);
}

extern char **environ;

ssize_t rattle_env_at(size_t i, char *room, size_t length) {
    char **at = environ;
    for (; at && *at && i; i--)
        at++;
    return put(at ? *at : NULL, room, length);
}

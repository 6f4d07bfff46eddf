/* Prints what the toolchain's functions in C for the system answer, for tools/package-test: those of its own archive,
   and for other processors those of os.c. */
#include <stddef.h>
#include <stdio.h>
#include <stdlib.h>
#include <string.h>
#include <sys/types.h>

extern char **environ;
int rattle_errno(void);
void rattle_set_errno(int error);
size_t rattle_arg_count(void);
ssize_t rattle_arg(size_t i, char *room, size_t length);
ssize_t rattle_env(const char *name, char *room, size_t length);
ssize_t rattle_env_at(size_t i, char *room, size_t length);

static char room[8];

/* The length that was answered, and the room behind it; and clears that. */
static void tell(const char *what, size_t length, ssize_t got) {
    printf("%s %zu: %zd %.8s\n", what, length, got, room);
    memset(room, '.', sizeof room);
}

int main(void) {
    setenv("EMPTY", "", 1);
    tell("begin", 0, 0);
    printf("count %zu\n", rattle_arg_count());
    for (size_t length = 0; length <= sizeof room; length++) {
        for (size_t i = 1; i < 5; i++)
            tell("word", length, rattle_arg(i, room, length));
        for (size_t i = 0; i < 4; i++)
            tell("entry", length, rattle_env_at(i, room, length));
        tell("A", length, rattle_env("A", room, length));
        tell("EMPTY", length, rattle_env("EMPTY", room, length));
        tell("NONE", length, rattle_env("NONE", room, length));
    }
    environ = NULL;
    tell("none", sizeof room, rattle_env_at(0, room, sizeof room));
    rattle_set_errno(34);
    printf("error %d\n", rattle_errno());
}

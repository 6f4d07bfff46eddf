/* A login: a site signs a user and seals a cart, and reads both back at the next request. */
#include "fonnalich.h"
#include <stdio.h>
#include <string.h>
#include <sys/random.h>

static char key[FONNALICH_KEY_LENGTH];

/* Makes an exchange at this second: the length of what stands in `out` then, or -1. */
static ptrdiff_t serve(const char *header, const char *commands, char *out, size_t room) {
    char nonces[4 * FONNALICH_NONCE_LENGTH];
    if (getrandom(nonces, sizeof nonces, 0) != sizeof nonces)
        return -1;
    ptrdiff_t length = fonnalich_exchange(key, sizeof key, header, strlen(header), 1700000000, commands,
                                          strlen(commands), nonces, sizeof nonces, out, room);
    /* Below 0 it is a refusal; above the room nothing was written, and the same call with more room writes it. */
    return length > (ptrdiff_t)room ? -1 : length;
}

int main(void) {
    char out[1024], header[1024] = "";
    const char *sets = FONNALICH_SET FONNALICH_SIGNED "user=ann; HttpOnly\n" FONNALICH_SET FONNALICH_SEALED "cart=3";
    const char *gets = FONNALICH_GET FONNALICH_SIGNED "user\n" FONNALICH_GET FONNALICH_SEALED "cart\n"
                       FONNALICH_GET FONNALICH_SIGNED "theme";
    const char *text;
    ptrdiff_t length;
    if (fonnalich_processor() < 0) {
        fputs("this processor lacks SSE 4.2\n", stderr);
        return 1;
    }
    if (getrandom(key, sizeof key, 0) != sizeof key)
        return 1;
    ptrdiff_t all = serve("", sets, out, sizeof out);
    if (all < 0)
        return 1;
    /* A client sends of each line what stands before its first semicolon. */
    for (const char *at = out; fonnalich_next(&at, out + all, &text, &length);)
        sprintf(header + strlen(header), "%s%.*s", *header ? "; " : "",
                (int)((const char *)memchr(text, ';', length) - text), text);
    all = serve(header, gets, out, sizeof out);
    if (all < 0)
        return 1;
    /* The length -1 says that there is no such cookie, or none that this site made. */
    for (const char *at = out; fonnalich_next(&at, out + all, &text, &length);)
        if (length < 0)
            printf("-\n");
        else
            printf("%.*s\n", (int)length, text);
    return 0;
}

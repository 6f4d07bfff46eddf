/* A site with a log-in, by hand on a socket: /login?user=ann begins a session, / counts its visits, /logout ends it.

   PORT is the port of loopback, and KEY_FILE a file of 64 random bytes. It takes a request after the other, and prints
   `listening` before. What a client keeps is the cookie __Host-visits, which only this key opens and makes. */
#define _GNU_SOURCE
#include "fonnalich.h"
#include <arpa/inet.h>
#include <signal.h>
#include <stdio.h>
#include <stdlib.h>
#include <string.h>
#include <sys/socket.h>
#include <sys/time.h>
#include <time.h>
#include <unistd.h>

#define COOKIE "__Host-visits"
#define REMOVED FONNALICH_REMOVE FONNALICH_SEALED COOKIE
#define TO_PAGE "303 See Other\r\nLocation: /"

static char key[FONNALICH_KEY_LENGTH];

static bool is_read(const char *path, char *out, size_t length) {
    FILE *file = path ? fopen(path, "rb") : NULL;
    bool is_whole = file && fread(out, 1, length, file) == length;
    if (file)
        fclose(file);
    return is_whole;
}

/* Makes an exchange of one command: its value or line stands in `item` then, and false says that there is none. */
static bool exchange(const char *header, const char *command, char *item, size_t room) {
    char out[4096], nonce[FONNALICH_NONCE_LENGTH];
    const char *at = out, *text;
    ptrdiff_t length;
    if (!is_read("/dev/urandom", nonce, sizeof nonce))
        return false;
    ptrdiff_t all = fonnalich_exchange(key, sizeof key, header, strlen(header), time(NULL), command, strlen(command),
                                       nonce, sizeof nonce, out, sizeof out);
    if (all < 0 || all > (ptrdiff_t)sizeof out || !fonnalich_next(&at, out + all, &text, &length) || length < 0)
        return false;
    return snprintf(item, room, "%.*s", (int)length, text) < (int)room;
}

static void answer(int to, const char *status, const char *line, const char *body) {
    dprintf(to, "HTTP/1.1 %s\r\n%s%s%sContent-Type: text/plain\r\nContent-Length: %zu\r\nConnection: close\r\n\r\n%s",
            status, *line ? "Set-Cookie: " : "", line, *line ? "\r\n" : "", strlen(body), body);
}

/* Seals who visited how often, and answers that. */
static void seal(int to, const char *status, const char *user, int visits) {
    char command[256], line[1024], body[128];
    snprintf(command, sizeof command, FONNALICH_SET FONNALICH_SEALED COOKIE "=%.63s.%d; HttpOnly; SameSite=Lax; "
             "Max-Age=3600", user, visits);
    snprintf(body, sizeof body, "%.63s %d\n", user, visits);
    if (exchange("", command, line, sizeof line))
        answer(to, status, line, body);
    else
        answer(to, "500 Internal Server Error", "", "no session\n");
}

static void serve(int to, const char *path, const char *header) {
    char value[1024], user[64];
    int visits, end;
    if (sscanf(path, "/login?user=%63[a-zA-Z0-9]%n", user, &end) == 1 && path[end] == 0)
        seal(to, TO_PAGE, user, 0);
    else if (strncmp(path, "/login", 6) == 0 && (path[6] == 0 || path[6] == '?'))
        answer(to, "400 Bad Request", "", "no user\n");
    else if (strcmp(path, "/logout") == 0)
        answer(to, TO_PAGE, exchange(header, REMOVED, value, sizeof value) ? value : "", "");
    else if (strcmp(path, "/") != 0)
        answer(to, "404 Not Found", "", "no page\n");
    else if (exchange(header, FONNALICH_GET FONNALICH_SEALED COOKIE, value, sizeof value) &&
             sscanf(value, "%63[^.].%d", user, &visits) == 2)
        seal(to, "200 OK", user, visits + 1);
    else
        answer(to, "200 OK", "", "nobody\n");
}

static void take(int one, FILE *from) {
    char line[8192], path[1024] = "", header[8192] = "";
    while (fgets(line, sizeof line, from) && strcmp(line, "\r\n") != 0) {
        if (!*path && sscanf(line, "GET %1023s HTTP/1.", path) != 1)
            return;
        if (strncasecmp(line, "Cookie:", 7) == 0)
            snprintf(header, sizeof header, "%.*s", (int)strcspn(line + 7, "\r\n"), line + 7);
    }
    if (*path)
        serve(one, path, header);
}

int main(void) {
    struct sockaddr_in at = {.sin_family = AF_INET, .sin_addr = {htonl(INADDR_LOOPBACK)}};
    int site = socket(AF_INET, SOCK_STREAM, 0), yes = 1;
    at.sin_port = htons((uint16_t)atoi(getenv("PORT") ? getenv("PORT") : "8000"));
    signal(SIGPIPE, SIG_IGN);
    if (fonnalich_processor() < 0 || !is_read(getenv("KEY_FILE"), key, sizeof key) ||
        setsockopt(site, SOL_SOCKET, SO_REUSEADDR, &yes, sizeof yes) < 0 ||
        bind(site, (struct sockaddr *)&at, sizeof at) < 0 || listen(site, 16) < 0)
        return fputs("login: the processor, KEY_FILE or PORT isn't as it has to be\n", stderr), 1;
    puts("listening");
    fflush(stdout);
    for (;;) {
        struct timeval patience = {.tv_sec = 5};
        int one = accept(site, NULL, NULL);
        FILE *from = one < 0 ? NULL : fdopen(one, "r");
        if (!from)
            continue;
        setsockopt(one, SOL_SOCKET, SO_RCVTIMEO, &patience, sizeof patience);
        take(one, from);
        fclose(from);
    }
}

/* What bindings/test has C say to Rust, to Python and to a site, by these words:

   visit PORT     visits bindings/python/login_site.py over a plain socket, and prints what it answers
   set            prints the Cookie header of five cookies that a session set, one in each way
   get HEADER     prints what a session reads of it, a line each
   save           prints what a client saves of two lines
   load SAVED     prints the Cookie header of a client that loaded it */
#include "fonnalich.h"
#include <arpa/inet.h>
#include <stdio.h>
#include <stdlib.h>
#include <string.h>
#include <sys/random.h>
#include <sys/socket.h>
#include <time.h>
#include <unistd.h>

#define T(text) (text), strlen(text)

static const char *URL = "https://example.com/";
static const int64_t NOW = 1700000000;
static char key[FONNALICH_KEY_LENGTH], out[1 << 14];
static fonnalich client;

/* The length of an answer that stands in `out`; ends the program where none does. */
static int in_out(ptrdiff_t length) {
    if (length < 0 || length > (ptrdiff_t)sizeof out)
        exit(1);
    return (int)length;
}

/* Asks for a page with what the client has for it, and takes the lines of the answer: prints that, or goes where it
   sends. */
static void visit(int port, const char *path) {
    char url[128], text[8192], lines[8192] = "";
    int64_t now = time(NULL);
    size_t used = 0;
    snprintf(url, sizeof url, "http://localhost:%d%s", port, path);
    int length = in_out(fonnalich_header(&client, now, T(url), out, sizeof out));
    struct sockaddr_in at = {.sin_family = AF_INET, .sin_port = htons(port), .sin_addr = {htonl(INADDR_LOOPBACK)}};
    int site = socket(AF_INET, SOCK_STREAM, 0);
    if (site < 0 || connect(site, (struct sockaddr *)&at, sizeof at) != 0)
        exit(1);
    dprintf(site, "GET %s HTTP/1.0\r\nHost: localhost:%d\r\n%s%.*s%s\r\n", path, port, length ? "Cookie: " : "", length,
            out, length ? "\r\n" : "");
    for (ssize_t bytes; (bytes = read(site, text + used, sizeof text - 1 - used)) > 0;)
        used += bytes;
    text[used] = 0;
    close(site);
    char *body = strstr(text, "\r\n\r\n"), *to = strstr(text, "\r\nLocation: /\r\n");
    if (!body)
        exit(1);
    for (char *line = text; (line = strstr(line, "\r\nSet-Cookie: ")) && line < body; line++)
        sprintf(lines + strlen(lines), "%s%.*s", *lines ? "\n" : "", (int)strcspn(line + 14, "\r"), line + 14);
    in_out(fonnalich_receive(&client, now, T(url), T(lines), out, sizeof out));
    if (to && to < body)
        visit(port, "/");
    else
        fputs(body + 4, stdout);
}

/* Makes an exchange, and prints each item: of a line what stands before its first semicolon, or all of a value. */
static void exchange(const char *header, const char *commands, bool is_line) {
    char nonce[FONNALICH_NONCE_LENGTH];
    const char *text;
    ptrdiff_t length;
    if (getrandom(nonce, sizeof nonce, 0) != sizeof nonce)
        exit(1);
    int all = in_out(fonnalich_exchange(key, sizeof key, T(header), NOW, T(commands), nonce, sizeof nonce, out,
                                        sizeof out));
    for (const char *at = out; fonnalich_next(&at, out + all, &text, &length);)
        if (is_line)
            printf("%s%.*s", text == out + 8 ? "" : "; ", (int)strcspn(text, ";"), text);
        else
            printf("%.*s\n", length < 0 ? 1 : (int)length, length < 0 ? "-" : text);
}

int main(int count, char **words) {
    const char *list = "com\norg\n", *word = count > 1 ? words[1] : "", *given = count > 2 ? words[2] : "";
    for (int i = 0; i < FONNALICH_KEY_LENGTH; i++)
        key[i] = i;
    fonnalich_begin(&client);
    in_out(fonnalich_list(&client, T(list)));
    if (strcmp(word, "visit") == 0) {
        static const char *paths[] = {"/", "/login?user=ann", "/", "/leave"};
        for (int i = 0; i < 4; i++)
            visit(atoi(given), paths[i]);
    } else if (strcmp(word, "set") == 0) {
        exchange("", "S0n%200=%C3%A9%3B%200\nS1n%201=%C3%A9%3B%201\nS2n%202=%C3%A9%3B%202\nS3n%203=%C3%A9%3B%203\n"
                     "S4n%204=%C3%A9%3B%204", true);
    } else if (strcmp(word, "get") == 0) {
        exchange(given, "G0n%200\nG1n%201\nG2n%202\nG3n%203\nG4n%204", false);
    } else if (strcmp(word, "save") == 0) {
        /* RFC 6265, section 3.1, with an end. */
        const char *lines = "SID=31d4d96e407aad42; Path=/; Secure; Max-Age=60\n"
                            "lang=en-US; Path=/; Domain=example.com; Max-Age=60";
        in_out(fonnalich_receive(&client, NOW, T(URL), T(lines), out, sizeof out));
        printf("%.*s", in_out(fonnalich_save(&client, NOW, out, sizeof out)), out);
    } else if (strcmp(word, "load") == 0) {
        in_out(fonnalich_load(&client, NOW + 1, T(given), T(list)));
        printf("%.*s", in_out(fonnalich_header(&client, NOW + 1, T(URL), out, sizeof out)), out);
    }
    fonnalich_free(&client);
    return 0;
}

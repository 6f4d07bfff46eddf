/* Reads the set-cookie-string that is given, and prints the cookie that it reads as. */
#include <stddef.h>
#include <stdio.h>
#include <string.h>

ptrdiff_t cookie_normal_form(const unsigned char *line, size_t line_length, unsigned char *out, size_t out_length);

int main(int count, char **words) {
    const char *line = count > 1 ? words[1] : " id=a3fWa ;path=/; SECURE; max-age=60; Other=1";
    unsigned char out[4096];
    ptrdiff_t length = cookie_normal_form((const unsigned char *)line, strlen(line), out, sizeof out);
    if (length < 0) {
        fprintf(stderr, "no cookie: %td\n", length);
        return 1;
    }
    printf("%.*s\n", (int)length, (const char *)out);
    return 0;
}

/* A cookie by itself: the parts of a Set-Cookie line are read, two of them changed, and printed again. */
#include "fonnalich.h"
#include <stdio.h>
#include <string.h>

int main(void) {
    const char *line = "cart=3%204; Path=/; Max-Age=60";
    char out[256], longer[256];
    const char *text[4];
    ptrdiff_t length[4];
    fonnalich_attributes attributes = {0};
    if (fonnalich_processor() < 0) {
        fputs("this processor lacks SSE 4.2\n", stderr);
        return 1;
    }
    ptrdiff_t all = fonnalich_parse(true, line, strlen(line), &attributes, out, sizeof out);
    if (all < 0 || all > (ptrdiff_t)sizeof out)
        return 1;
    /* The name, the value, the path and the domain. The domain isn't there, which its length of -1 tells. */
    const char *at = out;
    for (int i = 0; i < 4; i++)
        fonnalich_next(&at, out + all, &text[i], &length[i]);
    printf("%.*s is '%.*s' for %d s\n", (int)length[0], text[0], (int)length[1], text[1], (int)attributes.max_age);
    attributes.max_age = 90;
    attributes.http_only = true;
    all = fonnalich_print(true, &attributes, text[0], length[0], text[1], length[1], text[2], length[2], "", 0, longer,
                          sizeof longer);
    if (all < 0 || all > (ptrdiff_t)sizeof longer)
        return 1;
    printf("%.*s\n", (int)all, longer);
    return 0;
}

/* A visit: a site sets two cookies, and a request gets them. */
#include "fonnalich.h"
#include <stdio.h>
#include <string.h>

int main(void) {
    const char *list = "com\norg\n", *url = "https://shop.com/cart";
    const char *lines = "user=ann; Path=/; Secure\ncart=7; Path=/cart; Max-Age=60";
    char ends[16], header[256];
    fonnalich client;
    if (fonnalich_processor() < 0) {
        fputs("this processor lacks SSE 4.2\n", stderr);
        return 1;
    }
    if (fonnalich_begin(&client) < 0)
        return 1;
    if (fonnalich_list(&client, list, strlen(list)) < 0)
        return 1;
    ptrdiff_t count = fonnalich_receive(&client, 1700000000, url, strlen(url), lines, strlen(lines), ends, sizeof ends);
    /* A number below 0 is a refusal, and one above the room says that nothing was written. */
    if (count < 0 || count > (ptrdiff_t)sizeof ends)
        return 1;
    for (ptrdiff_t i = 0; i < count; i++)
        printf("line %td: %s\n", i + 1, ends[i] == FONNALICH_INSERTED ? "inserted" : "other");
    ptrdiff_t length = fonnalich_header(&client, 1700000001, url, strlen(url), header, sizeof header);
    if (length < 0 || length > (ptrdiff_t)sizeof header)
        return 1;
    printf("Cookie: %.*s\n", (int)length, header);
    fonnalich_free(&client);
    return 0;
}

/* Validates one text, replaces its references and writes what came of it, with the place of a
 * bad one. */
#include "falzheod.h"
#include <stdio.h>
#include <string.h>

static void show_number(const char *name, uint32_t number, size_t place)
{
    printf("%s %u", name, (unsigned)number);
    if (number == FALZHEOD_REFERENCE)
        printf(" at byte %zu", place);
}

static void show(const char *written)
{
    const uint8_t *text = (const uint8_t *)written;
    size_t text_len = strlen(written), length = 0, invalid = 0, bad = 0;
    uint8_t out[16];
    uint32_t valid = falzheod_validate_references(text, text_len, &invalid);
    uint32_t number = falzheod_unescape(text, text_len, out, sizeof out, &length, &bad);
    printf("%s: ", written);
    show_number("validate", valid, invalid);
    show_number(", unescape", number, bad);
    printf(", %zu bytes: %.*s\n", length, (int)length, (const char *)out);
}

int main(void)
{
    show("3 &lt; &#x34;");             /* taken by both */
    show("&#+65;");                    /* a sign: unescape alone takes it */
    show("a&b");                       /* bad for both */
    show("&#+65;&zz;");                /* bad for both, at different places */
    show("seventeen letters");         /* one byte more than the room */
    printf("UTF-8: %u, %u\n", (unsigned)falzheod_is_utf8((const uint8_t *)"\xC2\xB5m", 3),
           (unsigned)falzheod_is_utf8((const uint8_t *)"\xB5m", 2));
    return 0;
}

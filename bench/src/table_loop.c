/* The yardstick: looks each octet up in a table of 256 entries, and counts the commas outside quotes. It knows no backslash. */
#include <stddef.h>
#include <stdint.h>

enum { COMMA = 1, QUOTE = 2 };

static const uint8_t class_of[256] = {[','] = COMMA, ['"'] = QUOTE};

size_t table_loop(const uint8_t *text, size_t length)
{
    size_t commas = 0;
    unsigned outside = 1;
    for (size_t i = 0; i < length; i++) {
        unsigned class = class_of[text[i]];
        outside ^= class >> 1;
        commas += class & outside;
    }
    return commas;
}

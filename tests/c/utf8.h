/* Random texts of a length and a make-up, valid UTF-8. */
#ifndef UTF8_H
#define UTF8_H

#include "random.h"
#include <stdbool.h>
#include <stddef.h>
#include <string.h>

/* One random character of so many bytes; its first byte is far from the borders that UTF-8 has. */
static size_t put_character(uint8_t *text, unsigned width)
{
    static const uint8_t first[] = {0, 0, 0xc4, 0xe4, 0xf1};
    if (width == 1) {
        text[0] = (uint8_t)(0x20 + below(0x5f));
        return 1;
    }
    text[0] = (uint8_t)(first[width] + below(2));
    for (unsigned i = 1; i < width; i++) {
        text[i] = (uint8_t)(0x80 + below(64));
    }
    return width;
}

/*
 * Fills the text to its length: digits, letters, ascii (any from space to ~), 2-byte, 3-byte, 4-byte, mixed (all
 * widths in turn). Where a character no longer fits, ASCII fills the end. False where there is no such make-up.
 */
static bool fill_text(uint8_t *text, size_t length, const char *makeup)
{
    size_t at = 0;
    for (unsigned i = 0; at < length; i++) {
        if (strcmp(makeup, "digits") == 0) {
            text[at++] = (uint8_t)('0' + below(10));
        } else if (strcmp(makeup, "letters") == 0) {
            text[at++] = (uint8_t)('a' + below(26));
        } else {
            unsigned width = 0;
            if (strcmp(makeup, "ascii") == 0) {
                width = 1;
            } else if (strcmp(makeup, "mixed") == 0) {
                width = 1 + i % 4;
            } else if (strlen(makeup) == 6 && strcmp(makeup + 1, "-byte") == 0) {
                width = (unsigned)(makeup[0] - '0');
            }
            if (width < 1 || width > 4) {
                return false;
            }
            at += put_character(text + at, at + width <= length ? width : 1);
        }
    }
    return true;
}

#endif

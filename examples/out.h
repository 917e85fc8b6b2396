/* Text on standard output, in pieces of at most 256 bytes. */
#ifndef OUT_H
#define OUT_H

#include "sys.h"

#include <stdint.h>

static char out_bytes[256];
static unsigned out_used;

static void out_flush(void)
{
    if (out_used > 0)
        sys_write(out_bytes, out_used);
    out_used = 0;
}

static void out_char(char c)
{
    if (out_used == sizeof out_bytes)
        out_flush();
    out_bytes[out_used++] = c;
}

static void out_text(const char *text)
{
    while (*text != 0)
        out_char(*text++);
}

/* A number in decimal digits, with spaces before it up to a width. */
static void out_number(uint32_t n, unsigned width)
{
    char digits[10];
    unsigned used = 0;
    do {
        digits[used++] = (char)('0' + n % 10);
        n /= 10;
    } while (n > 0);
    while (width > used) {
        out_char(' ');
        width--;
    }
    while (used > 0)
        out_char(digits[--used]);
}

#endif

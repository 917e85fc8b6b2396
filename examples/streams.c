/* For streams.sh, which looks at what a guest gets and at what becomes of its output. It prints each of its words in brackets, the
   file's name first, and then its input, puts the number of the input's bytes on standard error, and exits with 200.
   With the one word `flood` it writes the numbers from 0 to 131,071, a line of eight bytes each, in one call, and exits with 0. */
#include "sys.h"

#include <stdint.h>

#define LINES 131072u

static char lines[LINES * 8];
static char bytes[1000];

/* As sys_write, on standard error. */
static void error_write(const char *text, unsigned size)
{
    register unsigned a0 asm("a0") = 2;
    register const char *a1 asm("a1") = text;
    register unsigned a2 asm("a2") = size;
    register unsigned a7 asm("a7") = 64;
    asm volatile("ecall" : "+r"(a0) : "r"(a1), "r"(a2), "r"(a7) : "memory");
}

/* Puts a number's decimal digits, at least `least` of them, before `end`, and answers where they begin. */
static char *digits_before(char *end, uint32_t n, unsigned least)
{
    char *at = end;
    while (n > 0 || at + least > end) {
        *--at = (char)('0' + n % 10);
        n /= 10;
    }
    return at;
}

static int flood(void)
{
    for (uint32_t n = 0; n < LINES; n++) {
        digits_before(lines + n * 8 + 7, n, 7);
        lines[n * 8 + 7] = '\n';
    }
    return sys_write(lines, sizeof lines) != (int)sizeof lines;
}

static int is_flood(const char *word)
{
    const char *name = "flood";
    while (*name != 0 && *word == *name) {
        word++;
        name++;
    }
    return *word == *name;
}

static void show(const char *word)
{
    unsigned size = 0;
    while (word[size] != 0)
        size++;
    sys_write("[", 1);
    sys_write(word, size);
    sys_write("]\n", 2);
}

int main(int argc, char **argv)
{
    char count[11];
    uint32_t size = 0;
    int got;
    if (argc == 2 && is_flood(argv[1]))
        return flood();
    for (int i = 0; i < argc; i++)
        show(argv[i]);
    while ((got = sys_read(bytes, sizeof bytes)) > 0) {
        sys_write(bytes, (unsigned)got);
        size += (uint32_t)got;
    }
    count[10] = '\n';
    char *from = digits_before(count + 10, size, 1);
    error_write(from, (unsigned)(count + 11 - from));
    return 200;
}

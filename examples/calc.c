/* Reads lines of standard input as expressions, and prints their values modulo 2^32, as signed numbers.
   An expression has + - * / %, parentheses, decimal numbers and the variables a to z; `x = 2 + 3` sets
   one. The status is the number of lines with an error. */
#include "out.h"

static char text[4096];
static unsigned text_size;
static unsigned at;
static const char *error;
static uint32_t variables[26];

static uint32_t sum(void);

static char look(void)
{
    while (at < text_size && (text[at] == ' ' || text[at] == '\t'))
        at++;
    return at < text_size ? text[at] : '\n';
}

static uint32_t fail(const char *why)
{
    if (error == 0)
        error = why;
    return 0;
}

static int is_digit(char c)
{
    return c >= '0' && c <= '9';
}

static int is_variable(char c)
{
    return c >= 'a' && c <= 'z';
}

static uint32_t number(void)
{
    uint32_t n = 0;
    while (at < text_size && is_digit(text[at]))
        n = n * 10 + (uint32_t)(text[at++] - '0');
    return n;
}

static uint32_t atom(void)
{
    char c = look();
    if (is_digit(c))
        return number();
    at++;
    if (is_variable(c))
        return variables[c - 'a'];
    if (c == '-')
        return 0u - atom();
    if (c == '(') {
        uint32_t inner = sum();
        if (look() != ')')
            return fail("a parenthesis is open");
        at++;
        return inner;
    }
    at--;
    return fail("a number is missing");
}

static uint32_t quotient(uint32_t a, uint32_t b, int is_rest)
{
    if (b == 0)
        return fail("a division by zero");
    if (b == 0xffffffffu)
        return is_rest ? 0 : 0u - a;
    int32_t x = (int32_t)a, y = (int32_t)b;
    return (uint32_t)(is_rest ? x % y : x / y);
}

static uint32_t product(void)
{
    uint32_t value = atom();
    for (;;) {
        char c = look();
        if (c != '*' && c != '/' && c != '%')
            return value;
        at++;
        uint32_t next = atom();
        value = c == '*' ? value * next : quotient(value, next, c == '%');
    }
}

static uint32_t sum(void)
{
    uint32_t value = product();
    for (;;) {
        char c = look();
        if (c != '+' && c != '-')
            return value;
        at++;
        uint32_t next = product();
        value = c == '+' ? value + next : value - next;
    }
}

/* A variable and `=` before the expression, and where there is none -1. */
static int target(void)
{
    unsigned start = at;
    char name = look();
    if (is_variable(name)) {
        at++;
        if (look() == '=') {
            at++;
            return name - 'a';
        }
    }
    at = start;
    return -1;
}

static void report(uint32_t value)
{
    if (error != 0) {
        out_text("error: ");
        out_text(error);
    } else {
        if (value >= 0x80000000u)
            out_char('-');
        out_number(value >= 0x80000000u ? 0u - value : value, 0);
    }
    out_char('\n');
}

int main(void)
{
    int got, errors = 0;
    while (text_size < sizeof text && (got = sys_read(text + text_size, sizeof text - text_size)) > 0)
        text_size += (unsigned)got;
    while (at < text_size) {
        error = 0;
        int to = target();
        uint32_t value = sum();
        if (error == 0 && look() != '\n')
            fail("more follows");
        if (error == 0 && to >= 0)
            variables[to] = value;
        errors += error != 0;
        report(value);
        while (at < text_size && text[at] != '\n')
            at++;
        at++;
    }
    out_flush();
    return errors;
}

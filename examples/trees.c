/* Reads lines of standard input as expressions, builds a tree of each on the heap, and prints it with the operators in
   front, and its value modulo 2^32 as a signed number. An expression has + - * / %, parentheses, decimal numbers, and
   - as a sign. A line with nothing on it is passed over. At the end the line with the greatest value is printed again.
   The status is the number of lines with an error.

   A tree has a root, which counts its uses, and is given back with its last use. With BUG defined that count is stored
   last, into a root that was freed by then. */
#include "heap.h"
#include "out.h"

struct node {
    char kind; /* '#' a number, '~' a sign, or the operator */
    uint32_t value;
    struct node *left;
    struct node *right; /* the one operand of a sign */
};

struct root {
    struct node *top;
    uint32_t line;
    uint32_t value;
    uint32_t uses;
};

static char *text;
static uint32_t text_size;
static uint32_t text_room;
static uint32_t at;
static const char *error;
static struct root *greatest;

static struct node *sum(void);

static void fail(const char *why)
{
    if (error == 0)
        error = why;
}

static void release(struct node *node)
{
    if (node == 0)
        return;
    release(node->left);
    release(node->right);
    free(node);
}

/* Ends one use of a tree. */
static void drop(struct root *root)
{
    struct node *top = root->top;
    uint32_t uses = root->uses - 1;
#ifndef BUG
    root->uses = uses;
#endif
    if (uses == 0) {
        free(root);
        release(top);
    }
#ifdef BUG
    root->uses = uses;
#endif
}

static struct node *make(char kind, uint32_t value, struct node *left, struct node *right)
{
    struct node *node = malloc(sizeof *node);
    if (node == 0) {
        fail("the heap has no room");
        release(left);
        release(right);
        return 0;
    }
    node->kind = kind;
    node->value = value;
    node->left = left;
    node->right = right;
    return node;
}

static char look(void)
{
    while (at < text_size && (text[at] == ' ' || text[at] == '\t'))
        at++;
    return at < text_size ? text[at] : '\n';
}

static int is_digit(char c)
{
    return c >= '0' && c <= '9';
}

static struct node *number(void)
{
    uint32_t n = 0;
    while (at < text_size && is_digit(text[at]))
        n = n * 10 + (uint32_t)(text[at++] - '0');
    return make('#', n, 0, 0);
}

/* None where an error is found, which may also leave a part of a tree without its operand. */
static struct node *atom(void)
{
    char c = look();
    if (is_digit(c))
        return number();
    if (c == '-') {
        at++;
        struct node *operand = atom();
        return make('~', 0, 0, operand);
    }
    if (c == '(') {
        at++;
        struct node *inner = sum();
        if (look() == ')')
            at++;
        else
            fail("a parenthesis is open");
        return inner;
    }
    fail("a number is missing");
    return 0;
}

static struct node *product(void)
{
    struct node *left = atom();
    for (;;) {
        char c = look();
        if (c != '*' && c != '/' && c != '%')
            return left;
        at++;
        struct node *right = atom();
        left = make(c, 0, left, right);
    }
}

static struct node *sum(void)
{
    struct node *left = product();
    for (;;) {
        char c = look();
        if (c != '+' && c != '-')
            return left;
        at++;
        struct node *right = product();
        left = make(c, 0, left, right);
    }
}

static uint32_t quotient(uint32_t a, uint32_t b, int is_rest)
{
    if (b == 0) {
        fail("a division by zero");
        return 0;
    }
    if (b == 0xffffffffu)
        return is_rest ? 0 : 0u - a;
    int32_t x = (int32_t)a, y = (int32_t)b;
    return (uint32_t)(is_rest ? x % y : x / y);
}

static uint32_t value_of(const struct node *node)
{
    if (node->kind == '#')
        return node->value;
    uint32_t left = node->left != 0 ? value_of(node->left) : 0;
    uint32_t right = value_of(node->right);
    switch (node->kind) {
    case '+':
        return left + right;
    case '*':
        return left * right;
    case '/':
    case '%':
        return quotient(left, right, node->kind == '%');
    default: /* a difference, or a sign */
        return left - right;
    }
}

static void print_tree(const struct node *node)
{
    if (node->kind == '#') {
        out_number(node->value, 0);
        return;
    }
    out_char('(');
    out_char(node->kind == '~' ? '-' : node->kind);
    out_char(' ');
    if (node->left != 0) {
        print_tree(node->left);
        out_char(' ');
    }
    print_tree(node->right);
    out_char(')');
}

static void print(const struct root *root)
{
    out_number(root->line, 4);
    out_text(": ");
    print_tree(root->top);
    out_text(" = ");
    if (root->value >= 0x80000000u)
        out_char('-');
    out_number(root->value >= 0x80000000u ? 0u - root->value : root->value, 0);
    out_char('\n');
}

/* Uses the tree for the greatest value, where it has one that is greater than before. */
static void compare(struct root *root)
{
    if (greatest != 0) {
        if ((int32_t)root->value <= (int32_t)greatest->value)
            return;
        drop(greatest);
    }
    root->uses++;
    greatest = root;
}

/* Works out one line up to its end; whether it had no error. */
static int work_out(uint32_t line)
{
    error = 0;
    struct root *root = malloc(sizeof *root);
    if (root == 0) {
        fail("the heap has no room");
    } else {
        root->top = sum();
        root->line = line;
        root->uses = 1;
        if (look() != '\n')
            fail("more follows");
        if (error == 0)
            root->value = value_of(root->top);
    }
    if (error == 0) {
        print(root);
        compare(root);
    } else {
        out_number(line, 4);
        out_text(": error: ");
        out_text(error);
        out_char('\n');
    }
    if (root != 0)
        drop(root);
    return error == 0;
}

/* Reads all of standard input; whether the heap has room for it. */
static int read_text(void)
{
    int got;
    do {
        if (text_size == text_room) {
            uint32_t wider = text_room == 0 ? 64 : text_room * 2;
            char *moved = realloc(text, wider);
            if (moved == 0)
                return 0;
            text = moved;
            text_room = wider;
        }
        got = sys_read(text + text_size, text_room - text_size);
        if (got > 0)
            text_size += (uint32_t)got;
    } while (got > 0);
    return 1;
}

int main(void)
{
    int errors = 0;
    if (!read_text()) {
        out_text("the heap has no room\n");
        errors = 1;
        text_size = 0;
    }
    for (uint32_t line = 1; at < text_size; line++) {
        if (look() != '\n')
            errors += !work_out(line);
        while (at < text_size && text[at] != '\n')
            at++;
        at++;
    }
    if (greatest != 0) {
        out_text("the greatest:\n");
        print(greatest);
        drop(greatest);
    }
    free(text);
    out_flush();
    return errors;
}

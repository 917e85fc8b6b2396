/* Asks for names and greets each, until it gets an empty line or its input ends: a program that talks with a person. */
#include "sys.h"

#define MOST 80u

/* Reads a line a byte at a time, so that it waits for no more than that; its first MOST bytes are kept. Answers how many. */
static unsigned read_line(char *line)
{
    unsigned size = 0;
    char byte;
    while (sys_read(&byte, 1) == 1 && byte != '\n')
        if (size < MOST)
            line[size++] = byte;
    return size;
}

int main(void)
{
    char line[MOST];
    unsigned size;
    while (sys_write("Name: ", 6), (size = read_line(line)) > 0) {
        sys_write("Hello, ", 7);
        sys_write(line, size);
        sys_write("!\n", 2);
    }
    sys_write("Bye.\n", 5);
    return 0;
}

/* Prints the lines of standard input in the order of their bytes, and then how long the longest is. Each line is a
   string on the heap whose length stands in the word before its first byte. The status is 1 where the heap has no
   room.

   With BUG defined a string has no room for its length. So the length is stored before the object: into the end of
   the slot below it. */
#include "heap.h"
#include "out.h"

#ifdef BUG
#define LENGTH_BYTES 0
#else
#define LENGTH_BYTES sizeof(uint32_t)
#endif

static char **lines;
static uint32_t count;
static uint32_t room;

static char *line; /* the line that is being read */
static uint32_t length;
static uint32_t line_room;

static char bytes[1000];

static uint32_t *length_of(char *string)
{
    return (uint32_t *)(void *)string - 1;
}

/* A string of so many bytes; none where the heap has no room for it. */
static char *new_string(uint32_t size)
{
    char *object = malloc(LENGTH_BYTES + size);
    if (object == 0)
        return 0;
    char *string = object + LENGTH_BYTES;
    *length_of(string) = size;
    return string;
}

static void free_string(char *string)
{
    free(string - LENGTH_BYTES);
}

static int is_before(char *a, char *b)
{
    uint32_t a_size = *length_of(a), b_size = *length_of(b);
    for (uint32_t i = 0; i < a_size && i < b_size; i++) {
        if (a[i] != b[i])
            return (uint8_t)a[i] < (uint8_t)b[i];
    }
    return a_size < b_size;
}

static int append(char c)
{
    if (length == line_room) {
        uint32_t wider = line_room == 0 ? 64 : line_room * 2;
        char *moved = realloc(line, wider);
        if (moved == 0)
            return 0;
        line = moved;
        line_room = wider;
    }
    line[length++] = c;
    return 1;
}

/* Keeps the line that was read as a string of its own; 0 where the heap has no room for it. */
static int keep(void)
{
    if (count == room) {
        uint32_t wider = room == 0 ? 8 : room * 2;
        char **moved = realloc(lines, wider * sizeof *lines);
        if (moved == 0)
            return 0;
        lines = moved;
        room = wider;
    }
    char *string = new_string(length);
    if (string == 0)
        return 0;
    for (uint32_t i = 0; i < length; i++)
        string[i] = line[i];
    lines[count++] = string;
    length = 0;
    return 1;
}

/* Moves a line to its place among those before it. */
static void insert(uint32_t at)
{
    char *moved = lines[at];
    for (; at > 0 && is_before(moved, lines[at - 1]); at--)
        lines[at] = lines[at - 1];
    lines[at] = moved;
}

static void print(void)
{
    uint32_t longest = 0;
    for (uint32_t i = 0; i < count; i++) {
        uint32_t size = *length_of(lines[i]);
        for (uint32_t j = 0; j < size; j++)
            out_char(lines[i][j]);
        out_char('\n');
        if (size > longest)
            longest = size;
    }
    out_number(count, 0);
    out_text(" lines, the longest of ");
    out_number(longest, 0);
    out_text(" bytes\n");
}

int main(void)
{
    int got = 0, has_room = 1;
    while (has_room && (got = sys_read(bytes, sizeof bytes)) > 0) {
        for (int i = 0; has_room && i < got; i++)
            has_room = bytes[i] == '\n' ? keep() : append(bytes[i]);
    }
    if (has_room && length > 0)
        has_room = keep();
    if (has_room) {
        for (uint32_t i = 1; i < count; i++)
            insert(i);
        print();
    } else {
        out_text("the heap has no room\n");
    }
    for (uint32_t i = 0; i < count; i++)
        free_string(lines[i]);
    free(lines);
    free(line);
    out_flush();
    return got < 0 || !has_room;
}

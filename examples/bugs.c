/* Twelve small programs with memory errors; the word behind the program's name chooses one: `bugs one`. Each prints a number
   that comes of what it keeps on the heap. With BUG defined they have their errors. Without it they have none, and print what
   they ought to.

   Ten are repaired by `exterm repair`. `reads` and `far` are not: a read breaks no canary, and what is stored more than
   65,536 bytes past an object isn't looked for (docs/repair.md). */
#include "heap.h"
#include "out.h"

#ifdef BUG
#define AS_IT_IS_OR(as_it_ought_to_be, as_it_is) (as_it_is)
#else
#define AS_IT_IS_OR(as_it_ought_to_be, as_it_is) (as_it_ought_to_be)
#endif

enum { OBJECTS = 12, TEXT = 32, TRAILER = 17, HEADER = 32 };

struct sample {
    uint32_t at, low, high, weight;
};

struct page {
    uint32_t owner;
    uint8_t bytes[60];
};

/* A pointer of which the compiler doesn't know where it points to, so that it leaves out no store through it. */
static void *unseen(void *pointer)
{
    __asm__ volatile("" : "+r"(pointer) : : "memory");
    return pointer;
}

static uint32_t sum;

static void add(uint32_t n)
{
    sum = sum * 31 + n;
}

static void add_bytes(const uint8_t *bytes, uint32_t count)
{
    for (uint32_t i = 0; i < count; i++)
        add(bytes[i]);
}

static void fill(uint8_t *bytes, uint32_t count, uint32_t first)
{
    for (uint32_t i = 0; i < count; i++)
        bytes[i] = (uint8_t)(first + i);
}

/* Objects of a size that are filled, added up and freed. What else falls on them shows in the sum. */
static void work(uint32_t count, uint32_t size)
{
    uint8_t *objects[64];
    for (uint32_t i = 0; i < count; i++) {
        objects[i] = unseen(malloc(size));
        fill(objects[i], size, i);
    }
    for (uint32_t i = 0; i < count; i++) {
        add_bytes(objects[i], size);
        free(objects[i]);
    }
}

/* ---- past the end */

/* Texts of 32 letters, and no room for the zero byte behind them. */
static void one(void)
{
    uint8_t *texts[OBJECTS];
    for (uint32_t i = 0; i < OBJECTS; i++) {
        texts[i] = unseen(malloc(AS_IT_IS_OR(TEXT + 1, TEXT)));
        fill(texts[i], TEXT, 'A' + i);
        texts[i][TEXT] = 0;
    }
    for (uint32_t i = 0; i < OBJECTS; i++) {
        for (uint32_t k = 0; texts[i][k] != 0; k++)
            add(texts[i][k]);
        free(texts[i]);
    }
}

/* Packets with a trailer of 17 bytes that was forgotten when the memory was asked for. */
static void seventeen(void)
{
    uint8_t *packets[OBJECTS];
    for (uint32_t i = 0; i < OBJECTS; i++) {
        packets[i] = unseen(malloc(AS_IT_IS_OR(128 + TRAILER, 128)));
        fill(packets[i], 128 + TRAILER, 100 + i);
    }
    for (uint32_t i = 0; i < OBJECTS; i++) {
        add_bytes(packets[i], 128 + TRAILER);
        free(packets[i]);
    }
}

/* Four samples, and one more that ends the list. */
static void record(void)
{
    struct sample *lists[OBJECTS];
    for (uint32_t i = 0; i < OBJECTS; i++) {
        lists[i] = unseen(malloc(AS_IT_IS_OR(5, 4) * sizeof(struct sample)));
        for (uint32_t k = 0; k < 5; k++)
            lists[i][k] = (struct sample){k, i, i + k, k < 4};
    }
    for (uint32_t i = 0; i < OBJECTS; i++) {
        uint32_t k = 0;
        for (; lists[i][k].weight != 0; k++)
            add(lists[i][k].at + lists[i][k].high);
        add(lists[i][k].low);
        free(lists[i]);
    }
}

/* A list that grows by realloc, and has no room for the zero behind its numbers once it is full. */
static void grown(void)
{
    uint32_t room = 4, used = 0;
    uint32_t *numbers = unseen(malloc((room + 1) * sizeof *numbers));
    for (uint32_t n = 1; n <= 64; n++) {
        if (used == room) {
            room *= 2;
            numbers = unseen(realloc(numbers, (room + AS_IT_IS_OR(1, 0)) * sizeof *numbers));
        }
        numbers[used++] = n;
        numbers[used] = 0;
    }
    for (uint32_t i = 0; numbers[i] != 0; i++)
        add(numbers[i]);
    free(numbers);
}

/* ---- before the start */

/* Objects with a header before them, for which there is no room. */
static void under(uint32_t header)
{
    uint8_t *objects[OBJECTS];
    uint32_t before = AS_IT_IS_OR(header, 0);
    for (uint32_t i = 0; i < OBJECTS; i++) {
        objects[i] = (uint8_t *)unseen(malloc(before + 96)) + before;
        fill(objects[i] - header, header, 200 + i);
        fill(objects[i], 96, i);
    }
    for (uint32_t i = 0; i < OBJECTS; i++) {
        add_bytes(objects[i] - header, header + 96);
        free(objects[i] - before);
    }
}

static void under4(void)
{
    under(4);
}

static void under32(void)
{
    under(HEADER);
}

/* ---- after the free */

/* A page is freed, and so many allocations later marked as nobody's, through a pointer that was kept. */
static void freed(uint32_t allocations)
{
    struct page *page = unseen(malloc(sizeof *page));
    struct page *kept = unseen(page);
    page->owner = 7;
    add(page->owner);
    free(page);
    for (uint32_t i = 0; i < allocations; i++)
        work(1, sizeof *page);
    if (AS_IT_IS_OR(0, 1)) {
        kept->owner = 0xdeaddead;
        kept->bytes[50] = 0;
    }
    work(OBJECTS, sizeof *page);
}

static void freed0(void)
{
    freed(0);
}

static void freed7(void)
{
    freed(7);
}

static void freed40(void)
{
    freed(40);
}

/* ---- two errors, and two that aren't repaired */

/* A text without room for its zero byte, and a store to what was freed before it. */
static void two(void)
{
    uint8_t *list = unseen(malloc(200));
    uint8_t *kept = unseen(list);
    fill(list, 200, 3);
    add_bytes(list, 200);
    free(list);
    uint8_t *text = unseen(malloc(AS_IT_IS_OR(TEXT + 1, TEXT)));
    fill(text, TEXT, 'a');
    text[TEXT] = 0;
    if (AS_IT_IS_OR(0, 1))
        fill(kept, 9, 77);
    for (uint32_t k = 0; text[k] != 0; k++)
        add(text[k]);
    work(OBJECTS, 200);
    free(text);
}

/* Reads a byte past its object. */
static void reads(void)
{
    uint8_t *bytes = unseen(malloc(TEXT));
    fill(bytes, TEXT, 1);
    add_bytes(bytes, AS_IT_IS_OR(TEXT, TEXT + 1));
    free(bytes);
}

/* Stores 70,000 bytes past its object, where another one was. */
static void far(void)
{
    uint8_t *bytes = unseen(malloc(TEXT));
    fill(bytes, TEXT, 1);
    work(1, TEXT * 1024);
    if (AS_IT_IS_OR(0, 1))
        bytes[70000] = 1;
    add_bytes(bytes, TEXT);
    free(bytes);
}

static const struct {
    const char *name;
    void (*program)(void);
} programs[] = {
    {"one", one},       {"seventeen", seventeen}, {"record", record}, {"grown", grown},
    {"under4", under4}, {"under32", under32},     {"freed0", freed0}, {"freed7", freed7},
    {"freed40", freed40}, {"two", two},           {"reads", reads},   {"far", far},
};

static int same(const char *a, const char *b)
{
    while (*a != 0 && *a == *b) {
        a++;
        b++;
    }
    return *a == *b;
}

int main(int argc, char **argv)
{
    for (uint32_t i = 0; argc == 2 && i < sizeof programs / sizeof *programs; i++) {
        if (same(programs[i].name, argv[1])) {
            programs[i].program();
            out_text(programs[i].name);
            out_char(' ');
            out_number(sum, 0);
            out_char('\n');
            out_flush();
            return 0;
        }
    }
    out_text("usage: bugs PROGRAM\n");
    out_flush();
    return 1;
}

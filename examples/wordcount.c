/* Counts the words of standard input, and prints them by falling count, and by the alphabet where counts are equal.
   A word is letters with hyphens between them, and capitals are as small letters. The words are in a hash table on
   the heap, each with a string of its own; the table grows. The status is 1 where the heap has no room.

   With BUG defined the strings have no room for the zero byte at their end. So a word of 16 bytes, which fills its
   slot of the guest's heap, or of 32 or 64, writes one byte past it. */
#include "heap.h"
#include "out.h"

#ifdef BUG
#define ZERO_BYTE 0
#else
#define ZERO_BYTE 1
#endif

struct entry {
    char *text; /* none where the place is empty */
    uint32_t count;
};

static struct entry *table;
static uint32_t places; /* a power of two, or 0 before the first word */
static uint32_t different;
static uint32_t total;

static char *word; /* the word that is being read */
static uint32_t length;
static uint32_t room;

static uint8_t bytes[1000];

/* Which of two words comes first in the alphabet: below 0 for the first, 0 where they are the same. */
static int order(const char *a, const char *b)
{
    while (*a != 0 && *a == *b) {
        a++;
        b++;
    }
    return *a - *b;
}

static uint32_t hash(const char *text)
{
    uint32_t h = 5381;
    while (*text != 0)
        h = h * 33 + (uint8_t)*text++;
    return h;
}

/* The place that has the word, or the empty one where it belongs. */
static struct entry *place_of(const char *text)
{
    uint32_t at = hash(text) & (places - 1);
    while (table[at].text != 0 && order(table[at].text, text) != 0)
        at = (at + 1) & (places - 1);
    return &table[at];
}

/* Moves the words to a table with twice the places; 0 where the heap has no room for it. */
static int grow(void)
{
    struct entry *old = table;
    uint32_t old_places = places;
    uint32_t new_places = places == 0 ? 16 : places * 2;
    struct entry *new = calloc(new_places, sizeof *new);
    if (new == 0)
        return 0;
    table = new;
    places = new_places;
    for (uint32_t i = 0; i < old_places; i++) {
        if (old[i].text != 0)
            *place_of(old[i].text) = old[i];
    }
    free(old);
    return 1;
}

/* The word that was read, as a string of its own; none where the heap has no room for it. */
static char *copy_of_word(void)
{
    char *copy = malloc(length + ZERO_BYTE);
    if (copy == 0)
        return 0;
    for (uint32_t i = 0; i < length; i++)
        copy[i] = word[i];
    copy[length] = 0;
    return copy;
}

static int append(char c)
{
    if (length == room) {
        uint32_t wider = room == 0 ? 40 : room * 2;
        char *moved = realloc(word, wider);
        if (moved == 0)
            return 0;
        word = moved;
        room = wider;
    }
    word[length++] = c;
    return 1;
}

/* Counts the word that was read, if there is one; 0 where the heap has no room for it. */
static int count_word(void)
{
    while (length > 0 && word[length - 1] == '-')
        length--;
    if (length == 0)
        return 1;
    if (!append(0) || (different * 2 >= places && !grow()))
        return 0;
    length--;
    struct entry *entry = place_of(word);
    if (entry->text == 0) {
        entry->text = copy_of_word();
        if (entry->text == 0)
            return 0;
        different++;
    }
    entry->count++;
    total++;
    length = 0;
    return 1;
}

static int take(uint8_t c)
{
    uint8_t lower = (uint8_t)(c | 32);
    if (lower >= 'a' && lower <= 'z')
        return append((char)lower);
    if (c == '-' && length > 0)
        return append('-');
    return count_word();
}

static int is_before(const struct entry *a, const struct entry *b)
{
    return a->count != b->count ? a->count > b->count : order(a->text, b->text) < 0;
}

/* Moves the words to the front of the table, and sorts them there. It is no hash table any more. */
static void sort(void)
{
    uint32_t used = 0;
    for (uint32_t i = 0; i < places; i++) {
        struct entry moved = table[i];
        table[i].text = 0;
        if (moved.text != 0)
            table[used++] = moved;
    }
    for (uint32_t gap = used / 2; gap > 0; gap /= 2) {
        for (uint32_t i = gap; i < used; i++) {
            struct entry moved = table[i];
            uint32_t to = i;
            for (; to >= gap && is_before(&moved, &table[to - gap]); to -= gap)
                table[to] = table[to - gap];
            table[to] = moved;
        }
    }
}

static void print(void)
{
    out_number(total, 0);
    out_text(" words, ");
    out_number(different, 0);
    out_text(" of them different\n");
    for (uint32_t i = 0; i < places && table[i].text != 0; i++) {
        out_number(table[i].count, 6);
        out_char(' ');
        out_text(table[i].text);
        out_char('\n');
    }
}

static void give_back(void)
{
    for (uint32_t i = 0; i < places; i++)
        free(table[i].text);
    free(table);
    free(word);
}

int main(void)
{
    int got = 0, has_room = 1;
    while (has_room && (got = sys_read(bytes, sizeof bytes)) > 0) {
        for (int i = 0; has_room && i < got; i++)
            has_room = take(bytes[i]);
    }
    if (has_room && count_word()) {
        sort();
        print();
    } else {
        out_text("the heap has no room\n");
        has_room = 0;
    }
    give_back();
    out_flush();
    return got < 0 || !has_room;
}

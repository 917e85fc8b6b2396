/* Counts the bytes, lines, words and letters of standard input. */
#include "out.h"

static uint8_t bytes[1000];
static uint32_t letters[26];
static uint32_t most = 1; /* the count of the commonest letter, or 1 */

static int is_space(uint8_t c)
{
    return c == ' ' || (c >= 9 && c <= 13);
}

static void line(const char *label, uint32_t n)
{
    out_text(label);
    out_number(n, 8);
    out_char('\n');
}

static void letter_rows(void)
{
    for (unsigned i = 0; i < 26; i++) {
        if (letters[i] == 0)
            continue;
        out_char((char)('a' + i));
        out_number(letters[i], 8);
        out_char(' ');
        for (uint32_t k = 0; k < letters[i] * 50 / most; k++)
            out_char('*');
        out_char('\n');
    }
}

int main(void)
{
    uint32_t size = 0, lines = 0, words = 0, width = 0, widest = 0, hash = 5381;
    int in_word = 0, got;
    while ((got = sys_read(bytes, sizeof bytes)) > 0) {
        for (int i = 0; i < got; i++) {
            uint8_t c = bytes[i];
            uint8_t lower = (uint8_t)(c | 32);
            hash = hash * 33 + c;
            size++;
            width = c == '\n' ? 0 : width + 1;
            if (width > widest)
                widest = width;
            lines += c == '\n';
            words += !in_word && !is_space(c);
            in_word = !is_space(c);
            if (lower >= 'a' && lower <= 'z' && ++letters[lower - 'a'] > most)
                most = letters[lower - 'a'];
        }
    }
    line("bytes      ", size);
    line("lines      ", lines);
    line("words      ", words);
    line("widest line", widest);
    out_text("hash       ");
    out_number(hash, 11);
    out_char('\n');
    letter_rows();
    out_flush();
    return got < 0;
}

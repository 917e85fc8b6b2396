// Fills a run of bytes by memset, or compares two by memcmp, as often as its words say.
#include <stdint.h>
#include <stdio.h>
#include <stdlib.h>
#include <string.h>

int main(int count, char **words) {
    if (count != 4) return 2;
    size_t bytes = strtoul(words[2], NULL, 10);
    uint32_t turns = strtoul(words[3], NULL, 10), done = 0;
    // By way of pointers that may change, so that the compiler leaves no call out.
    void *(*volatile fill)(void *, int, size_t) = memset;
    int (*volatile compare)(const void *, const void *, size_t) = memcmp;
    unsigned char *one = calloc(bytes, 1), *other = calloc(bytes, 1);
    if (!one || !other) return 1;
    if (strcmp(words[1], "fill") == 0) {
        for (; done < turns; done++) fill(one, (int)done, bytes);
    } else {
        memset(one, 1, bytes);
        memset(other, 1, bytes);
        for (; done < turns; done++) {
            if (compare(one, other, bytes) != 0) return 3;
        }
    }
    printf("%u\n", done);
    return 0;
}

// The same allocations and frees by the host's malloc.
#include <stdint.h>
#include <stdio.h>
#include <stdlib.h>

int main(void) {
    void *places[64] = {0};
    uint32_t number = 1;
    unsigned long allocations = 0, frees = 0;
    for (int i = 0; i < 1000000; i++) {
        number = number * 1664525u + 1013904223u;
        unsigned place = number >> 26;
        if (places[place]) frees++;
        free(places[place]);
        places[place] = malloc(1 + (number >> 16) % 1024);
        if (!places[place]) return 2;
        *(volatile char *)places[place] = 1;
        allocations++;
    }
    printf("allocations %lu frees %lu signals 0\n", allocations, frees);
    return 0;
}

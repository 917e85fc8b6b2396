/* The primes below 30,000, by the sieve of Eratosthenes over a static array. */
#include "out.h"

#define LIMIT 30000u

static uint8_t is_composite[LIMIT];

int main(void)
{
    uint32_t count = 0, sum = 0, last = 0, twins = 0;
    for (uint32_t n = 2; n < LIMIT; n++) {
        if (is_composite[n])
            continue;
        if (count > 0 && n - last == 2)
            twins++;
        count++;
        sum += n;
        last = n;
        for (uint32_t m = n * n; n < 174 && m < LIMIT; m += n)
            is_composite[m] = 1;
    }
    out_text("primes below ");
    out_number(LIMIT, 0);
    out_text(": ");
    out_number(count, 0);
    out_text("\ntheir sum: ");
    out_number(sum, 0);
    out_text("\npairs of twins: ");
    out_number(twins, 0);
    out_text("\nthe last hundred:\n");
    uint32_t seen = 0;
    for (uint32_t n = 2; n < LIMIT; n++) {
        if (is_composite[n])
            continue;
        if (seen + 100 >= count) {
            out_number(n, 6);
            if ((seen + 100 - count) % 10 == 9)
                out_char('\n');
        }
        seen++;
    }
    out_flush();
    return 0;
}

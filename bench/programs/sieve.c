/* Counts the primes below two million, four times. */
#include "check.h"

enum { LIMIT = 2000000 };
static unsigned char composite[LIMIT];

static unsigned primes(void) {
    unsigned count = 0;
    for (unsigned i = 2; i < LIMIT; i++)
        composite[i] = 0;
    for (unsigned i = 2; i < LIMIT; i++) {
        if (composite[i])
            continue;
        count++;
        for (unsigned long long j = (unsigned long long)i * i; j < LIMIT; j += i)
            composite[j] = 1;
    }
    return count;
}

void _start(void) {
    for (int round = 0; round < 4; round++)
        check(primes() == 148933);
}

/* The 34th number of Fibonacci, by recursion. */
#include "check.h"

static __attribute__((noinline)) unsigned fibonacci(unsigned n) {
    return n < 2 ? n : fibonacci(n - 1) + fibonacci(n - 2);
}

void _start(void) {
    check(fibonacci(34) == 5702887);
}

// Sorts a million numbers by a heap, and checks that they rise.
#include "check.h"
enum { COUNT = 1000000 };
static unsigned numbers[COUNT];

static void sink(unsigned at, unsigned end) {
    unsigned moved = numbers[at];
    for (unsigned child; (child = 2 * at + 1) < end; at = child) {
        if (child + 1 < end && numbers[child] < numbers[child + 1]) child++;
        if (numbers[child] <= moved) break;
        numbers[at] = numbers[child];
    }
    numbers[at] = moved;
}

void _start(void) {
    unsigned state = 1;
    for (unsigned at = 0; at < COUNT; at++) numbers[at] = state = state * 1664525 + 1013904223;
    for (unsigned at = COUNT / 2; at > 0; at--) sink(at - 1, COUNT);
    for (unsigned end = COUNT - 1; end > 0; end--) {
        unsigned largest = numbers[0];
        numbers[0] = numbers[end], numbers[end] = largest;
        sink(0, end);
    }
    for (unsigned at = 1; at < COUNT; at++) check(numbers[at - 1] <= numbers[at]);
}

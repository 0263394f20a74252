/* A program that found a wrong number traps. */
static void check(int holds) {
    if (!holds)
        __builtin_trap();
}

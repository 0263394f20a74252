/* A state machine that counts the numbers, the words and the strings of a text of drawn bytes. */
#include "check.h"

enum { SIZE = 1 << 20 };
static unsigned char text[SIZE];

enum state { BLANK, NUMBER, WORD, STRING, ESCAPE };

static unsigned numbers, words, strings, broken;

static enum state next(enum state state, unsigned char c) {
    switch (state) {
    case STRING:
        if (c == '"') {
            strings++;
            return BLANK;
        }
        return c == '\\' ? ESCAPE : STRING;
    case ESCAPE:
        return STRING;
    case NUMBER:
        if (c >= '0' && c <= '9')
            return NUMBER;
        numbers++;
        break;
    case WORD:
        if ((c >= 'a' && c <= 'z') || c == '_' || (c >= '0' && c <= '9'))
            return WORD;
        words++;
        break;
    case BLANK:
        break;
    }
    if (c >= '0' && c <= '9')
        return NUMBER;
    if ((c >= 'a' && c <= 'z') || c == '_')
        return WORD;
    if (c == '"')
        return STRING;
    if (c != ' ')
        broken++;
    return BLANK;
}

void _start(void) {
    unsigned seed = 1;
    for (int i = 0; i < SIZE; i++) {
        seed = seed * 1664525 + 1013904223;
        text[i] = " ab_09z\"\\ 7q+x1"[(seed >> 16) % 15];
    }
    for (int round = 0; round < 4; round++) {
        numbers = words = strings = broken = 0;
        enum state state = BLANK;
        for (int i = 0; i < SIZE; i++)
            state = next(state, text[i]);
        check(numbers == 45163 && words == 92618 && strings == 33921 && broken == 67917);
    }
}

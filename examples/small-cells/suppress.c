// Takes "REGION GROUP SUM" from its input and publishes it, but a sum below 5 as "fewer than 5", since few members of a
// group could be known again.
#include "../programs/text.h"

enum { LEAST = 5 };

static struct text sums, published;
static char *lines[MOST_LINES];

int main(void) {
    add_all(&sums, 0);
    size_t count = cut_lines(&sums, lines);
    for (size_t at = 0; at < count; at++) {
        char *space = strrchr(lines[at], ' ');
        if (space && strtoul(space + 1, NULL, 10) < LEAST) {
            *space = 0;
            add_words(&published, lines[at]);
            add_words(&published, " fewer than 5");
        } else {
            add_words(&published, lines[at]);
        }
        add_words(&published, "\n");
    }
    put_file("/published/table", &published);
    return 0;
}

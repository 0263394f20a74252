// Adds up the tables of three offices, whose lines are "REGION GROUP COUNT", and writes the sums to its output.
#include "../programs/text.h"

struct cell {
    const char *name;
    unsigned long count;
};

static struct text tables, output;
static char *lines[MOST_LINES];
static struct cell cells[MOST_LINES];

static int by_name(const void *a, const void *b) {
    return strcmp(((const struct cell *)a)->name, ((const struct cell *)b)->name);
}

// Parts a line at its last space.
static struct cell cell_of(char *line) {
    char *space = strrchr(line, ' ');
    if (!space)
        fail(5, "a line has no count\n");
    *space = 0;
    return (struct cell){line, strtoul(space + 1, NULL, 10)};
}

int main(void) {
    add_file(&tables, "/tables/north");
    add_file(&tables, "/tables/south");
    add_file(&tables, "/tables/coast");
    size_t count = cut_lines(&tables, lines);
    for (size_t at = 0; at < count; at++)
        cells[at] = cell_of(lines[at]);
    qsort(cells, count, sizeof *cells, by_name);
    for (size_t at = 0, next; at < count; at = next) {
        unsigned long sum = 0;
        for (next = at; next < count && strcmp(cells[next].name, cells[at].name) == 0; next++)
            sum += cells[next].count;
        add_words(&output, cells[at].name);
        add_words(&output, " ");
        add_number(&output, sum);
        add_words(&output, "\n");
    }
    put_all(1, &output);
    return 0;
}

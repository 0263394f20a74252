// Counts the patients whom two hospitals share: the lines that stand in both lists, each counted once.
#include "../programs/text.h"

static struct text anna, lakeside, result;
static char *ours[MOST_LINES], *theirs[MOST_LINES];

static int by_bytes(const void *a, const void *b) {
    return strcmp(*(char *const *)a, *(char *const *)b);
}

// The list's lines in order, each once.
static size_t sorted_lines(struct text *list, char **lines) {
    size_t count = cut_lines(list, lines), kept = 0;
    qsort(lines, count, sizeof *lines, by_bytes);
    for (size_t at = 0; at < count; at++)
        if (kept == 0 || strcmp(lines[at], lines[kept - 1]) != 0)
            lines[kept++] = lines[at];
    return kept;
}

static unsigned long shared(char **a, size_t of_a, char **b, size_t of_b) {
    unsigned long count = 0;
    for (size_t i = 0, j = 0; i < of_a && j < of_b;) {
        int order = strcmp(a[i], b[j]);
        count += order == 0;
        i += order <= 0;
        j += order >= 0;
    }
    return count;
}

int main(void) {
    add_file(&anna, "/anna/patients");
    add_file(&lakeside, "/lakeside/patients");
    size_t of_ours = sorted_lines(&anna, ours);
    size_t of_theirs = sorted_lines(&lakeside, theirs);
    add_number(&result, shared(ours, of_ours, theirs, of_theirs));
    add_words(&result, "\n");
    put_file("/result/shared", &result);
    return 0;
}

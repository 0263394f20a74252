// Scores the invoices of three suppliers. The bank rates each supplier from 1 (good) to 9; an invoice's score is its
// supplier's rating times the days that it is late, times its amount in whole thousands. The bank gets every score, a
// supplier the scores of its own invoices.
#include "../programs/text.h"

static struct text ratings, invoices, for_bank, for_supplier;
static char *lines[MOST_LINES];

static const char *const suppliers[] = {"21", "22", "23"};

static void add_path(struct text *path, const char *folder, const char *supplier, const char *name) {
    path->length = 0;
    add_words(path, folder);
    add_words(path, supplier);
    add_words(path, name);
}

// The bank's rating of a supplier, from the lines "SUPPLIER RATING"; 9 where it gives none.
static unsigned long rating_of(const char *supplier) {
    for (const char *line = ratings.bytes; line; line = strchr(line, '\n')) {
        line += *line == '\n';
        size_t length = strlen(supplier);
        if (strncmp(line, supplier, length) == 0 && line[length] == ' ')
            return strtoul(line + length, NULL, 10);
    }
    return 9;
}

// Adds "INVOICE SCORE" for a line "INVOICE AMOUNT DAYS".
static void add_score(struct text *text, const char *line, unsigned long rating) {
    size_t name = strcspn(line, " ");
    char invoice[64] = {0};
    if (name >= sizeof invoice)
        fail(5, "the number of an invoice is too long\n");
    memcpy(invoice, line, name);
    char *rest;
    unsigned long amount = strtoul(line + name, &rest, 10);
    unsigned long days = strtoul(rest, NULL, 10);
    add_words(text, invoice);
    add_words(text, " ");
    add_number(text, rating * days * (amount / 1000));
    add_words(text, "\n");
}

static void score_supplier(const char *supplier) {
    static struct text path;
    invoices.length = for_supplier.length = 0;
    add_path(&path, "/suppliers/", supplier, "/invoices");
    add_file(&invoices, path.bytes);
    unsigned long rating = rating_of(supplier);
    size_t count = cut_lines(&invoices, lines);
    for (size_t at = 0; at < count; at++) {
        add_score(&for_supplier, lines[at], rating);
        add_words(&for_bank, supplier);
        add_words(&for_bank, " ");
        add_score(&for_bank, lines[at], rating);
    }
    add_path(&path, "/suppliers/", supplier, "/scores");
    put_file(path.bytes, &for_supplier);
}

int main(void) {
    add_file(&ratings, "/bank/ratings");
    for (size_t at = 0; at < sizeof suppliers / sizeof *suppliers; at++)
        score_supplier(suppliers[at]);
    put_file("/bank/scores", &for_bank);
    return 0;
}

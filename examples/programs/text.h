// Reading and writing whole texts, with wasi-libc's calls on files alone: its printf would bring in floating point,
// which the runtime does not take.
#ifndef TEXT_H
#define TEXT_H

#include <fcntl.h>
#include <stdlib.h>
#include <string.h>
#include <unistd.h>

enum { MOST_TEXT = 1 << 20, MOST_LINES = 1 << 16 };

// A text of at most MOST_TEXT bytes, with a zero byte after it.
struct text {
    char bytes[MOST_TEXT + 1];
    size_t length;
};

static inline void fail(int code, const char *why) {
    (void)!write(2, why, strlen(why));
    exit(code);
}

// All that a descriptor gives, after what the text has already.
static inline void add_all(struct text *text, int from) {
    ssize_t count;
    while ((count = read(from, text->bytes + text->length, MOST_TEXT - text->length)) > 0)
        text->length += (size_t)count;
    if (count < 0 || text->length == MOST_TEXT)
        fail(3, "a text can't be read, or is too long\n");
    text->bytes[text->length] = 0;
}

static inline void add_file(struct text *text, const char *path) {
    int file = open(path, O_RDONLY);
    if (file < 0)
        fail(2, "a file is not there, or may not be read\n");
    add_all(text, file);
    close(file);
}

static inline void add_words(struct text *text, const char *words) {
    size_t length = strlen(words);
    if (text->length + length > MOST_TEXT)
        fail(3, "a text is too long\n");
    memcpy(text->bytes + text->length, words, length + 1);
    text->length += length;
}

static inline void add_number(struct text *text, unsigned long number) {
    char digits[24];
    size_t at = sizeof digits;
    digits[--at] = 0;
    do
        digits[--at] = (char)('0' + number % 10);
    while (number /= 10);
    add_words(text, digits + at);
}

static inline void put_all(int to, const struct text *text) {
    for (size_t at = 0; at < text->length;) {
        ssize_t count = write(to, text->bytes + at, text->length - at);
        if (count <= 0)
            fail(4, "a text can't be written\n");
        at += (size_t)count;
    }
}

static inline void put_file(const char *path, const struct text *text) {
    int file = open(path, O_WRONLY | O_CREAT | O_TRUNC, 0666);
    if (file < 0)
        fail(4, "a file may not be written\n");
    put_all(file, text);
    close(file);
}

// Cuts a text into its lines, and answers how many there are. Empty lines are left out.
static inline size_t cut_lines(struct text *text, char **lines) {
    size_t count = 0;
    for (char *line = strtok(text->bytes, "\n"); line; line = strtok(NULL, "\n")) {
        if (count == MOST_LINES)
            fail(3, "a text has too many lines\n");
        lines[count++] = line;
    }
    return count;
}

#endif

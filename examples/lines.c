/* Indexes each line of FILE by itself and writes its number and its verdict:  lines FILE
 *
 *   .ci/archive
 *   cc -std=c99 -O2 -Iinclude examples/lines.c target/staticlib/libface.a -o lines
 */
#include <stdio.h>
#include <stdlib.h>

#include "wararish.h"

#define LEVELS 1

/* Reads up to one byte above the limit, which the table then refuses. */
static size_t read_text(const char *name, uint8_t *text) {
    FILE *file = fopen(name, "rb");
    size_t n = 0;
    if (file != NULL) {
        n = fread(text, 1, WARARISH_LIMIT + 1, file);
    }
    if (file == NULL || ferror(file)) {
        perror(name);
        exit(66);
    }
    fclose(file);
    return n;
}

/* Memory for so many elements and one more, so that there always is some. */
static void *lend(size_t count, size_t size) {
    void *memory = malloc((count + 1) * size);
    if (memory == NULL) {
        fprintf(stderr, "lines: not enough memory\n");
        exit(71);
    }
    return memory;
}

/* The bytes of the longest line. */
static size_t longest(const size_t *table, size_t count) {
    size_t most = 0, i;
    for (i = 0; i < count; i++) {
        size_t size = table[2 * i + 1] - table[2 * i];
        most = size > most ? size : most;
    }
    return most;
}

/* Writes a row for each line, and gives the exit status: 2 where one is faulty. */
static int tell(const uint8_t *text, size_t n, const size_t *table, size_t count) {
    const size_t word_count = WARARISH_WORDS(LEVELS, longest(table, count));
    uint64_t *words = lend(word_count, sizeof *words);
    int status = 0;
    size_t i, place;
    for (i = 0; i < count; i++) {
        /* the words are lent to one line after another */
        uint64_t number = wararish_line(text, n, table, 2 * count, i, words, word_count, LEVELS,
                                        &place);
        if (number == 0) {
            printf("%lu sound\n", (unsigned long)i);
        } else {
            printf("%lu faulty %u %lu\n", (unsigned long)i, (unsigned)number, (unsigned long)place);
            status = 2;
        }
    }
    free(words);
    return status;
}

int main(int count, char **arguments) {
    uint8_t *text = lend(WARARISH_LIMIT, sizeof *text);
    size_t *table;
    size_t n, lines;
    uint64_t number;
    int status;

    if (count != 2) {
        fprintf(stderr, "usage: lines FILE\n");
        return 64;
    }
    n = read_text(arguments[1], text);
    table = lend(n, sizeof *table);

    number = wararish_table(text, n, table, n + 1, &lines);
    if (number != 0) {
        fprintf(stderr, "lines: number %u\n", (unsigned)number);
        return 2;
    }
    status = tell(text, n, table, lines);
    free(table);
    free(text);
    return fflush(stdout) == 0 ? status : 74;
}

/* Asks the record in FILE for PATH and writes the part it finds:  ask PATH FILE
 *
 *   .ci/archive
 *   cc -std=c99 -O2 -Iinclude examples/ask.c target/staticlib/libface.a -o ask
 */
#include <stdio.h>
#include <stdlib.h>
#include <string.h>

#include "wararish.h"

#define LEVELS 4

/* Reads up to one byte above the limit, which the index then refuses. */
static size_t read_record(const char *name, uint8_t *record) {
    FILE *file = fopen(name, "rb");
    size_t n = 0;
    if (file != NULL) {
        n = fread(record, 1, WARARISH_LIMIT + 1, file);
    }
    if (file == NULL || ferror(file)) {
        perror(name);
        exit(66);
    }
    fclose(file);
    return n;
}

/* Ends the program where a number is not 0. A step of 0 is none. */
static void check(uint64_t number, size_t place, size_t step) {
    if (number == 0) {
        return;
    }
    fprintf(stderr, "ask: number %u, place %lu", (unsigned)number, (unsigned long)place);
    if (step != 0) {
        fprintf(stderr, ", step %lu", (unsigned long)step);
    }
    fputc('\n', stderr);
    exit(number < 20 ? 2 : 1);
}

int main(int count, char **arguments) {
    const size_t most = WARARISH_WORDS(LEVELS, WARARISH_LIMIT);
    uint8_t *record = malloc(WARARISH_LIMIT + 1);
    uint64_t *words = malloc(most * sizeof *words);
    const size_t no_cuts = 0;
    size_t n, word_count, place, size, step;
    uint64_t number;

    if (count != 3) {
        fprintf(stderr, "usage: ask PATH FILE\n");
        return 64;
    }
    if (record == NULL || words == NULL) {
        fprintf(stderr, "ask: not enough memory\n");
        return 71;
    }
    n = read_record(arguments[2], record);
    word_count = n <= WARARISH_LIMIT ? WARARISH_WORDS(LEVELS, n) : 0;

    number = wararish_index(record, n, words, word_count, LEVELS, &no_cuts, 0, &place);
    check(number, place, 0);

    number = wararish_query(record, n, words, word_count, LEVELS, (const uint8_t *)arguments[1],
                            strlen(arguments[1]), &place, &size, &step);
    check(number, place, step);

    fwrite(record + place, 1, size, stdout);
    putchar('\n');
    free(words);
    free(record);
    return fflush(stdout) == 0 ? 0 : 74;
}

/* Walks a path through a table many times, as plainly as it can be done: a class for each byte, a row of cells for each state.
   Usage: walk TABLE PATH TIMES. TABLE holds numbers of 32 bits: how many rows and classes, 256 classes, the cells, a value for each row. */
#include <stdint.h>
#include <stdio.h>
#include <stdlib.h>
#include <string.h>

static __attribute__((noinline)) uint32_t value_at(const uint32_t *table, const unsigned char *path, size_t length) {
    uint32_t classes = table[1];
    const uint32_t *class_of = table + 2, *cells = table + 258;
    uint32_t row = 0;
    for (size_t at = 0; at < length; at++)
        row = cells[(size_t)row * classes + class_of[path[at]]];
    return cells[(size_t)table[0] * classes + row];
}

int main(int count, char **words) {
    FILE *file = count == 4 ? fopen(words[1], "rb") : NULL;
    if (!file || fseek(file, 0, SEEK_END)) return 2;
    size_t size = (size_t)ftell(file);
    uint32_t *table = malloc(size);
    rewind(file);
    if (!table || fread(table, 1, size, file) != size) return 3;
    size_t length = strlen(words[2]);
    unsigned long times = strtoul(words[3], NULL, 10), granted = 0;
    for (unsigned long n = 0; n < times; n++) {
        const unsigned char *path = (const unsigned char *)words[2];
        __asm__ volatile("" : "+r"(path));
        granted += value_at(table, path, length) & 1;
    }
    printf("%lu\n", granted);
    return 0;
}

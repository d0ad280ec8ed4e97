/* What a program lends to the library, for the programs of this folder; inline, since not each of them needs both. */
#include "../../include/search_graph.h"
#include "read_file.h"

/* A number of the book's first line: three columns. What is no number is refused by the query itself, so 0 will do for it. */
static inline size_t header_field(const uint8_t *book, size_t length, size_t column) {
    size_t n = 0;
    if (length < 16) return 0;
    for (size_t i = column; i < column + 3; i++)
        if ('0' <= book[i] && book[i] <= '9') n = 10 * n + (size_t)(book[i] - '0');
    return n;
}

/* Zeros, at least one byte. */
static inline uint8_t *zeros(size_t length) {
    return calloc(length == 0 ? 1 : length, 1);
}

/* One query, or one book tidied, with the buffers of one's choice, to see refusals that a careful caller never meets:

       refusal BOOK CACHE WORK_LENGTH GOAL DEPTH
       refusal BOOK OUTPUT_LENGTH

   CACHE is a file of hexadecimal bytes, a slot to a line. Prints answer and refusal, and whether the
   cache was left as it was, filled with zeros, or changed; of a book that is tidied the length used and
   refusal, and the same of the output. Exit status: 0, or 2 where nothing was asked. */
#include "lent.h"

#include <string.h>

/* Turns text into the bytes that it names, in place, and gives their number. */
static size_t from_hexadecimal(uint8_t *text, size_t length) {
    size_t digits = 0;
    for (size_t i = 0; i < length; i++) {
        const char *all = "0123456789abcdef", *found = text[i] == 0 ? NULL : strchr(all, text[i]);
        if (found == NULL) continue;
        uint8_t digit = (uint8_t)(found - all);
        if (digits % 2 == 0)
            text[digits / 2] = (uint8_t)(16 * digit);
        else
            text[digits / 2] = (uint8_t)(text[digits / 2] + digit);
        digits++;
    }
    return digits / 2;
}

static const char *fate(const uint8_t *before, const uint8_t *after, size_t length) {
    size_t zero = 0;
    while (zero < length && after[zero] == 0) zero++;
    if (memcmp(before, after, length) == 0) return "left as it was";
    return zero == length ? "filled with zeros" : "changed";
}

/* Tidies a book into an output that holds neither zeros nor a book's bytes before. */
static int tidied(const char *path, size_t out_len) {
    size_t book_len;
    uint8_t *book = read_file(path, &book_len), *before = zeros(out_len), *out = zeros(out_len);
    if (book == NULL || before == NULL || out == NULL) {
        fprintf(stderr, "refusal: the book cannot be read\n");
        return 2;
    }
    memset(before, 255, out_len);
    memcpy(out, before, out_len);
    uint32_t code = search_graph_tidy(book, book_len, out, out_len);
    printf("length used %u, refusal %u; the output was %s\n", (unsigned)(code % 65536), (unsigned)(code / 65536),
           fate(before, out, out_len));
    free(book);
    free(before);
    free(out);
    return 0;
}

int main(int argc, char **argv) {
    if (argc == 3) return tidied(argv[1], strtoul(argv[2], NULL, 10));
    if (argc != 6) {
        fprintf(stderr, "usage: refusal BOOK CACHE WORK_LENGTH GOAL DEPTH\n       refusal BOOK OUTPUT_LENGTH\n");
        return 2;
    }
    size_t book_len, cache_len, work_len = strtoul(argv[3], NULL, 10);
    uint8_t *book = read_file(argv[1], &book_len), *cache = read_file(argv[2], &cache_len);
    uint8_t *work = zeros(work_len);
    if (book == NULL || cache == NULL || work == NULL) {
        fprintf(stderr, "refusal: a file cannot be read\n");
        return 2;
    }
    cache_len = from_hexadecimal(cache, cache_len);
    uint8_t *before = malloc(cache_len == 0 ? 1 : cache_len);
    if (before == NULL) return 2;
    memcpy(before, cache, cache_len);
    uint32_t code = search_graph_query(book, book_len, cache, cache_len, work, work_len,
                                       strtoul(argv[4], NULL, 10), strtoul(argv[5], NULL, 10));
    printf("answer %u, refusal %u; the cache was %s\n", (unsigned)(code % 256), (unsigned)(code / 256),
           fate(before, cache, cache_len));
    free(before);
    free(book);
    free(cache);
    free(work);
    return 0;
}

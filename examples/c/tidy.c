/* Prints a book in its plain form, from C:   tidy BOOK

   How many lines that saves, or a refusal, is said on standard error, so that standard output is the
   plain book alone. Exit status: 0, 1 the book is refused, 2 nothing could be tidied. */
#include "lent.h"

int main(int argc, char **argv) {
    size_t book_len;
    uint8_t *book = argc == 2 ? read_file(argv[1], &book_len) : NULL;
    if (book == NULL) {
        fprintf(stderr, "usage: tidy BOOK, a file that can be read\n");
        return 2;
    }
    uint8_t *out = zeros(book_len); /* exactly as long as the book, though less may be used */
    if (out == NULL) {
        fprintf(stderr, "tidy: no memory\n");
        return 2;
    }

    uint32_t code = search_graph_tidy(book, book_len, out, book_len);
    size_t used = code % 65536, refusal = code / 65536;
    if (refusal != 0) {
        fprintf(stderr, "refused %zu\n", refusal);
    } else {
        fprintf(stderr, "%zu of %zu lines are saved\n", (book_len - used) / 16, book_len / 16);
        fwrite(out, 1, used, stdout);
    }
    free(book);
    free(out);
    return refusal != 0;
}

/* Tells from C whether every Yes and No of a book is proved right:   guarantee BOOK

   Exit status: 0 it is, 1 it is not, or the book is refused, 2 there is no book. */
#include "../../include/search_graph.h"
#include "read_file.h"

int main(int argc, char **argv) {
    if (argc != 2) {
        fprintf(stderr, "usage: guarantee BOOK\n");
        return 2;
    }
    size_t book_len;
    uint8_t *book = read_file(argv[1], &book_len);
    if (book == NULL) {
        fprintf(stderr, "guarantee: %s cannot be read\n", argv[1]);
        return 2;
    }

    uint64_t out[3]; /* an inductive line, a coinductive line, and the group that both are inside of */
    uint32_t refusal = search_graph_guarantee(book, book_len, out, 3) / 256;
    free(book);
    if (refusal != 0) {
        printf("refused %u\n", (unsigned)refusal);
        return 1;
    }
    if (out[0] == 0) {
        printf("every Yes and No is proved right\n");
        return 0;
    }
    printf("lines %u (inductive) and %u (coinductive) stand inside one group, of goals", (unsigned)out[0], (unsigned)out[1]);
    for (int goal = 0; goal < 64; goal++)
        if (out[2] >> goal & 1) printf(" %d", goal);
    printf("; the header is line 0\n");
    return 1;
}

/* Asks goals of a book from C:   ask_book BOOK GOAL DEPTH [GOAL DEPTH ...]

   Unlike the question program it takes books of up to 64 goals. Exit status: 0 every question was
   answered, 1 one was refused, 2 nothing could be asked. */
#include "lent.h"

int main(int argc, char **argv) {
    static const char *const answers[] = {"No", "Yes", "undecided", "overflow"};
    if (argc < 4 || argc % 2 != 0) {
        fprintf(stderr, "usage: ask_book BOOK GOAL DEPTH [GOAL DEPTH ...]\n");
        return 2;
    }
    size_t book_len;
    uint8_t *book = read_file(argv[1], &book_len);
    if (book == NULL) {
        fprintf(stderr, "ask_book: %s cannot be read\n", argv[1]);
        return 2;
    }

    /* The lengths follow from the first line; the cache begins as zeros and is kept for all questions. */
    size_t goals = header_field(book, book_len, 3), top_depth = header_field(book, book_len, 6);
    size_t cache_len = search_graph_cache_len(goals, top_depth), work_len = search_graph_work_len(goals);
    uint8_t *cache = zeros(cache_len), *work = zeros(work_len);
    if (cache == NULL || work == NULL) {
        fprintf(stderr, "ask_book: no memory\n");
        return 2;
    }

    int status = 0;
    for (int i = 2; i < argc; i += 2) {
        size_t goal = strtoul(argv[i], NULL, 10), depth = strtoul(argv[i + 1], NULL, 10);
        uint32_t code = search_graph_query(book, book_len, cache, cache_len, work, work_len, goal, depth);
        uint32_t answer = code % 256, refusal = code / 256;
        if (refusal != 0) {
            printf("goal %zu at depth %zu: refused %u\n", goal, depth, (unsigned)refusal);
            status = 1;
        } else {
            printf("goal %zu at depth %zu: %s\n", goal, depth, answers[answer]);
        }
    }
    free(book);
    free(cache);
    free(work);
    return status;
}

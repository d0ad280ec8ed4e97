/* Tells from C how many passes each goal of a book takes:   passes BOOK

   Every goal is asked at the top depth, each with a cache of zeros. Exit status: 0 every goal was
   answered, 1 one was refused, 2 nothing could be asked. */
#include "lent.h"

#include <string.h>

/* The passes of what an accepted query found, where include/search_graph.h says that it stands. */
static unsigned passes(const uint8_t *cache, size_t goals, size_t top_depth, size_t goal, size_t depth) {
    size_t slot = goals + 4;
    const uint8_t *first = cache + goal * (top_depth + 2) * slot;
    return first[0] == 1 && first[2] <= depth ? first[3] : first[(1 + depth) * slot + 3];
}

int main(int argc, char **argv) {
    static const char *const answers[] = {"No", "Yes", "undecided", "overflow"};
    size_t book_len;
    uint8_t *book = argc == 2 ? read_file(argv[1], &book_len) : NULL;
    if (book == NULL) {
        fprintf(stderr, "usage: passes BOOK, a file that can be read\n");
        return 2;
    }
    size_t goals = header_field(book, book_len, 3), top_depth = header_field(book, book_len, 6);
    size_t cache_len = search_graph_cache_len(goals, top_depth), work_len = search_graph_work_len(goals);
    uint8_t *cache = zeros(cache_len), *work = zeros(work_len);
    if (cache == NULL || work == NULL) {
        fprintf(stderr, "passes: no memory\n");
        return 2;
    }

    int status = 0;
    for (size_t goal = 0; goal < goals; goal++) {
        memset(cache, 0, cache_len);
        uint32_t code = search_graph_query(book, book_len, cache, cache_len, work, work_len, goal, top_depth);
        if (code / 256 != 0) {
            printf("goal %zu: refused %u\n", goal, (unsigned)(code / 256));
            status = 1;
        } else {
            printf("goal %zu: %s, passes %u\n", goal, answers[code % 256], passes(cache, goals, top_depth, goal, top_depth));
        }
    }
    free(book);
    free(cache);
    free(work);
    return status;
}

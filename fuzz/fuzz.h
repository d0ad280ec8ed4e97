/* What the files of the fuzz harness share. */
#ifndef FUZZ_H
#define FUZZ_H

#include <stddef.h>
#include <stdint.h>

/* Room for any book, cache and workspace that is asked with, those of wrong lengths too. */
#define ROOM ((size_t)1 << 20)

/* The bytes that a scenario is made of. After the last one come zeros. */
struct input {
    const uint8_t *at;
    size_t left;
};

static inline unsigned take(struct input *in) {
    if (in->left == 0) return 0;
    in->left--;
    return *in->at++;
}

static inline unsigned take2(struct input *in) {
    unsigned low = take(in);
    return low + 256 * take(in);
}

struct bytes {
    uint8_t *at;
    size_t len;
};

struct query {
    struct bytes book, cache, work;
    size_t goal, depth;
};

/* What a book's header says of its caches; `passes` are the most that a slot may say, L or 1. */
struct header {
    unsigned goals, top, passes;
};

/* Where a slot's bytes stand; from FLAGS on there is one for each goal. */
enum { HELD, RESULT, DEPTH, PASSES, FLAGS };

/* ---- make.c: books, caches and lengths, right and wrong, of an input */

void put_field(uint8_t *to, unsigned n);
void make_book(struct input *in, struct bytes *book);
void make_cache(struct input *in, const struct header *h, struct bytes *cache);
void make_noise(unsigned seed, uint8_t *to, size_t len);
size_t other_length(struct input *in, size_t right);

/* ---- expected.c: refusals 1 to 9 and 14, decided apart from the library */

/* Of three columns that hold one. */
unsigned number(const uint8_t *at);
size_t work_length(size_t goals);
size_t cache_length(size_t goals, size_t top);
unsigned book_refusal(const uint8_t *book, size_t len, struct header *header);
int cache_is_well_formed(const uint8_t *cache, const struct header *h);
unsigned expected_refusal(const struct query *q);
unsigned tidy_refusal(const struct bytes *book, size_t out_len);

/* ---- groups.c: the condition of mixed books, decided apart from the library */

/* Of a good book: the two lines and the group that break the condition, and whether something does. */
enum { CONFLICT = 3 };
int expected_conflict(const uint8_t *book, size_t len, uint64_t conflict[CONFLICT]);

/* ---- tidy.c: a book's plain form, decided apart from the library */

/* Of a good book: writes as many bytes as it has, and returns how many of them the plain form takes. */
size_t expected_tidy(const uint8_t *book, size_t len, uint8_t *out);

/* ---- place.c: copies of a query's buffers where a step past an end is seen */

enum { PLACES = 3 };
void place(const struct query *q, int how, struct query *placed);
void unplace(struct query *placed, int how);

/* ---- target.c */

int LLVMFuzzerTestOneInput(const uint8_t *data, size_t size);

/* Whether there were so many queries, and among them enough of every answer and refusal; what there is too little of is told. */
int enough_seen(unsigned long least);

#endif

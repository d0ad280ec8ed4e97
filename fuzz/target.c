/* The fuzz target: an input's bytes make a book, a cache, workspaces and queries; the library is asked, and every reply is held to
   include/search_graph.h. A broken promise is told on standard error and ends the process by abort(). */
#include "../include/search_graph.h"
#include "fuzz.h"

#include <setjmp.h>
#include <signal.h>
#include <stdio.h>
#include <stdlib.h>
#include <string.h>
#include <sys/time.h>

enum { LAST_UNTOUCHED = 9, REFUSALS = 11, ANSWERS = 4, LIMIT_MS = 300 };
enum { PLAIN, CHANGED, UNREADABLE, OUTPUT_LENGTH, TIDIED };

/* ---- what was seen */

static unsigned long inputs, queries, too_long, answers[ANSWERS], refusals[REFUSALS + 1];
static unsigned long given, broken; /* guarantees */
static unsigned long tidied[TIDIED]; /* books by what tidying gave */

static void tell(void) {
    printf("%lu inputs, %lu queries of %d calls each; No %lu, Yes %lu, undecided %lu, overflow %lu; refusals 1 to 11:", inputs, queries, PLACES,
           answers[0], answers[1], answers[2], answers[3]);
    for (int i = 1; i <= REFUSALS; i++) printf(" %lu", refusals[i]);
    printf("; too long %lu; guarantees given %lu, broken %lu", too_long, given, broken);
    printf("; tidied: plain already %lu, changed %lu, refused 1 to 4 %lu, 14 %lu\n", tidied[PLAIN], tidied[CHANGED],
           tidied[UNREADABLE], tidied[OUTPUT_LENGTH]);
}

/* Of every 10,000 queries at least so many: a third of what random inputs give, and less of what is rare. */
enum { LEAST_GIVEN = 400, LEAST_BROKEN = 250 };
static const unsigned long least_answers[ANSWERS] = {250, 250, 250, 400};
static const unsigned long least_refusals[REFUSALS + 1] = {0, 500, 200, 40, 400, 90, 80, 25, 300, 20, 1, 12};
static const unsigned long least_tidied[TIDIED] = {280, 320, 350, 80};

static int has(const char *what, int number, unsigned long seen, unsigned long least) {
    if (seen < least) fprintf(stderr, "fuzz: %s %d: %lu, fewer than %lu in %lu queries\n", what, number, seen, least, queries);
    return seen >= least;
}

int enough_seen(unsigned long least) {
    unsigned long times = queries / 10000;
    int enough = queries >= least;
    if (!enough) fprintf(stderr, "fuzz: %lu queries, fewer than %lu\n", queries, least);
    for (int i = 0; i < ANSWERS; i++) enough &= has("answer", i, answers[i], times * least_answers[i]);
    for (int i = 1; i <= REFUSALS; i++) enough &= has("refusal", i, refusals[i], times * least_refusals[i]);
    for (int i = 0; i < TIDIED; i++) enough &= has("tidied, outcome", i, tidied[i], times * least_tidied[i]);
    enough &= has("guarantee given", 1, given, times * LEAST_GIVEN) & has("guarantee given", 0, broken, times * LEAST_BROKEN);
    return enough;
}

static void fail(const struct query *q, uint32_t code, const char *what) {
    fprintf(stderr, "fuzz: %s (answer %u, refusal %u; lengths of book %zu, cache %zu, work %zu; goal %zu, depth %zu)\n", what, (unsigned)(code % 256),
            (unsigned)(code / 256), q->book.len, q->cache.len, q->work.len, q->goal, q->depth);
    abort();
}

/* ---- a call with a time limit: evaluation is exponential in the worst case */

static sigjmp_buf limit_reached;
static volatile sig_atomic_t running;

static void at_limit(int signal) {
    (void)signal;
    if (running) siglongjmp(limit_reached, 1);
}

static void set_limit(int ms) {
    struct itimerval t = {{0, 0}, {0, 1000 * ms}};
    running = ms != 0;
    setitimer(ITIMER_VIRTUAL, &t, NULL);
}

/* The library allocates nothing and has no state, so it may be left in the middle. */
static int call(struct query *q, uint32_t *code) {
    if (sigsetjmp(limit_reached, 1) != 0) {
        set_limit(0);
        return 0;
    }
    set_limit(LIMIT_MS);
    *code = search_graph_query(q->book.at, q->book.len, q->cache.at, q->cache.len, q->work.at, q->work.len, q->goal, q->depth);
    set_limit(0);
    return 1;
}

/* ---- the header's promises */

static int same(const struct bytes *a, const struct bytes *b) {
    return a->len == 0 || memcmp(a->at, b->at, a->len) == 0;
}

static int zeros(const struct bytes *b) {
    return b->len == 0 || (b->at[0] == 0 && memcmp(b->at, b->at + 1, b->len - 1) == 0);
}

/* q is what was asked, placed holds what the call left, expected is 1 to 9 where the query must be refused so. */
static void check(const struct query *q, const struct query *placed, uint32_t code, unsigned expected) {
    uint32_t answer = code % 256, refusal = code / 256;
    if (refusal > REFUSALS || answer >= ANSWERS || (refusal != 0 && answer != 0)) fail(q, code, "no such code");
    if (!same(&q->book, &placed->book)) fail(q, code, "the book was changed");
    if (expected != 0 ? refusal != expected : 1 <= refusal && refusal <= LAST_UNTOUCHED) {
        fprintf(stderr, "fuzz: expected refusal %u\n", expected);
        fail(q, code, "not the first refusal that applies");
    }
    if (1 <= refusal && refusal <= LAST_UNTOUCHED) {
        if (!same(&q->cache, &placed->cache)) fail(q, code, "a refusal changed the cache");
        if (!same(&q->work, &placed->work)) fail(q, code, "a refusal changed the workspace");
        return;
    }
    if (!zeros(&placed->work)) fail(q, code, "the workspace is not zeros");
    if (refusal != 0 && !zeros(&placed->cache)) fail(q, code, "the cache is not zeros");
}

/* What an accepted query leaves is a cache for the next. */
static void check_form(const struct query *q, uint32_t code) {
    struct header h = {0};
    if (code / 256 != 0) return;
    book_refusal(q->book.at, q->book.len, &h);
    if (!cache_is_well_formed(q->cache.at, &h)) fail(q, code, "the cache that is left is ill-formed");
}

static void count(uint32_t code) {
    queries++;
    if (code / 256 == 0)
        answers[code % 256]++;
    else
        refusals[code / 256]++;
}

/* Asks in every placement, each time with other bytes in the workspace: the code and the cache that is left are always the same.
   The cache is carried on. 0 where it takes too long. */
static int ask(struct query *q, unsigned seed) {
    static uint8_t left[ROOM];
    unsigned expected = expected_refusal(q);
    uint32_t first = 0, code = 0;
    for (int how = 0; how < PLACES; how++) {
        struct query placed;
        make_noise(seed + (unsigned)how, q->work.at, q->work.len);
        place(q, how, &placed);
        if (!call(&placed, &code)) {
            unplace(&placed, how);
            if (++too_long > 20 + queries / 100) fail(q, 0, "too many calls take too long");
            return 0;
        }
        check(q, &placed, code, expected);
        if (how == 0) {
            first = code;
            memcpy(left, placed.cache.at, placed.cache.len);
        }
        if (code != first) fail(q, code, "asked again, it gives another code");
        if (memcmp(left, placed.cache.at, placed.cache.len) != 0) fail(q, code, "asked again, it leaves another cache");
        unplace(&placed, how);
    }
    count(first);
    memcpy(q->cache.at, left, q->cache.len);
    check_form(q, first);
    return 1;
}

/* A book that is refused is refused the same with any goal, depth, cache and workspace. */
static void ask_with_little(const struct query *q) {
    static uint8_t cache, work;
    struct header h;
    unsigned refusal = book_refusal(q->book.at, q->book.len, &h);
    struct query bare = {q->book, {&cache, q->goal % 2}, {&work, q->depth % 2}, q->depth, q->goal};
    if (refusal != 0 && ask(&bare, 0) == 0) fail(&bare, 0, "refusing a book takes too long");
}

/* ---- a scenario */

/* Mostly in range; else just out of it, or the largest number. */
static size_t any_number(struct input *in, size_t range) {
    unsigned n = take(in);
    return n < 240 ? n % range : n < 248 ? range + n % 8 : SIZE_MAX >> (n - 248) * 8;
}

static void check_lengths(struct input *in) {
    size_t goals = any_number(in, 64), top = any_number(in, 64);
    struct query none = {{NULL, 0}, {NULL, 0}, {NULL, 0}, goals, top};
    if (search_graph_work_len(goals) != work_length(goals)) fail(&none, 0, "search_graph_work_len");
    if (search_graph_cache_len(goals, top) != cache_length(goals, top)) fail(&none, 0, "search_graph_cache_len");
}

/* Whether the book meets the condition of mixed books, told in room for 0 to 5 numbers, in every placement. */
static void check_guarantee(struct input *in, const struct bytes *book) {
    uint64_t want[CONFLICT] = {0}, before[5];
    uint8_t none = 0;
    struct header h;
    unsigned n = take(in) % 6, refusal = book_refusal(book->at, book->len, &h);
    struct query q = {*book, {&none, 0}, {(uint8_t *)before, n * sizeof *before}, n, 0}, placed;
    if (refusal == 0) *(expected_conflict(book->at, book->len, want) ? &broken : &given) += 1;
    for (int how = 0; how < PLACES; how++) {
        make_noise(take(in), (uint8_t *)before, sizeof before);
        place(&q, how, &placed);
        const uint64_t *out = (const uint64_t *)placed.work.at;
        uint32_t code = search_graph_guarantee(placed.book.at, placed.book.len, (uint64_t *)placed.work.at, n);
        if (code != 256 * refusal) fail(&q, code, "search_graph_guarantee refuses otherwise");
        if (!same(&q.book, &placed.book)) fail(&q, code, "search_graph_guarantee changed the book");
        for (unsigned i = 0; i < n; i++)
            if (out[i] != (i < CONFLICT ? want[i] : before[i])) fail(&q, code, "search_graph_guarantee tells other numbers");
        unplace(&placed, how);
    }
}

/* Mostly as long as the book; else shorter, down to what the tidy book takes, longer, or none. */
static size_t output_length(struct input *in, size_t book, size_t tidy) {
    switch (take(in) % 32) {
    case 1: return 0;
    case 2: return tidy;
    case 3: return book - (book > 0);
    case 4: return book + 1;
    case 5: return book + 65536;
    case 6: return take2(in);
    default: return book;
    }
}

static void fail_tidy(const struct query *q, uint32_t code, const char *what) {
    fprintf(stderr, "fuzz: search_graph_tidy %s (length %u, refusal %u; lengths of book %zu, output %zu)\n", what,
            (unsigned)(code % 65536), (unsigned)(code / 65536), q->book.len, q->work.len);
    abort();
}

/* What a call left is `want` where the book is tidied, and else what was found. */
static void check_left(const struct query *q, const struct query *placed, uint32_t code, const struct bytes *want) {
    if (!same(&q->book, &placed->book)) fail_tidy(q, code, "changed the book");
    if (code >= 65536 && !same(&q->work, &placed->work)) fail_tidy(q, code, "refused, and changed the output");
    if (code < 65536 && !same(want, &placed->work)) fail_tidy(q, code, "writes another book");
}

/* Tidies in every placement, each time with other bytes in the output: it gives this code, and `want` where the book is
   tidied. What the library left is kept. */
static void tidy_one(const struct bytes *book, uint32_t expected, const struct bytes *want, uint8_t *left,
                     unsigned seed) {
    static uint8_t out[ROOM], none;
    struct query q = {*book, {&none, 0}, {out, want->len}, 0, 0}, placed;
    for (int how = 0; how < PLACES; how++) {
        make_noise(seed + (unsigned)how, out, want->len);
        place(&q, how, &placed);
        uint32_t code = search_graph_tidy(placed.book.at, placed.book.len, placed.work.at, placed.work.len);
        if (code / 65536 != expected / 65536) fail_tidy(&q, code, "refuses otherwise");
        if (code != expected) fail_tidy(&q, code, "tells another length");
        check_left(&q, &placed, code, want);
        memcpy(left, placed.work.at, want->len);
        unplace(&placed, how);
    }
}

/* A book; and the library's own tidy book once more, which stays as it is. */
static void check_tidy(struct input *in, const struct bytes *book) {
    static uint8_t expected[ROOM], left[ROOM];
    unsigned seed = take(in), unreadable = tidy_refusal(book, book->len);
    size_t used = unreadable ? 0 : expected_tidy(book->at, book->len, expected);
    struct bytes want = {expected, output_length(in, book->len, used)}, own = {left, used};
    unsigned refusal = tidy_refusal(book, want.len);
    tidy_one(book, refusal == 0 ? (uint32_t)used : 65536 * refusal, &want, left, seed);
    tidied[unreadable ? UNREADABLE : refusal != 0 ? OUTPUT_LENGTH : used < want.len ? CHANGED : PLAIN]++;
    if (refusal == 0) tidy_one(&own, (uint32_t)used, &own, left, seed);
}

/* One query; the cache, of the right length, is carried on where this one has it. 0 where it takes too long. */
static int one_query(struct input *in, struct query *q, const struct header *h) {
    size_t right = q->cache.len;
    q->cache.len = other_length(in, right);
    q->work.len = other_length(in, work_length(h->goals));
    q->goal = any_number(in, h->goals);
    q->depth = any_number(in, h->top + 1);
    int done = ask(q, take(in));
    q->cache.len = right;
    return done;
}

static void begin(void) {
    struct sigaction action = {.sa_handler = at_limit};
    sigaction(SIGVTALRM, &action, NULL);
    atexit(tell);
}

int LLVMFuzzerTestOneInput(const uint8_t *data, size_t size) {
    static uint8_t book[ROOM], cache[ROOM], work[ROOM];
    struct input in = {data, size};
    struct query q = {{book, 0}, {cache, 0}, {work, 0}, 0, 0};
    struct header h = {3, 3, 1};
    if (inputs++ == 0) begin();
    check_lengths(&in);
    make_book(&in, &q.book);
    book_refusal(book, q.book.len, &h);
    check_guarantee(&in, &q.book);
    check_tidy(&in, &q.book);
    make_cache(&in, &h, &q.cache);
    for (unsigned left = 1 + take(&in) % 6; left > 0; left--) {
        if (take(&in) % 32 == 31) make_cache(&in, &h, &q.cache);
        if (!one_query(&in, &q, &h)) break;
    }
    ask_with_little(&q);
    return 0;
}

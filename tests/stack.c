/* stack BYTES: asks the deepest books of a query that has BYTES of stack, a page without access below them, and prints
   how many bytes were taken at most. It dies of the page where they do not suffice. tests/stack runs it. */
#include <stdint.h>
#include <stdio.h>
#include <stdlib.h>
#include <string.h>
#include <sys/mman.h>
#include <unistd.h>

#include "search_graph.h"

enum { GOALS = 64, TOP = 63, LEVELS = 8, ALL = 3, ANY = 4, PICK = 5, MOST_BOOK = 16000 };

static void die(const char *why) {
    fprintf(stderr, "stack: %s\n", why);
    exit(1);
}

/* ---- books: 64 goals, each seven groups deep, then a call of the next goal, the last one's of goal 0 */

struct shape {
    int kept;    /* whether provisional results are kept */
    int outer;   /* the groups' code */
    int inner;   /* the innermost group's */
    int lower;   /* whether a call lowers the depth */
    int kinds;   /* the steps' kind, 0 to 3; 4: one after the other */
    int escape;  /* the last goal holds without goal 0 too, so that a ring of inductive steps is run again */
    int back;    /* some goals call back into the chain, so that there are more heads */
};

static uint8_t book[MOST_BOOK];
static size_t book_len;

static void line(int a, int b, int c, int d, int e) {
    char text[64];
    if (book_len + 16 > MOST_BOOK) die("the book is too long");
    snprintf(text, sizeof text, "%3d%3d%3d%3d%3d\n", a, b, c, d, e);
    memcpy(book + book_len, text, 16);
    book_len += 16;
}

static void call(const struct shape *s, int goal, int to) {
    line(2, to, s->kinds < 4 ? s->kinds : goal % 3, s->lower, 0);
}

static void make_book(const struct shape *s) {
    book_len = 0;
    line(s->kept, GOALS, TOP, 99, 2);
    for (int goal = 0; goal < GOALS; goal++) {
        int back = s->back && goal % 16 == 15, escape = s->escape && goal == GOALS - 1;
        line(1, goal, 0, 0, 0);
        line(escape ? ANY : s->outer, 1 + escape, 0, 0, 0);
        for (int level = 2; level < LEVELS - 1; level++) line(s->outer, 1, 0, 0, 0);
        line(s->inner, 1 + back, 0, 0, 0);
        call(s, goal, (goal + 1) % GOALS);
        if (back) call(s, goal, goal / 2);
        if (escape) line(ALL, 0, 0, 0, 0);
    }
}

/* ---- a call on a stack of its own */

static uint8_t *low, *top, *cache, *work;
static size_t cache_len, work_len;

static void make_stack(size_t bytes) {
    size_t page = (size_t)sysconf(_SC_PAGESIZE), room = (bytes + page - 1) / page * page;
    uint8_t *all = mmap(NULL, page + room, PROT_READ | PROT_WRITE, MAP_PRIVATE | MAP_ANONYMOUS, -1, 0);
    if (all == MAP_FAILED || mprotect(all, page, PROT_NONE) != 0) die("no memory");
    low = all + page;
    top = low + bytes;
}

/* search_graph_query, the first byte below `top` being the first that it may use */
static uint32_t query_below(size_t goal, size_t depth) {
    register uint64_t code __asm__("rax");
    register const uint8_t *a __asm__("rdi") = book;
    register size_t b __asm__("rsi") = book_len;
    register uint8_t *c __asm__("rdx") = cache;
    register size_t d __asm__("rcx") = cache_len;
    register uint8_t *e __asm__("r8") = work;
    register size_t f __asm__("r9") = work_len;
    register uint8_t *start __asm__("r12") = top;
    register size_t g __asm__("r13") = goal;
    register size_t h __asm__("r14") = depth;
    __asm__ volatile("movq %%rsp, %%rbx\n\t"
                     "movq %[start], %%rsp\n\t"
                     "pushq %[h]\n\t"
                     "pushq %[g]\n\t"
                     "call search_graph_query\n\t"
                     "movq %%rbx, %%rsp"
                     : "=r"(code), "+r"(a), "+r"(b), "+r"(c), "+r"(d), "+r"(e), "+r"(f)
                     : [start] "r"(start), [g] "r"(g), [h] "r"(h)
                     : "rbx", "r10", "r11", "memory", "cc", "xmm0", "xmm1", "xmm2", "xmm3", "xmm4", "xmm5", "xmm6",
                       "xmm7", "xmm8", "xmm9", "xmm10", "xmm11", "xmm12", "xmm13", "xmm14", "xmm15");
    return (uint32_t)code;
}

/* ---- the run */

static size_t most, queries, answers[4];

static void ask(size_t goal, size_t depth) {
    const uint8_t *at = low;
    memset(low, 0xA5, (size_t)(top - low));
    uint32_t code = query_below(goal, depth);
    if (code > 3 && code / 256 != 10 && code / 256 != 11) die("the book was refused");
    while (at < top && *at == 0xA5) at++;
    if ((size_t)(top - at) > most) most = (size_t)(top - at);
    if (code < 4) answers[code]++;
    queries++;
}

static void run(const struct shape *s) {
    make_book(s);
    memset(cache, 0, cache_len);
    ask(0, TOP);
    ask(0, TOP); /* from the cache */
    ask(GOALS / 2, TOP);
    memset(cache, 0, cache_len);
    ask(GOALS - 1, TOP / 2);
    ask(1, TOP); /* with what a shallower query left */
}

int main(int argc, char **argv) {
    struct shape s;
    if (argc != 2) die("usage: stack BYTES");
    make_stack((size_t)strtoull(argv[1], NULL, 10) / 16 * 16);
    cache_len = search_graph_cache_len(GOALS, TOP);
    work_len = search_graph_work_len(GOALS);
    cache = malloc(cache_len);
    work = malloc(work_len);
    if (!cache || !work) die("no memory");
    for (s.kept = 0; s.kept < 2; s.kept++)
        for (s.outer = ALL; s.outer <= ANY; s.outer++)
            for (s.inner = ALL; s.inner <= PICK; s.inner++)
                for (s.lower = 0; s.lower < 2; s.lower++)
                    for (s.kinds = 0; s.kinds < 5; s.kinds++)
                        for (s.escape = 0; s.escape < 2; s.escape++)
                            for (s.back = 0; s.back < 2; s.back++) run(&s);
    printf("%zu queries (No %zu, Yes %zu, undecided %zu, overflow %zu) took at most %zu bytes\n", queries, answers[0],
           answers[1], answers[2], answers[3], most);
    return 0;
}

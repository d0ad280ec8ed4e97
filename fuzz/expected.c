/* Refusals 1 to 9 and 14, decided from what include/search_graph.h and the documents say, apart from the library. */
#include "fuzz.h"

enum { LINE = 16, FIELDS = 5, DEEPEST = 8 };

struct lines {
    unsigned (*line)[FIELDS];
    size_t count, next;
    unsigned goals;
};

size_t work_length(size_t goals) {
    return goals < 1 || goals > 64 ? 0 : 4 * goals * (41 * goals + 24);
}

size_t cache_length(size_t goals, size_t top) {
    return goals < 1 || goals > 64 || top > 63 ? 0 : goals * (top + 2) * (FLAGS + goals);
}

/* A number of three columns: right-justified, without leading zeros. */
static int read_field(const uint8_t *at, unsigned *n) {
    int begun = 0;
    *n = 0;
    for (int i = 0; i < 3; i++) {
        if (at[i] == ' ' && !begun && i < 2) continue;
        if (at[i] < '0' || at[i] > '9') return 0;
        if (at[i] == '0' && !begun && i < 2) return 0;
        begun = 1;
        *n = 10 * *n + (unsigned)(at[i] - '0');
    }
    return 1;
}

unsigned number(const uint8_t *at) {
    unsigned n;
    read_field(at, &n);
    return n;
}

static int read_line(const uint8_t *at, unsigned fields[FIELDS]) {
    for (int i = 0; i < FIELDS; i++)
        if (!read_field(at + 3 * i, &fields[i])) return 0;
    return at[LINE - 1] == '\n';
}

static int only_first(const unsigned f[FIELDS]) {
    return f[2] == 0 && f[3] == 0 && f[4] == 0;
}

/* Passes over a part; 0 where the lines break the grammar. */
static int pass_part(struct lines *l, int level, int in_pick) {
    if (level > DEEPEST || l->next == l->count) return 0;
    const unsigned *f = l->line[l->next++];
    switch (f[0]) {
    case 2: return f[1] < l->goals && f[2] <= 3 && f[3] <= 1 && f[4] == 0;
    case 3:
    case 4:
    case 5:
        if (!only_first(f) || (f[0] == 5 && in_pick)) return 0;
        for (unsigned i = 0; i < f[1]; i++)
            if (!pass_part(l, level + 1, in_pick || f[0] == 5)) return 0;
        return 1;
    case 6: return f[1] == 0 && only_first(f);
    default: return 0;
    }
}

static int body_is_right(struct lines *l) {
    for (unsigned goal = 0; goal < l->goals; goal++) {
        if (l->next == l->count) return 0;
        const unsigned *f = l->line[l->next++];
        if (f[0] != 1 || f[1] != goal || !only_first(f) || !pass_part(l, 1, 0)) return 0;
    }
    return l->next == l->count;
}

/* 0 to 4. The header is given where it is in range, and left as it is elsewhere. */
unsigned book_refusal(const uint8_t *book, size_t len, struct header *header) {
    static unsigned line[1000][FIELDS];
    if (len % LINE != 0 || len < 48 || len > 16000) return 1;
    for (size_t i = 0; i < len / LINE; i++)
        if (!read_line(book + LINE * i, line[i])) return 2;
    const unsigned *h = line[0];
    if (h[0] > 1 || h[1] < 1 || h[1] > 64 || h[2] > 63 || h[3] > 99 || h[4] < 1 || h[4] > 99) return 3;
    *header = (struct header){h[1], h[2], h[3] == 0 ? 1 : h[3]};
    struct lines body = {line, len / LINE, 1, h[1]};
    return body_is_right(&body) ? 0 : 4;
}

/* Slot 0 of a goal is for success, slot 1 + d for overflow at required depth d. */
static int slot_is_well_formed(const uint8_t *slot, unsigned number, const struct header *h) {
    unsigned highest = 0;
    for (unsigned i = 0; i < h->goals; i++)
        if (slot[FLAGS + i] > highest) highest = slot[FLAGS + i];
    if (slot[HELD] == 0) return slot[RESULT] == 0 && slot[DEPTH] == 0 && slot[PASSES] == 0 && highest == 0;
    return slot[HELD] == 1 && slot[RESULT] <= 3 && slot[DEPTH] <= h->top && slot[PASSES] >= 1 && slot[PASSES] <= h->passes && highest <= 31
           && (number == 0 || slot[DEPTH] == number - 1);
}

int cache_is_well_formed(const uint8_t *cache, const struct header *h) {
    unsigned slots = h->top + 2;
    for (unsigned i = 0; i < h->goals * slots; i++)
        if (!slot_is_well_formed(cache + (size_t)i * (FLAGS + h->goals), i % slots, h)) return 0;
    return 1;
}

/* 1 to 9, or 0 where the query is evaluated. */
unsigned expected_refusal(const struct query *q) {
    struct header h = {0};
    unsigned refusal = book_refusal(q->book.at, q->book.len, &h);
    if (refusal != 0) return refusal;
    if (q->goal >= h.goals) return 5;
    if (q->depth > h.top) return 6;
    if (q->cache.len != cache_length(h.goals, h.top)) return 7;
    if (!cache_is_well_formed(q->cache.at, &h)) return 8;
    return q->work.len == work_length(h.goals) ? 0 : 9;
}

/* 1 to 4 or 14, or 0 where the book is tidied. */
unsigned tidy_refusal(const struct bytes *book, size_t out_len) {
    struct header h;
    unsigned refusal = book_refusal(book->at, book->len, &h);
    return refusal == 0 && out_len != book->len ? 14 : refusal;
}

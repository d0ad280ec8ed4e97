/* Books, caches and lengths, right and wrong, of an input's bytes. */
#include "fuzz.h"

#include <string.h>

enum { LINE = 16, MOST_LINES = 1000, DEEPEST = 8 };

struct maker {
    struct input *in;
    struct bytes *book;
    unsigned goals, room; /* lines that may still be added */
    int beyond;           /* one line and one level too many, and picks inside picks, are put too */
};

/* ---- right books */

void put_field(uint8_t *to, unsigned n) {
    to[0] = (uint8_t)(n < 100 ? ' ' : '0' + n / 100 % 10);
    to[1] = (uint8_t)(n < 10 ? ' ' : '0' + n / 10 % 10);
    to[2] = (uint8_t)('0' + n % 10);
}

static void put_line(struct bytes *book, unsigned code, unsigned a, unsigned b, unsigned c, unsigned d) {
    const unsigned fields[] = {code, a, b, c, d};
    uint8_t *to = book->at + book->len;
    for (int i = 0; i < 5; i++) put_field(to + 3 * i, fields[i]);
    to[LINE - 1] = '\n';
    book->len += LINE;
}

/* Mostly few, sometimes more, once in a while as many as there is room for. */
static unsigned take_count(struct maker *m) {
    unsigned n = take(m->in);
    unsigned count = n < 230 ? n % 5 : n < 253 ? n % 24 : MOST_LINES;
    return count < m->room ? count : m->room;
}

static void put_part(struct maker *m, int level, int in_pick) {
    unsigned choice = take(m->in) % 12;
    if (choice < 6) {
        unsigned goal = take(m->in), how = take(m->in);
        put_line(m->book, 2, goal % m->goals, how % 4, how / 4 % 2, 0);
        return;
    }
    if (choice == 6) {
        put_line(m->book, 6, 0, 0, 0, 0);
        return;
    }
    unsigned code = choice < 8 ? 3 : choice < 10 || (in_pick && !m->beyond) ? 4 : 5;
    unsigned count = level == DEEPEST + m->beyond ? 0 : take_count(m);
    m->room -= count;
    put_line(m->book, code, count, 0, 0, 0);
    while (count-- > 0) put_part(m, level + 1, in_pick || code == 5);
}

/* A number in a range that is mostly near its lower end. */
static unsigned take_small(struct input *in, unsigned least, unsigned few, unsigned most) {
    unsigned n = take(in);
    return n < 224 ? least + n % (few - least + 1) : n < 250 ? least + take(in) % (most - least + 1) : most;
}

static unsigned put_header(struct input *in, struct bytes *book) {
    unsigned provisional = take(in) % 4 != 3, goals = take_small(in, 1, 4, 64), top = take_small(in, 0, 6, 63);
    unsigned limit = take_small(in, 0, 4, 99), divisor = take_small(in, 1, 3, 99);
    put_line(book, provisional, goals, top, limit, divisor);
    return goals;
}

static void book_by_grammar(struct input *in, struct bytes *book, int beyond) {
    unsigned goals = put_header(in, book);
    struct maker m = {in, book, goals, MOST_LINES - 1 - 2 * goals + (unsigned)beyond, beyond};
    for (unsigned goal = 0; goal < goals; goal++) {
        put_line(book, 1, goal, 0, 0, 0);
        put_part(&m, 1, 0);
    }
}

/* ---- wrong books */

/* A header and lines of small numbers in any order. */
static void any_lines(struct input *in, struct bytes *book) {
    unsigned lines = 2 + take(in) % 30;
    put_header(in, book);
    while (lines-- > 0) {
        unsigned n = take2(in);
        put_line(book, n % 8, n / 8 % 5, n / 64 % 16 == 0 ? n / 1024 % 5 : 0, n / 2048 % 8 == 0, n / 16384 % 32 == 1);
    }
}

static void any_bytes(struct input *in, struct bytes *book) {
    unsigned n = take2(in), seed = take(in);
    book->len = n < 1024 ? LINE * (n % 64) : n % 17000;
    if (seed >= 128)
        make_noise(seed, book->at, book->len);
    else
        for (size_t i = 0; i < book->len; i++) book->at[i] = (uint8_t)take(in);
}

/* Spoils a field: another number, one at an end of the header's ranges, or zeros in place of blanks. */
static void spoil_field(uint8_t *field, unsigned way, unsigned value) {
    static const uint8_t ends[] = {0, 1, 2, 3, 62, 63, 64, 65, 98, 99, 100};
    if (way == 0) put_field(field, value < 128 ? value % 10 : value < 240 ? value : 4 * value % 1000);
    if (way == 1) put_field(field, ends[value % sizeof ends]);
    if (way == 2) field[value % 2] = '0';
    if (way == 3) memcpy(field, value % 2 == 0 ? "010" : " 01", 3);
}

/* Spoils a book that has lines: a byte, a field, a field of the header, a line dropped or doubled, the length. */
static void spoil_book(struct input *in, struct bytes *book) {
    static const char near[] = " 0123456789\n\r\t/:";
    unsigned what = take(in), where = take2(in), value = take(in);
    uint8_t *line = book->at + where % (book->len / LINE) * LINE;
    size_t after = book->len - (size_t)(line - book->at);
    switch (what % 8) {
    case 0: book->at[where % book->len] = (uint8_t)(value < 128 ? near[value % (sizeof near - 1)] : (int)value); break;
    case 1: spoil_field(book->at + 3 * (what / 8 % 5), 1, value); break;
    case 2:
    case 3: spoil_field(line + 3 * (what / 8 % 5), where / 256 % 4, value); break;
    case 4:
        memmove(line, line + LINE, after - LINE);
        book->len -= LINE;
        break;
    case 5:
        memmove(line + LINE, line, after);
        book->len += LINE;
        break;
    case 6: book->len -= value % 20 < book->len ? value % 20 : book->len; break;
    default:
        memset(book->at + book->len, ' ', value);
        book->len += value;
    }
}

void make_book(struct input *in, struct bytes *book) {
    unsigned way = take(in) % 16;
    book->len = 0;
    if (way == 15) {
        any_bytes(in, book);
    } else if (way == 14) {
        any_lines(in, book);
    } else {
        book_by_grammar(in, book, way == 9);
        for (unsigned times = way < 10 ? 0 : way - 9; times > 0 && book->len >= LINE; times--) spoil_book(in, book);
    }
}

/* ---- caches, lengths */

static unsigned noise(uint32_t *state) {
    *state = *state * 1664525 + 1013904223;
    return *state >> 24;
}

/* Any bytes, which come again after a while. */
void make_noise(unsigned seed, uint8_t *to, size_t len) {
    uint32_t state = seed;
    size_t done = len < 500 ? len : 500;
    for (size_t i = 0; i < done; i++) to[i] = (uint8_t)noise(&state);
    for (size_t more; done < len; done += more) {
        more = len - done < done ? len - done : done;
        memcpy(to + done, to, more);
    }
}

/* Every slot is vacant, or holds a result with some nested goals. */
static void right_slots(unsigned seed, const struct header *h, uint8_t *slot) {
    uint32_t state = seed;
    unsigned held = 32 + noise(&state) / 2;
    for (unsigned i = 0; i < h->goals * (h->top + 2); i++, slot += FLAGS + h->goals) {
        unsigned number = i % (h->top + 2), passes = noise(&state);
        memset(slot, 0, FLAGS + h->goals);
        if (noise(&state) >= held) continue;
        slot[HELD] = 1;
        slot[RESULT] = (uint8_t)(noise(&state) % 4);
        slot[DEPTH] = (uint8_t)(number == 0 ? noise(&state) % (h->top + 1) : number - 1);
        slot[PASSES] = (uint8_t)(passes % 2 == 0 ? h->passes : 1 + passes / 2 % h->passes);
        for (unsigned g = 0; g < h->goals; g++) slot[FLAGS + g] = (uint8_t)(noise(&state) < 160 ? 0 : noise(&state) % 32);
    }
}

/* Spoils a byte: any of the cache, or of a slot the depth, which becomes too great, or the passes, which become none or one too many. */
static void spoil_slot(unsigned where, unsigned value, const struct header *h, struct bytes *cache) {
    uint8_t *slot = cache->at + where % (h->goals * (h->top + 2)) * (FLAGS + h->goals);
    switch (value % 16) {
    case 7: slot[PASSES] = 0; break;
    case 14: slot[DEPTH] = (uint8_t)(h->top + 1); break;
    case 15: slot[PASSES] = (uint8_t)(h->passes + 1); break;
    default: cache->at[where * 7 % cache->len] = (uint8_t)(value < 192 ? value % 34 : value);
    }
}

/* A cache of the right length: zeros, right slots, right slots with a byte or two spoilt, any bytes. */
void make_cache(struct input *in, const struct header *h, struct bytes *cache) {
    unsigned way = take(in) % 16;
    cache->len = cache_length(h->goals, h->top);
    memset(cache->at, 0, cache->len);
    if (way < 7) return;
    unsigned seed = take2(in);
    if (way == 15) {
        make_noise(seed, cache->at, cache->len);
        return;
    }
    if (way < 14) right_slots(seed, h, cache->at);
    for (unsigned times = way < 12 ? 0 : way - 11; times > 0; times--) {
        unsigned where = take2(in);
        spoil_slot(where, take(in), h, cache);
    }
}

/* Mostly the right length; else one beside it, none, one for other numbers, or any. */
size_t other_length(struct input *in, size_t right) {
    unsigned choice = take(in);
    switch (choice) {
    case 1: return right + 1;
    case 2: return right - 1;
    case 3: return 0;
    case 4: return work_length(1 + take(in) % 64);
    case 5: return cache_length(1 + take(in) % 64, take(in) % 64);
    case 6: return take2(in);
    default: return right;
    }
}

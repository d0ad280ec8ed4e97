/* Libraries that are wrong on purpose, for `fuzz/run --self-test`: the proved library, its functions renamed, with the one fault that
   the environment variable WRONG names; with none where it is not set. */
#include "../include/search_graph.h"

#include <stdlib.h>
#include <string.h>

size_t right_work_len(size_t goals);
size_t right_cache_len(size_t goals, size_t top_depth);
uint32_t right_query(const uint8_t *book, size_t book_len, uint8_t *cache, size_t cache_len, uint8_t *work, size_t work_len, size_t goal,
                     size_t depth);
uint32_t right_guarantee(const uint8_t *book, size_t book_len, uint64_t *out, size_t n);
uint32_t right_tidy(const uint8_t *book, size_t book_len, uint8_t *out, size_t out_len);

static int wrong(const char *name) {
    static const char *set;
    if (set == NULL) set = getenv("WRONG") ? getenv("WRONG") : "";
    return strcmp(set, name) == 0;
}

size_t search_graph_work_len(size_t goals) {
    return wrong("work-length") && goals == 0 ? 260 : right_work_len(goals);
}

size_t search_graph_cache_len(size_t goals, size_t top_depth) {
    return wrong("cache-length") && top_depth == 64 ? goals * 66 * (goals + 4) : right_cache_len(goals, top_depth);
}

static void read_byte(const uint8_t *at) {
    (void)*(const volatile uint8_t *)at;
}

static void write_same(const uint8_t *at) {
    *(volatile uint8_t *)(uintptr_t)at = *at;
}

/* The length of a slot, for a book whose header is right. */
static size_t slot_length(const uint8_t *book) {
    char goals[4] = {(char)book[3], (char)book[4], (char)book[5], 0};
    return (size_t)atoi(goals) + 4;
}

/* Makes the passes that all held slots say, or those that say no pass, another number. */
static void set_passes(const uint8_t *book, uint8_t *cache, size_t cache_len, int none_only, uint8_t passes) {
    size_t slot = slot_length(book);
    for (size_t i = 0; slot > 4 && i + slot <= cache_len; i += slot)
        if (cache[i] == 1 && (!none_only || cache[i + 3] == 0)) cache[i + 3] = passes;
}

/* Faults before the query runs. */
static void before(const uint8_t *book, size_t book_len, uint8_t *cache, size_t cache_len, uint8_t *work, size_t work_len) {
    if (wrong("reads-past-book")) read_byte(book + book_len);
    if (wrong("reads-before-book")) read_byte(book - 1);
    if (wrong("reads-past-cache")) read_byte(cache + cache_len);
    if (wrong("reads-before-cache")) read_byte(cache - 1);
    if (wrong("writes-past-work")) write_same(work + work_len);
    if (wrong("writes-before-work")) write_same(work - 1);
    if (wrong("writes-book") && book_len > 0) write_same(book);
    if (wrong("changes-book") && book_len > 0) *(uint8_t *)(uintptr_t)book ^= 1;
    while (wrong("never-ends")) read_byte(book);
}

/* Faults in the bytes that a query leaves. */
static void leave(uint32_t refusal, const uint8_t *book, uint8_t *cache, size_t cache_len, uint8_t *work, size_t work_len) {
    static unsigned calls;
    if (wrong("passes-none") && refusal == 0) set_passes(book, cache, cache_len, 0, 0);
    if (wrong("passes-beyond-limit") && refusal == 0) set_passes(book, cache, cache_len, 0, 100);
    if (wrong("cache-has-a-state") && refusal == 0 && ++calls % 1000 == 0) cache[cache_len - 1] ^= 1;
    if (wrong("accepted-leaves-work") && refusal == 0) work[work_len - 1] = 1;
    if (wrong("accepted-spoils-cache") && refusal == 0) cache[cache_len - 1] = 32;
    if (wrong("seven-writes-cache") && refusal == 7 && cache_len > 0) cache[cache_len - 1] ^= 1;
    if (wrong("eight-writes-work") && refusal == 8 && work_len > 0) work[0] ^= 1;
    if (wrong("ten-leaves-cache") && refusal == 10) cache[cache_len - 1] = 1;
    if (wrong("eleven-leaves-work") && refusal == 11) work[work_len / 2] = 1;
}

uint32_t search_graph_guarantee(const uint8_t *book, size_t book_len, uint64_t *out, size_t n) {
    if (wrong("guarantee-reads-past")) read_byte(book + book_len);
    uint32_t code = right_guarantee(book, book_len, out, n);
    if (wrong("guarantee-always-given") && n > 0) out[0] = 0;
    if (wrong("guarantee-other-line") && n > 1 && out[1] != 0) out[1]++;
    if (wrong("guarantee-other-group") && n > 2 && out[2] != 0) out[2] ^= (uint64_t)1 << 63;
    if (wrong("guarantee-writes-fourth") && n > 3) out[3]++;
    if (wrong("guarantee-writes-past")) ((volatile uint64_t *)out)[n] = 0;
    if (wrong("guarantee-four-for-three") && code == 3 * 256) return 4 * 256;
    return code;
}

/* Faults before a book is tidied. */
static void before_tidy(const uint8_t *book, size_t book_len, uint8_t *out, size_t out_len) {
    if (wrong("tidy-reads-past-book")) read_byte(book + book_len);
    if (wrong("tidy-writes-past-output")) write_same(out + out_len);
    if (wrong("tidy-writes-before-output")) write_same(out - 1);
    if (wrong("tidy-writes-book") && book_len > 0) write_same(book);
    if (wrong("tidy-changes-book") && book_len > 0) *(uint8_t *)(uintptr_t)book ^= 1;
}

/* Faults in what it is tidied to. */
static void leave_tidied(size_t used, const uint8_t *found, uint8_t *out, size_t out_len) {
    static unsigned calls;
    if (wrong("tidy-tail-left")) memcpy(out + used, found + used, out_len - used);
    if (wrong("tidy-tail-spaces")) memset(out + used, ' ', out_len - used);
    if (wrong("tidy-header") && out[11] == '0') out[11] = '1';
    if (wrong("tidy-has-a-state") && ++calls % 1000 == 0) out[used - 1] ^= 1;
    for (size_t i = 16; wrong("tidy-any-for-pick") && i < used; i += 16)
        if (out[i + 2] == '5') out[i + 2] = '4';
}

/* Faults in lengths and refusals. */
static uint32_t other_tidy_code(uint32_t code, size_t book_len, size_t out_len) {
    uint32_t refusal = code / 65536;
    if (wrong("tidy-14-before-4") && refusal == 4 && out_len != book_len) return 14 * 65536;
    if (wrong("tidy-longer-output") && refusal == 14 && out_len > book_len) return (uint32_t)book_len;
    if (wrong("tidy-shorter-output") && refusal == 14 && out_len < book_len) return (uint32_t)out_len;
    if (wrong("tidy-refusal-nine") && refusal == 14) return 9 * 65536;
    if (wrong("tidy-whole-length") && refusal == 0) return (uint32_t)book_len;
    if (wrong("tidy-refusal-length") && refusal != 0) return code + (uint32_t)(book_len % 65536);
    return code;
}

uint32_t search_graph_tidy(const uint8_t *book, size_t book_len, uint8_t *out, size_t out_len) {
    uint8_t *found = malloc(out_len + 1);
    memcpy(found, out, out_len);
    before_tidy(book, book_len, out, out_len);
    uint32_t code = right_tidy(book, book_len, out, out_len);
    if (code < 65536) leave_tidied(code, found, out, out_len);
    free(found);
    if (wrong("tidy-refusal-writes") && code >= 65536) memset(out, 0, out_len);
    if (wrong("tidy-copies") && code < 65536) {
        memcpy(out, book, out_len);
        return (uint32_t)out_len;
    }
    return other_tidy_code(code, book_len, out_len);
}

/* Faults in the code. */
static uint32_t other_code(uint32_t code, int odd_work, size_t cache_len, size_t depth) {
    static unsigned calls;
    uint32_t refusal = code / 256;
    if (wrong("six-before-five") && refusal == 5 && depth > 63) return 6 * 256;
    if (wrong("seven-before-four") && refusal == 4 && cache_len == 0) return 7 * 256;
    if (wrong("four-for-two") && refusal == 2) return 4 * 256;
    if (wrong("eight-forgotten") && refusal == 8) return 9 * 256;
    if (wrong("five-for-one") && refusal == 0 && depth == 6) return 5 * 256;
    if (wrong("answer-four") && code == 3) return 4;
    if (wrong("refusal-twelve") && refusal == 9) return 12 * 256;
    if (wrong("refusal-with-answer") && refusal == 5) return code + 1;
    if (wrong("has-a-state") && ++calls % 1000 == 0 && refusal == 0) return code ^ 1;
    if (wrong("reads-work") && odd_work && refusal == 0) return code ^ 1;
    return code;
}

/* The query, with slots that say no pass read as if they said one. */
static uint32_t query_unchecked(const uint8_t *book, size_t book_len, uint8_t *cache, size_t cache_len, uint8_t *work, size_t work_len,
                                size_t goal, size_t depth) {
    uint8_t *copy = malloc(cache_len + 1);
    memcpy(copy, cache, cache_len);
    if (book_len >= 48) set_passes(book, copy, cache_len, 1, 1);
    uint32_t code = right_query(book, book_len, copy, cache_len, work, work_len, goal, depth);
    if (code / 256 == 0 || code / 256 > 9) memcpy(cache, copy, cache_len);
    free(copy);
    return code;
}

uint32_t search_graph_query(const uint8_t *book, size_t book_len, uint8_t *cache, size_t cache_len, uint8_t *work, size_t work_len, size_t goal,
                            size_t depth) {
    int odd_work = work_len > 0 && work[0] % 2 == 1;
    before(book, book_len, cache, cache_len, work, work_len);
    uint32_t code = (wrong("passes-unchecked") ? query_unchecked : right_query)(book, book_len, cache, cache_len, work, work_len, goal, depth);
    leave(code / 256, book, cache, cache_len, work, work_len);
    return other_code(code, odd_work, cache_len, depth);
}

/* Whether a book meets the condition of mixed books, decided from what include/search_graph.h and document 02 say, apart from the
   library. */
#include "fuzz.h"

#include <string.h>

enum { LINE = 16, MOST_GOALS = 64, GOAL = 1, CALL = 2, INDUCTIVE = 0, COINDUCTIVE = 2 };

/* A call line: the goal in whose part it stands, the goal that it calls, its kind. */
struct step {
    unsigned line, caller, goal, kind;
};

static char reach[MOST_GOALS][MOST_GOALS];

static unsigned read_steps(const uint8_t *book, size_t len, struct step *steps) {
    unsigned count = 0, caller = 0;
    for (unsigned line = 1; line < len / LINE; line++) {
        const uint8_t *at = book + (size_t)LINE * line;
        if (number(at) == GOAL) caller = number(at + 3);
        if (number(at) == CALL) steps[count++] = (struct step){line, caller, number(at + 3), number(at + 6)};
    }
    return count;
}

static void find_ways(const struct step *steps, unsigned count) {
    memset(reach, 0, sizeof reach);
    for (int g = 0; g < MOST_GOALS; g++) reach[g][g] = 1;
    for (unsigned i = 0; i < count; i++) reach[steps[i].caller][steps[i].goal] = 1;
    for (int by = 0; by < MOST_GOALS; by++)
        for (int from = 0; from < MOST_GOALS; from++)
            for (int to = 0; to < MOST_GOALS; to++) reach[from][to] |= reach[from][by] && reach[by][to];
}

static int linked(unsigned a, unsigned b) {
    return reach[a][b] && reach[b][a];
}

static int inside(unsigned goal, const struct step *s, unsigned kind) {
    return s->kind == kind && linked(goal, s->caller) && linked(goal, s->goal);
}

static uint64_t group_of(unsigned goal) {
    uint64_t mask = 0;
    for (unsigned k = 0; k < MOST_GOALS; k++) mask |= (uint64_t)linked(goal, k) << k;
    return mask;
}

int expected_conflict(const uint8_t *book, size_t len, uint64_t conflict[CONFLICT]) {
    static struct step steps[1000];
    unsigned count = read_steps(book, len, steps);
    find_ways(steps, count);
    memset(conflict, 0, CONFLICT * sizeof *conflict);
    for (const struct step *s = steps; s < steps + count; s++)
        for (const struct step *t = steps; inside(s->caller, s, INDUCTIVE) && t < steps + count; t++)
            if (inside(s->caller, t, COINDUCTIVE)) {
                conflict[0] = s->line;
                conflict[1] = t->line;
                conflict[2] = group_of(s->caller);
                return 1;
            }
    return 0;
}

/* A test of enough_seen: just enough of everything is enough, and one fewer of anything is not. */
#include "target.c"

enum { ASKED = 20000 };

static int enough_with_one_fewer(unsigned long *count) {
    --*count;
    int enough = enough_seen(ASKED);
    ++*count;
    return enough;
}

int main(void) {
    queries = ASKED;
    for (int i = 0; i < ANSWERS; i++) answers[i] = ASKED / 10000 * least_answers[i];
    for (int i = 1; i <= REFUSALS; i++) refusals[i] = ASKED / 10000 * least_refusals[i];
    for (int i = 0; i < TIDIED; i++) tidied[i] = ASKED / 10000 * least_tidied[i];
    given = ASKED / 10000 * LEAST_GIVEN, broken = ASKED / 10000 * LEAST_BROKEN;
    int wrong = !enough_seen(ASKED);
    wrong += enough_with_one_fewer(&queries);
    for (int i = 0; i < ANSWERS; i++) wrong += enough_with_one_fewer(&answers[i]);
    for (int i = 1; i <= REFUSALS; i++) wrong += enough_with_one_fewer(&refusals[i]);
    for (int i = 0; i < TIDIED; i++) wrong += enough_with_one_fewer(&tidied[i]);
    wrong += enough_with_one_fewer(&given) + enough_with_one_fewer(&broken);
    return wrong != 0;
}

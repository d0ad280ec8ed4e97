/* Copies of a query's buffers where a step past an end is seen:
   in memory of exactly their length from malloc, for the sanitizer's and valgrind's sake;
   up to a page that cannot be read; from the byte after such a page on.
   In the last two the book's pages can be read only. */
#include "fuzz.h"

#include <stdio.h>
#include <stdlib.h>
#include <string.h>
#include <sys/mman.h>
#include <unistd.h>

enum { IN_MALLOC, BEFORE_A_HOLE, AFTER_A_HOLE };

/* ROOM bytes between two pages without access, made at the first call for this buffer. */
static uint8_t *guarded(int which) {
    static uint8_t *rooms[3];
    if (rooms[which] == NULL) {
        size_t page = (size_t)sysconf(_SC_PAGESIZE);
        uint8_t *at = mmap(NULL, ROOM + 2 * page, PROT_NONE, MAP_PRIVATE | MAP_ANONYMOUS, -1, 0);
        if (at == MAP_FAILED || mprotect(at + page, ROOM, PROT_READ | PROT_WRITE) != 0) {
            perror("fuzz: no guarded memory");
            exit(2);
        }
        rooms[which] = at + page;
    }
    return rooms[which];
}

static void place_one(const struct bytes *from, int which, int how, struct bytes *to) {
    to->len = from->len;
    to->at = how == IN_MALLOC ? malloc(from->len) : guarded(which);
    if (how == BEFORE_A_HOLE) to->at += ROOM - from->len;
    if (to->at == NULL) { /* malloc may do so for length 0, the library wants a pointer */
        perror("fuzz: no memory");
        exit(2);
    }
    if (from->len != 0) memcpy(to->at, from->at, from->len);
}

static void protect_book(int access) {
    if (mprotect(guarded(0), ROOM, access) != 0) {
        perror("fuzz: mprotect");
        exit(2);
    }
}

void place(const struct query *q, int how, struct query *placed) {
    *placed = *q;
    place_one(&q->book, 0, how, &placed->book);
    place_one(&q->cache, 1, how, &placed->cache);
    place_one(&q->work, 2, how, &placed->work);
    if (how != IN_MALLOC) protect_book(PROT_READ);
}

void unplace(struct query *placed, int how) {
    if (how != IN_MALLOC) {
        protect_book(PROT_READ | PROT_WRITE);
        return;
    }
    free(placed->book.at);
    free(placed->cache.at);
    free(placed->work.at);
}

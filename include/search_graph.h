/* The search graph: one query over a book, with a cache that is kept between queries; whether what
   it answers of a book is proved right; and a book's plain form, which has the same answers.

   The caller owns every buffer. No function keeps a pointer, allocates or has a state of its own.
   The buffers of a call must not overlap, and a pointer is not null, also where the
   length is 0. Any bytes and any lengths are answered: what does not fit is refused. A call
   needs at most SEARCH_GRAPH_STACK_LEN bytes of the machine's stack. */
#ifndef SEARCH_GRAPH_H
#define SEARCH_GRAPH_H

#include <stddef.h>
#include <stdint.h>

#ifdef __cplusplus
extern "C" {
#endif

/* The most bytes of the machine's stack that a call needs, for any book, cache, workspace and
   output: below the caller's stack pointer, with the arguments. 4 KB of it are for the C
   library's memset and memcpy. */
#define SEARCH_GRAPH_STACK_LEN ((size_t)268 * 1024)

/* The length in bytes of the workspace for a number of goals, 1 to 64; 0 where it is out of
   range. It is 4 * goals * (41 * goals + 24). */
size_t search_graph_work_len(size_t goals);

/* The length in bytes of the cache for a number of goals, 1 to 64, and a top depth, 0 to 63; 0
   where one is out of range. It is goals * (top_depth + 2) * (goals + 4).

   A cache is a row of slots of goals + 4 bytes. Each goal in turn has top_depth + 2 of them: one
   for a result that met no overflow of the depth, then one for each required depth 0 to
   top_depth, for results that met one. A slot is all zeros, or holds a result:
     byte 0        1
     byte 1        the result, 0 to 3 as the answers below
     byte 2        the required depth; in a slot for one required depth, that depth
     byte 3        the passes: how often the goal's part was run for this result, the last run
                   included; at least 1, and at most the book's step limit, or 1 where that is 0
     byte 4 + i    0, or the paths to goal i, which the result rests on: a sum of 1 (of no step),
                   2 (inductive), 4 (unknown), 8 (coinductive), 16 (forced ambiguity)
   An accepted query of goal g at depth d leaves what it found in g's first slot, with a byte 2 of
   at most d, and else in the slot of g for required depth d. It may leave results of other goals
   too; of goals that rest on each other it keeps the one that was called first. */
size_t search_graph_cache_len(size_t goals, size_t top_depth);

/* Evaluates a goal of the book at a depth, and returns answer + 256 * refusal: one of the answers
   below, 0 to 3, or 256 times one of the refusals 1 to 11, whatever the bytes. No other code is
   returned.

   book   is only read.
   cache  is read and written. A new one is all zeros; it is then carried from query to query on
          the same book. One that was kept from a library whose slots had no byte for passes has
          another length, and is refused with 7: begin with zeros of the new length.
   work   holds the search graph while the query runs. It need not be cleared.

   Answer (code % 256), where refusal is 0:
     0  No
     1  Yes
     2  undecided
     3  overflow
   Where all, any or pick meets both 2 and 3 among its parts, and neither No nor Yes decides it,
   it comes to 2.

   Refusal (code / 256); the first of these is given, with answer 0, which then says nothing:
      0  none: the query was accepted, and work is filled with zeros
      1  book: its length is no multiple of 16, below 48, or above 16,000
      2  book: a line is ill-formed
      3  book: a field of the header is out of range
      4  book: the lines break the grammar
      5  the goal is not in the book
      6  the depth is above the book's top depth
      7  the cache has not the length that the book's header asks for
      8  a slot of the cache is ill-formed
      9  the workspace has not the length for the book's number of goals
     10  a provisional entry is to be kept, and there are 2 * goals already
     11  a result is to be kept, and its slot in the cache holds a different one
   Refusals 1 to 9 leave cache and work as they were, 10 and 11 fill both with zeros. */
uint32_t search_graph_query(const uint8_t *book, size_t book_len,
                            uint8_t *cache, size_t cache_len,
                            uint8_t *work, size_t work_len,
                            size_t goal, size_t depth);

/* Whether every Yes and No that queries on this book answer, with a cache that began with zeros,
   is proved right. Two goals are linked where each reaches the other by calls; a group is a goal
   with all that are linked to it, and a call is inside where both of its goals are in the group.
   The guarantee is given where no group has both an inductive call (kind 0) and a coinductive
   one (kind 2) inside: Yes and No are then right of the set that is built group by group, least
   where a group has no coinductive call inside, greatest where it has no inductive one.
   Elsewhere queries answer as the original does, and nothing is proved of their Yes and No.

   Returns 256 * refusal, one of the refusals 1 to 4 above, or 0. The first n of these numbers are
   written to out, at most 3; further ones are left as they were:
     out[0], out[1]  an inductive and a coinductive call line inside one group, by their numbers
                     (the header is line 0): the first inductive one that has such a coinductive
                     one, and the first of those
     out[2]          the goals of that group, bit i for goal i
   All three are 0 where the guarantee is given, and where the book is refused. */
uint32_t search_graph_guarantee(const uint8_t *book, size_t book_len, uint64_t *out, size_t n);

/* Writes the book's plain form to out; book is only read. Three rules make that form, used at every
   level until none fits: an all directly inside an all is spliced in, so that its parts take its
   place, and an empty one disappears; likewise an any inside an any; an all or any with exactly one
   part becomes that part. A pick stays, with its candidates and their order, even if there is only
   one: each of them is put in its plain form by itself, nothing is spliced into a pick, and a pick
   into nothing. The header, goal lines, calls and undecided lines stay, in their order. A plain
   book is copied.

   Every query with the plain book gets the answer or refusal that it gets with the book, and
   leaves the same cache and workspace, so that a cache may be kept when its book is tidied. Only
   lines have other numbers then, such as search_graph_guarantee tells.

   Returns length used + 65536 * refusal: 0 or the first of the refusals 1 to 4 above, and then
     14  out is not as long as the book: it must be, though the plain book may be shorter
   Where refusal is 0, the length used is that of the plain book, in bytes; out holds it, and zeros
   from there to its end. Any refusal leaves out as it was, and has length 0. */
uint32_t search_graph_tidy(const uint8_t *book, size_t book_len, uint8_t *out, size_t out_len);

#ifdef __cplusplus
}
#endif

#endif

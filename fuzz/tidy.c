/* The plain form of a book, decided from what include/search_graph.h and document 02 say, apart from the library. */
#include "fuzz.h"

#include <string.h>

enum { LINE = 16, MOST_LINES = 1000, ALL = 3, ANY = 4, PICK = 5 };

/* Of a line: its code, the line after its part, how many parts it has once lists are spliced in, and the line that it
   becomes: another one where it is a list of one part. */
static struct {
    unsigned code, next, parts, becomes;
} lines[MOST_LINES];

static int has_parts(unsigned code) {
    return code == ALL || code == ANY || code == PICK;
}

static int is_list(unsigned line) {
    return lines[line].code == ALL || lines[line].code == ANY;
}

/* Whether the part that begins at a line is spliced into a list of this code. */
static int joins(unsigned part, unsigned code) {
    unsigned line = lines[part].becomes;
    return is_list(line) && lines[line].code == code;
}

/* The lines of its parts were read before. */
static void read_part(const uint8_t *book, unsigned line) {
    const uint8_t *at = book + (size_t)LINE * line;
    unsigned code = number(at), only = line, part = line + 1, parts = 0;
    lines[line].code = code;
    for (unsigned count = has_parts(code) ? number(at + 3) : 0; count > 0; count--) {
        unsigned more = joins(part, code) ? lines[lines[part].becomes].parts : 1;
        if (more > 0) only = lines[part].becomes;
        parts += more;
        part = lines[part].next;
    }
    lines[line].next = part;
    lines[line].parts = parts;
    lines[line].becomes = is_list(line) && parts == 1 ? only : line;
}

static uint8_t *copy_line(const uint8_t *book, unsigned line, uint8_t *to) {
    memcpy(to, book + (size_t)LINE * line, LINE);
    return to + LINE;
}

/* Writes the part that begins at a line, inside a list of this code; where it ends. */
static uint8_t *put_part(const uint8_t *book, unsigned part, unsigned inside, uint8_t *to) {
    unsigned line = lines[part].becomes, end = lines[line].next;
    if (!joins(part, inside)) {
        to = copy_line(book, line, to);
        if (has_parts(lines[line].code)) put_field(to - LINE + 3, lines[line].parts);
    }
    for (part = line + 1; part < end; part = lines[part].next) to = put_part(book, part, lines[line].code, to);
    return to;
}

size_t expected_tidy(const uint8_t *book, size_t len, uint8_t *out) {
    unsigned count = (unsigned)(len / LINE);
    for (unsigned line = count - 1; line > 0; line--) read_part(book, line);
    uint8_t *to = copy_line(book, 0, out);
    for (unsigned goal = 1; goal < count; goal = lines[goal + 1].next)
        to = put_part(book, goal + 1, 0, copy_line(book, goal, to));
    memset(to, 0, len - (size_t)(to - out));
    return (size_t)(to - out);
}

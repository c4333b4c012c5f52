/* Prints the clauses of a strict plain text on standard input. */
#include <inttypes.h>
#include <stdio.h>

#include "latchtwig.h"

#define MOST ((size_t)1 << 20)
#define ROOM (MOST / 2 + 1) /* no clause of such a text has more literals */

int main(void) {
    static uint8_t text[MOST];
    static int32_t literals[ROOM];
    size_t length = fread(text, 1, MOST, stdin);
    if (ferror(stdin) || length == MOST) {
        fputs("standard input: unreadable, or too long\n", stderr);
        return 2;
    }
    struct latchtwig_cursor cursor;
    struct latchtwig_opening opening;
    struct latchtwig_clause clause;
    latchtwig_open(LATCHTWIG_PLAIN, LATCHTWIG_STRICT, text, length, &cursor, &opening);
    while (latchtwig_next(text, length, &cursor, literals, ROOM, &clause) == LATCHTWIG_CLAUSE) {
        for (uint64_t i = 0; i < clause.count; i++) printf("%" PRId32 " ", literals[i]);
        puts("0");
    }
    if (clause.number == 0) return 0;
    printf("%" PRIu64 ":%" PRIu64 ": %s\n", clause.line, clause.column, latchtwig_words(clause.number));
    return 1;
}

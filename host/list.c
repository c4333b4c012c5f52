/* Lists a strict plain text on standard input: its header, its clauses, and the end or why it is refused. */
#include <ctype.h>
#include <inttypes.h>
#include <stdio.h>

#include "latchtwig.h"

#define MOST ((size_t)1 << 20)
#define ROOM (MOST / 2 + 1) /* a clause of a text of MOST bytes has no more literals */

static uint8_t text[MOST];
static int32_t literals[ROOM];

static void refused(size_t length, const struct latchtwig_clause *c) {
    uint64_t word = latchtwig_word(LATCHTWIG_STRICT, text, length, c->place);
    printf("refused: line %" PRIu64 ", column %" PRIu64 ": %s", c->line, c->column, latchtwig_words(c->number));
    if (word) printf(", found `");
    for (uint64_t i = 0; i < word; i++) putchar(isprint(text[c->place + i]) ? text[c->place + i] : '?');
    puts(word ? "`" : "");
}

static int clauses(size_t length, struct latchtwig_cursor *cursor) {
    struct latchtwig_clause clause;
    uint32_t told;
    while ((told = latchtwig_next(text, length, cursor, literals, ROOM, &clause)) == LATCHTWIG_CLAUSE) {
        printf("clause");
        for (uint64_t i = 0; i < clause.count; i++) printf(" %" PRId32, literals[i]);
        putchar('\n');
    }
    if (told == LATCHTWIG_END) {
        puts("end");
        return 0;
    }
    refused(length, &clause);
    return 1;
}

int main(void) {
    size_t length = fread(text, 1, MOST, stdin);
    if (ferror(stdin)) {
        perror("standard input");
        return 2;
    }
    if (length == MOST) {
        fputs("too long\n", stderr);
        return 2;
    }
    struct latchtwig_cursor cursor;
    struct latchtwig_opening header;
    uint32_t opened = latchtwig_open(LATCHTWIG_PLAIN, LATCHTWIG_STRICT, text, length, &cursor, &header);
    if (opened == LATCHTWIG_HEADER) printf("header %" PRIu64 " %" PRIu64 "\n", header.variables, header.clauses);
    if (opened == LATCHTWIG_NO_HEADER) puts("header none");
    /* A refused header is told again in place of the first clause. */
    return clauses(length, &cursor);
}

/* Reads framed texts from standard input clause by clause, and framed logs, as crates/step_cases does, and prints what it prints.
 *
 * A frame is format, mode, room for literals and length, of one, one, four and four bytes, little-endian, and the text. Each is read twice, all that is lent once at the back of its guarded memory and once at the front, and both must come to the
 * same. Before each call the buffer is filled, so that what a call leaves beyond its literals can be seen. */
#define _DEFAULT_SOURCE
#include <inttypes.h>
#include <string.h>

#include "guarded.h"
#include "latchtwig.h"

#define LONGEST 65536
#define ROOM 4096

static struct guarded texts, buffers, cursors, answers;

/* What is lent for one text. */
struct reading {
    uint32_t format, mode;
    uint8_t *text;
    size_t length;
    int32_t *literals;
    size_t room;
    struct latchtwig_cursor *cursor;
    struct latchtwig_opening *opening;
    struct latchtwig_clause *clause;
    struct latchtwig_solution *solution;
};

static uint32_t number_of(const uint8_t *b) {
    return (uint32_t)b[0] | (uint32_t)b[1] << 8 | (uint32_t)b[2] << 16 | (uint32_t)b[3] << 24;
}

/* What the buffer holds at an index before a call. Neighbours differ, so that a literal that was moved is seen too. */
static int32_t filling(size_t i) {
    return (int32_t)(0x5a000000 + i);
}

static void fill(struct reading r) {
    for (size_t i = 0; i < r.room; i++) r.literals[i] = filling(i);
}

static void untouched(struct reading r, uint64_t from) {
    if (from > r.room) stop("more literals are counted than there is room for");
    for (size_t i = (size_t)from; i < r.room; i++)
        if (r.literals[i] != filling(i)) stop("the buffer is changed beyond its literals");
}

static void literals(FILE *said, struct reading r, uint64_t count) {
    for (uint64_t i = 0; i < count; i++) fprintf(said, " %" PRId32, r.literals[i]);
    fputc('\n', said);
}

/* The word that a refusal stopped at, if there is one. With 26 no text is at fault. */
static void word(FILE *said, struct reading r, uint64_t number, uint64_t place) {
    uint64_t length = number == 26 ? 0 : latchtwig_word(r.mode, r.text, r.length, place);
    if (length > 60 || place > r.length || length > r.length - place) stop("a word is too long");
    if (length) fputc(' ', said);
    for (uint64_t i = 0; i < length; i++) fprintf(said, "%02x", r.text[place + i]);
}

static void refused(FILE *said, struct reading r, uint64_t number, uint64_t place, uint64_t count, uint64_t line, uint64_t column) {
    fprintf(said, "refused %" PRIu64 " %" PRIu64 " %" PRIu64 " %" PRIu64 " %" PRIu64, number, place, count, line, column);
    word(said, r, number, place);
    fputc('\n', said);
}

static void lead(FILE *said, uint32_t format, uint64_t extra) {
    if (format == LATCHTWIG_GROUPED) fprintf(said, " {%" PRIu64 "}:", extra);
    else if (format == LATCHTWIG_WEIGHTED_2022 && extra == 0) fputs(" h:", said);
    else if (format != LATCHTWIG_PLAIN) fprintf(said, " %" PRIu64 ":", extra);
}

static void opening(FILE *said, struct reading r) {
    uint32_t told = latchtwig_open(r.format, r.mode, r.text, r.length, r.cursor, r.opening);
    if (told == LATCHTWIG_NO_HEADER) fputs("header none\n", said);
    if (told != LATCHTWIG_HEADER) return;
    fprintf(said, "header %" PRIu64 " %" PRIu64, r.opening->variables, r.opening->clauses);
    if (r.format != LATCHTWIG_PLAIN) fprintf(said, " %" PRIu64, r.opening->third);
    fputc('\n', said);
}

static uint32_t next(struct reading r) {
    fill(r);
    uint32_t told = latchtwig_next(r.text, r.length, r.cursor, r.literals, r.room, r.clause);
    untouched(r, r.clause->count);
    return told;
}

/* The end or a refusal is answered again, with no literals. */
static void repeated(struct reading r, uint32_t told) {
    struct latchtwig_clause before = *r.clause;
    struct latchtwig_cursor cursor = *r.cursor;
    before.count = 0;
    if (next(r) != told || memcmp(r.clause, &before, sizeof before) || memcmp(r.cursor, &cursor, sizeof cursor)) stop("what is final is not answered again");
}

static void formula(FILE *said, struct reading r) {
    const struct latchtwig_clause *answer = r.clause;
    uint32_t told;
    opening(said, r);
    while ((told = next(r)) == LATCHTWIG_CLAUSE) {
        fputs("clause", said);
        lead(said, r.format, answer->extra);
        literals(said, r, answer->count);
    }
    if (told == LATCHTWIG_END) fputs("end\n", said);
    else refused(said, r, answer->number, answer->place, answer->count, answer->line, answer->column);
    repeated(r, told);
}

static void log_lines(FILE *said, struct reading r) {
    static const char *const verdicts[] = {"none", "yes", "no", "unknown"};
    struct latchtwig_solution *answer = r.solution;
    fill(r);
    uint32_t told = latchtwig_log(r.mode, r.text, r.length, r.literals, r.room, answer);
    untouched(r, answer->count);
    if (told != LATCHTWIG_ACCEPTED) {
        refused(said, r, answer->number, answer->place, answer->count, answer->line, answer->column);
        return;
    }
    fprintf(said, "verdict %s\nliterals", verdicts[answer->verdict]);
    literals(said, r, answer->count);
}

static struct reading lent_for(uint32_t format, uint32_t mode, size_t room, size_t length, int at_back) {
    struct reading r = {
        format,
        mode,
        lent(texts, length, at_back),
        length,
        (int32_t *)lent(buffers, room * sizeof(int32_t), at_back),
        room,
        (struct latchtwig_cursor *)lent(cursors, sizeof(struct latchtwig_cursor), at_back),
        (struct latchtwig_opening *)lent(answers, sizeof(struct latchtwig_opening), at_back),
        (struct latchtwig_clause *)lent(answers, sizeof(struct latchtwig_clause), at_back),
        (struct latchtwig_solution *)lent(answers, sizeof(struct latchtwig_solution), at_back),
    };
    return r;
}

/* What is read of the text, as it is printed. */
static char *lines(struct reading r, const uint8_t *text) {
    char *all = NULL;
    size_t size;
    FILE *said = open_memstream(&all, &size);
    if (!said) stop("no memory");
    memcpy(r.text, text, r.length);
    if (r.format == LATCHTWIG_LOG) log_lines(said, r);
    else formula(said, r);
    if (memcmp(r.text, text, r.length)) stop("the text is changed");
    if (fclose(said)) stop("no memory");
    return all;
}

static void one(uint32_t format, uint32_t mode, size_t room, size_t length) {
    static uint8_t text[LONGEST];
    if (length > sizeof text) stop("a text is too long");
    if (fread(text, 1, length, stdin) < length) stop("a text is cut off");
    char *back = lines(lent_for(format, mode, room, length, 1), text), *front = lines(lent_for(format, mode, room, length, 0), text);
    if (strcmp(back, front)) stop("the same text was read otherwise");
    fputs(back, stdout);
    free(back);
    free(front);
}

int main(void) {
    uint8_t frame[10];
    size_t got;
    texts = guarded(LONGEST);
    buffers = guarded(ROOM * sizeof(int32_t));
    cursors = guarded(sizeof(struct latchtwig_cursor));
    answers = guarded(sizeof(struct latchtwig_opening));
    for (unsigned long n = 0; (got = fread(frame, 1, sizeof frame, stdin)) == sizeof frame; n++) {
        size_t room = number_of(frame + 2);
        printf("case %lu\n", n);
        one(frame[0], frame[1], room < ROOM ? room : ROOM, number_of(frame + 6));
    }
    if (got) stop("a frame is cut off");
    return 0;
}

/* Calls that no careful program makes: no pointers, no room, cursors of any words, and another text than the one that was opened. Whatever is answered, nothing is touched but what is lent.
 *
 * usage: misuse COUNT [heap]
 *
 * COUNT cursors of any words, and as many calls with other texts, the same ones at every run. What is lent stands in guarded memory, or, with `heap`, in blocks of the heap that are as long as it, around which a memory
 * checker looks. */
#define _DEFAULT_SOURCE
#include <inttypes.h>
#include <string.h>

#include "guarded.h"
#include "latchtwig.h"

#define LONGEST 48
#define ROOM 5

static int heap, wrong;
static uint8_t *texts[LONGEST + 1][2];
static int32_t *buffers[ROOM + 1][2];
static struct latchtwig_cursor *cursors[2];
static struct latchtwig_opening *openings[2];
static struct latchtwig_clause *clauses[2];
static struct latchtwig_solution *solutions[2];

/* Which words of a cursor are what, and the formats there, from 1. Any other format is none. */
enum { PLACE, COUNT, LITERALS, GROUPS, CLAUSES, FORMAT, ENDS, FINAL, FORMATS = 4 };

/* How often each kind was answered, and each refusal to a cursor that had no final answer yet. */
static uint64_t kinds[3], numbers[256];

static uint64_t any(void) {
    static uint64_t x = 88172645463325252u;
    x ^= x << 13;
    x ^= x >> 7;
    x ^= x << 17;
    return x;
}

static uint64_t below(uint64_t n) {
    return any() % n;
}

static void must(int right, const char *what) {
    if (right) return;
    if (wrong++ < 10) printf("misuse: %s\n", what);
}

static void *block(size_t size, int at_back) {
    if (!heap) return lent(guarded(size), size, at_back);
    void *b = malloc(size);
    if (!b) stop("no memory");
    return b;
}

static void blocks(void) {
    for (int side = 0; side < 2; side++) {
        for (size_t n = 0; n <= LONGEST; n++) texts[n][side] = (uint8_t *)block(n, side);
        for (size_t n = 0; n <= ROOM; n++) buffers[n][side] = (int32_t *)block(n * sizeof(int32_t), side);
        cursors[side] = (struct latchtwig_cursor *)block(sizeof(struct latchtwig_cursor), side);
        openings[side] = (struct latchtwig_opening *)block(sizeof(struct latchtwig_opening), side);
        clauses[side] = (struct latchtwig_clause *)block(sizeof(struct latchtwig_clause), side);
        solutions[side] = (struct latchtwig_solution *)block(sizeof(struct latchtwig_solution), side);
    }
}

/* A text, with its place among those lent. */
struct text {
    uint8_t bytes[LONGEST];
    size_t length;
    uint8_t *at;
};

static void lend_text(struct text *t) {
    t->at = texts[t->length][below(2)];
    memcpy(t->at, t->bytes, t->length);
}

/* Any of these bytes, or pieces that are mostly those of a clause. */
static void random_text(struct text *t) {
    static const char bytes[] = "0123456789 -\n\rchp{}\0\xff";
    static const char *const pieces[] = {"1 ", "-2 ", "3 ", "0\n", "1 ", "-2 ", "3 ", "0\n", "0\r\n", "0\r", "{1} ", "{70}", "h ", "5 ", "18446744073709551616 ", "\n", "c\n", "p ", "x"};
    size_t most = below(LONGEST + 1), whole = below(4);
    t->length = 0;
    while (t->length < most) {
        const char *piece = pieces[below(sizeof pieces / sizeof *pieces)];
        size_t size = whole ? strlen(piece) : 1;
        if (size > most - t->length) break;
        memcpy(t->bytes + t->length, whole ? piece : bytes + below(sizeof bytes - 1), size);
        t->length += size;
    }
    lend_text(t);
}

/* A buffer, with what stands in it before a call. */
struct buffer {
    size_t room;
    int32_t *at;
};

static int32_t filling(size_t i) {
    return (int32_t)(0x5a000000 + i);
}

static struct buffer filled(void) {
    struct buffer b = {below(ROOM + 1), NULL};
    b.at = buffers[b.room][below(2)];
    for (size_t i = 0; i < b.room; i++) b.at[i] = filling(i);
    return b;
}

/* What is so after every call that reads literals. */
static void kept(struct text t, struct buffer b, uint64_t count) {
    must(!memcmp(t.at, t.bytes, t.length), "a text is changed");
    must(count <= b.room, "more literals are counted than there is room for");
    for (size_t i = (size_t)count; i < b.room; i++) must(b.at[i] == filling(i), "a buffer is changed beyond its literals");
}

/* What is so of an answer to a cursor, by the words that it held. */
static void answered(const struct latchtwig_cursor *held, struct text t, uint32_t told, const struct latchtwig_clause *a) {
    uint64_t format = held->words[FORMAT];
    if (told > LATCHTWIG_REFUSED) stop("misuse: something else is answered");
    kinds[told]++;
    if (told != LATCHTWIG_REFUSED) must(!a->number && !a->place && !a->line && !a->column, "a refusal is told where nothing is refused");
    if (format == 0 || format > FORMATS) {
        must(told == LATCHTWIG_REFUSED && a->number == 26 && !a->place && !a->line && !a->column && !a->count, "words of no format are not refused by 26");
        numbers[26]++;
    } else if (held->words[FINAL] == 0 && told == LATCHTWIG_REFUSED) {
        must(a->number > 0 && a->number < 256, "a refusal has no number");
        must(a->place <= t.length || a->place <= held->words[PLACE], "a place is beyond the text and the cursor");
        numbers[a->number & 255]++;
    }
}

static uint32_t next(struct latchtwig_cursor *cursor, struct text t) {
    struct buffer b = filled();
    struct latchtwig_clause *a = clauses[below(2)];
    struct latchtwig_cursor held = *cursor;
    uint32_t told = latchtwig_next(t.at, t.length, cursor, b.at, b.room, a);
    kept(t, b, a->count);
    answered(&held, t, told, a);
    return told;
}

/* A number that is often small, or the largest but a few. */
static uint64_t some(void) {
    switch (below(4)) {
    case 0: return any();
    case 1: return below(6);
    case 2: return UINT64_MAX - below(3);
    default: return below(LONGEST + 4);
    }
}

/* Any words; mostly such as an opening or a clause could have left, but for the place. */
static void random_words(struct latchtwig_cursor *c) {
    for (int i = 0; i < 12; i++) c->words[i] = some();
    if (!below(4)) return;
    c->words[COUNT] = below(4);
    c->words[LITERALS] = (uint64_t)INT32_MAX >> (below(2) ? below(32) : 0);
    c->words[GROUPS] = UINT64_MAX >> below(64);
    c->words[CLAUSES] = below(2) ? below(8) : 0;
    c->words[FORMAT] = 1 + below(FORMATS);
    c->words[ENDS] = below(2);
    c->words[FINAL] = 0;
    if (below(8)) c->words[PLACE] = below(3);
}

static void random_log(struct text t) {
    struct buffer b = filled();
    struct latchtwig_solution *a = solutions[below(2)];
    latchtwig_log((uint32_t)below(5), t.at, t.length, b.at, b.room, a);
    kept(t, b, a->count);
    uint64_t place = some(), word = latchtwig_word((uint32_t)below(5), t.at, t.length, place);
    must(word == 0 || (place < t.length && word <= t.length - place), "a word is beyond the text");
}

static void random_cursors(uint64_t count) {
    for (uint64_t i = 0; i < count; i++) {
        struct latchtwig_cursor *cursor = cursors[below(2)];
        struct text t;
        random_text(&t);
        random_words(cursor);
        next(cursor, t);
        if (i % 8 == 0) random_log(t);
    }
}

/* Another text than that which was opened: none, its beginning, more than it, or other bytes. */
static void other_text(struct text *t, const struct text *opened) {
    size_t length = opened->length;
    *t = *opened;
    switch (below(4)) {
    case 0: t->length = 0; break;
    case 1: t->length = below(length); break;
    case 2: t->length = length + 1 + below(LONGEST - length); memset(t->bytes + length, '1', t->length - length); break;
    default: random_text(t); return;
    }
    lend_text(t);
}

/* Opens a good text and reads on in others. How many calls that took is answered. */
static uint64_t other_texts(void) {
    static const char *const good[] = {"p cnf 3 3\n1 -3 0\n-2 0\n3 0\n", "p wcnf 3 3 9\n5 1 0\n2 -2 3 0\n1 0\n", "p gcnf 3 2 4\n{1} 1 -2 0\n{4} 3 0\n", "h 1 -2 0\n3 2 0\nh 0\n"};
    struct text opened, other;
    struct latchtwig_cursor *cursor = cursors[below(2)];
    uint32_t format = (uint32_t)below(FORMATS), told;
    uint64_t calls = 0;
    opened.length = strlen(good[format]);
    memcpy(opened.bytes, good[format], opened.length);
    lend_text(&opened);
    latchtwig_open(format < LATCHTWIG_LOG ? format : LATCHTWIG_WEIGHTED_2022, (uint32_t)below(4), opened.at, opened.length, cursor, openings[below(2)]);
    do {
        other_text(&other, &opened);
        told = next(cursor, other);
        calls++;
    } while (told == LATCHTWIG_CLAUSE && calls < 8);
    return calls;
}

/* No pointers, and no room. */
static void nothing(void) {
    const struct latchtwig_cursor zeros = {{0}};
    uint8_t out[4];
    for (uint32_t mode = 0; mode < 4; mode++) {
        struct latchtwig_cursor c = zeros;
        struct latchtwig_opening o;
        struct latchtwig_clause a;
        struct latchtwig_solution s;
        must(latchtwig_next(NULL, 0, &c, NULL, 0, &a) == LATCHTWIG_REFUSED && a.number == 26 && a.count == 0, "zeros are not refused by 26");
        must(latchtwig_next(NULL, 0, &c, NULL, 0, &a) == LATCHTWIG_REFUSED && a.number == 26 && a.count == 0, "26 is not repeated");
        for (uint32_t format = 0; format <= 5; format++) {
            uint32_t told = latchtwig_open(format, mode, NULL, 0, &c, &o), after = latchtwig_next(NULL, 0, &c, NULL, 0, &a);
            if (format == LATCHTWIG_LOG || format == 5) must(told == LATCHTWIG_REFUSED && o.number == 26 && after == LATCHTWIG_REFUSED && a.number == 26, "no text, opened in no format of clauses");
            else must(told == LATCHTWIG_NO_HEADER && o.number == 0 && after == LATCHTWIG_END && a.number == 0, "no text, opened");
        }
        must(latchtwig_open(LATCHTWIG_PLAIN, mode, (const uint8_t *)"0\n1 0\n", 6, &c, &o) == LATCHTWIG_NO_HEADER, "two clauses, opened");
        must(latchtwig_next((const uint8_t *)"0\n1 0\n", 6, &c, NULL, 0, &a) == LATCHTWIG_CLAUSE && a.count == 0, "no room for a clause of no literals");
        must(latchtwig_next((const uint8_t *)"0\n1 0\n", 6, &c, NULL, 0, &a) == LATCHTWIG_REFUSED && a.number == 16 && a.place == 2 && a.count == 0, "no room for a literal");
        must(latchtwig_log(mode, NULL, 0, NULL, 0, &s) == LATCHTWIG_ACCEPTED && s.count == 0 && s.verdict == LATCHTWIG_VERDICT_NONE, "no log");
        must(latchtwig_log(mode, (const uint8_t *)"v 1 0\n", 6, NULL, 0, &s) == LATCHTWIG_REFUSED && s.number == 16 && s.place == 2 && s.count == 0, "no room for a log");
        must(latchtwig_word(mode, NULL, 0, 0) == 0 && latchtwig_word(mode, NULL, 0, UINT64_MAX) == 0, "a word of no text");
    }
    struct latchtwig_line l;
    must(latchtwig_write_header(LATCHTWIG_PLAIN, 1, 1, 0, NULL, 0, &l) == LATCHTWIG_REFUSED && l.number == 28, "a header into no output");
    must(latchtwig_write_clause(LATCHTWIG_PLAIN, 0, NULL, 0, NULL, 0, &l) == LATCHTWIG_REFUSED && l.number == 28, "a clause into no output");
    must(latchtwig_write_hard_clause(LATCHTWIG_WEIGHTED_2022, NULL, 0, NULL, 0, &l) == LATCHTWIG_REFUSED && l.number == 28, "a hard clause into no output");
    must(latchtwig_write_clause(LATCHTWIG_PLAIN, 0, NULL, 0, out, sizeof out, &l) == LATCHTWIG_LINE && l.length == 2 && !memcmp(out, "0\n", 2), "a clause of no literals");
    must(latchtwig_write_hard_clause(LATCHTWIG_WEIGHTED_2022, NULL, 0, out, sizeof out, &l) == LATCHTWIG_LINE && l.length == 4 && !memcmp(out, "h 0\n", 4), "a hard clause of no literals");
}

/* What was answered to so many calls. Every kind, and every refusal that a text of clauses can come to past its header, must have been, and no other; 26 where some cursors had words of no format. */
static void tell(uint64_t calls, const char *of, int formatless) {
    static const int by_next[] = {5, 6, 7, 8, 9, 13, 14, 15, 16, 26, 32, 33};
    printf("misuse: %" PRIu64 " %s: %" PRIu64 " ends, %" PRIu64 " clauses, %" PRIu64 " refusals, by number", calls, of, kinds[0], kinds[1], kinds[2]);
    must(kinds[0] && kinds[1] && kinds[2], "a kind of answer did not occur");
    for (size_t i = 0; i < sizeof by_next / sizeof *by_next; i++) {
        uint64_t *often = &numbers[by_next[i]];
        printf(" %d: %" PRIu64, by_next[i], *often);
        must((*often > 0) == (by_next[i] != 26 || formatless), "a refusal did not occur, or one that could not");
        *often = 0;
    }
    putchar('\n');
    for (size_t i = 0; i < 256; i++) must(numbers[i] == 0, "a refusal occurred that no text of clauses comes to");
    memset(kinds, 0, sizeof kinds);
}

int main(int argc, char **argv) {
    uint64_t count = argc > 1 ? strtoull(argv[1], NULL, 10) : 0, others = 0;
    if (count == 0) stop("usage: misuse COUNT [heap]");
    heap = argc > 2;
    blocks();
    nothing();
    random_cursors(count);
    tell(count, "cursors of any words", 1);
    while (others < count) others += other_texts();
    tell(others, "calls with other texts", 0);
    printf("misuse: %d wrong\n", wrong);
    return wrong != 0;
}

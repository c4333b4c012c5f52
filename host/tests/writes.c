/* Makes framed calls of the writers from standard input, as crates/writer_cases does, and prints what it prints: crates/writer_cases/src/main.rt tells of the frames.
 *
 * Each call is made twice, literals and output once at the back of their guarded memory and once at the front, and both must come to the same. Before each the output is filled, so that what a call leaves beyond its line can be seen. */
#define _DEFAULT_SOURCE
#include <inttypes.h>
#include <string.h>

#include "guarded.h"
#include "latchtwig.h"

#define HEAD 34
#define OUTPUT 65536
#define LITERALS 8192

static struct guarded given, outputs, answers;

struct call {
    uint32_t format, kind;
    uint64_t numbers[3];
    size_t count, length;
};

static uint64_t number_of(const uint8_t *b, int bytes) {
    uint64_t n = 0;
    while (bytes--) n = n << 8 | b[bytes];
    return n;
}

static struct call call_of(const uint8_t *frame) {
    struct call c = {frame[0], frame[1], {number_of(frame + 6, 8), number_of(frame + 14, 8), number_of(frame + 22, 8)}, (size_t)number_of(frame + 30, 4), (size_t)number_of(frame + 2, 4)};
    if (c.length > OUTPUT) c.length = OUTPUT;
    return c;
}

/* What the output holds at an index before a call. Neighbours differ, so that a byte that was moved is seen too. */
static uint8_t filling(size_t i) {
    return (uint8_t)(i % 251);
}

static void untouched(const uint8_t *output, uint64_t from, size_t length) {
    for (size_t i = (size_t)from; i < length; i++)
        if (output[i] != filling(i)) stop("the output is changed beyond its line");
}

/* The call made, of the kind that its number names. What is of no kind is refused by 26, as the program of crates/writer_cases has it. */
static uint32_t made(struct call c, const int32_t *literals, uint8_t *output, struct latchtwig_line *answer) {
    switch (c.kind) {
    case 0: return latchtwig_write_header(c.format, c.numbers[0], c.numbers[1], c.numbers[2], output, c.length, answer);
    case 1: return latchtwig_write_clause(c.format, c.numbers[0], literals, c.count, output, c.length, answer);
    case 2: return latchtwig_write_hard_clause(c.format, literals, c.count, output, c.length, answer);
    default: memset(answer, 0, sizeof *answer); answer->number = 26; return LATCHTWIG_REFUSED;
    }
}

/* What a call leaves, its answer and its output, with all that is lent to it at one side. */
static uint32_t answered(struct call c, const int32_t *literals, int at_back, struct latchtwig_line *answer, uint8_t *line) {
    size_t size = c.count * sizeof(int32_t);
    int32_t *lits = (int32_t *)lent(given, size, at_back);
    uint8_t *output = lent(outputs, c.length, at_back);
    struct latchtwig_line *filled = (struct latchtwig_line *)lent(answers, sizeof *filled, at_back);
    memcpy(lits, literals, size);
    for (size_t i = 0; i < c.length; i++) output[i] = filling(i);
    uint32_t told = made(c, lits, output, filled);
    *answer = *filled;
    if (memcmp(lits, literals, size)) stop("the literals are changed");
    if (answer->length > c.length) stop("a line is longer than its output");
    untouched(output, answer->length, c.length);
    memcpy(line, output, (size_t)answer->length);
    return told;
}

static void print(uint32_t told, const struct latchtwig_line *answer, const uint8_t *line) {
    if (told != LATCHTWIG_LINE) {
        printf("refused %" PRIu64 " %" PRIu64 " 0 %" PRIu64 " %" PRIu64 "\n", answer->number, answer->place, answer->line, answer->column);
        return;
    }
    printf("written %" PRIu64 " ", answer->length);
    for (uint64_t i = 0; i < answer->length; i++) printf("%02x", line[i]);
    putchar('\n');
}

static void both(struct call c, const int32_t *literals) {
    static uint8_t back[OUTPUT], front[OUTPUT];
    struct latchtwig_line answer, again;
    uint32_t told = answered(c, literals, 1, &answer, back);
    if (answered(c, literals, 0, &again, front) != told || memcmp(&answer, &again, sizeof answer) || memcmp(back, front, (size_t)answer.length)) stop("the same call came to something else");
    print(told, &answer, back);
}

/* The call of a frame, and whether another may follow. Too many literals are passed over. */
static int one(struct call c) {
    static int32_t literals[LITERALS];
    uint8_t b[4];
    for (size_t i = 0; i < c.count; i++) {
        if (fread(b, 1, sizeof b, stdin) < sizeof b) return puts("cut"), 0;
        uint32_t n = (uint32_t)number_of(b, 4);
        if (c.count <= LITERALS) memcpy(&literals[i], &n, sizeof n);
        else if (i == 0) puts("long");
    }
    if (c.count <= LITERALS) both(c, literals);
    return 1;
}

int main(void) {
    uint8_t frame[HEAD];
    given = guarded(LITERALS * sizeof(int32_t));
    outputs = guarded(OUTPUT);
    answers = guarded(sizeof(struct latchtwig_line));
    for (unsigned long n = 0;; n++) {
        size_t got = fread(frame, 1, HEAD, stdin);
        if (got) printf("case %lu\n", n);
        if (got && got < HEAD) puts("cut");
        if (got < HEAD || !one(call_of(frame))) return 0;
    }
}

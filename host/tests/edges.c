/* The edges of the boundary from C: no bytes, no pointer, long texts, a buffer that is full, the longest lines, and the words of each number. */
#include <inttypes.h>
#include <stdio.h>
#include <stdlib.h>
#include <string.h>

#include "latchtwig.h"

#define MEGABYTE ((size_t)1 << 20)

static int wrong, tried;

static void expect_at(const char *what, uint32_t format, uint32_t mode, const uint8_t *text, size_t length, uint32_t number, uint64_t place, uint64_t line, uint64_t column) {
    uint32_t n = latchtwig_refusal(format, mode, text, length);
    uint64_t p = latchtwig_place(format, mode, text, length);
    struct latchtwig_answer a;
    uint32_t c = latchtwig_check(format, mode, text, length, &a);
    tried++;
    if (n != number || p != place || c != number || a.number != number || a.place != place || a.line != line || a.column != column) {
        printf("%s, format %" PRIu32 ", mode %" PRIu32 ": %" PRIu32 " at %" PRIu64 ", and %" PRIu64 " at %" PRIu64 ", line %" PRIu64 ", column %" PRIu64 "; not %" PRIu32 " at %" PRIu64 ", line %" PRIu64 ", column %" PRIu64 "\n",
               what, format, mode, n, p, a.number, a.place, a.line, a.column, number, place, line, column);
        wrong++;
    }
}

/* The same of a text that is read to its end, of one refused on its first line, and of one whose numbers name nothing. */
static void expect(const char *what, uint32_t format, uint32_t mode, const uint8_t *text, size_t length, uint32_t number, uint64_t place) {
    int here = number != 0 && number != 26;
    expect_at(what, format, mode, text, length, number, place, here ? 1 : 0, here ? place + 1 : 0);
}

/* A line again and again, as often as it fits the length. */
static size_t lines(uint8_t *text, size_t length, const char *line) {
    size_t size = strlen(line), at = 0;
    for (; at + size <= length; at += size) memcpy(text + at, line, size);
    return at;
}

static void must(int right, const char *what) {
    tried++;
    if (!right) {
        puts(what);
        wrong++;
    }
}

/* A number has words of its own exactly if a call can answer it. */
static void words(void) {
    const char *none = latchtwig_words(0);
    must(!strcmp(none, "no refusal has this number") && !strcmp(latchtwig_words(5), "a line end is expected"), "other words");
    for (uint64_t n = 1; n < 256; n++) {
        int answered = n <= 19 || (n >= 26 && n <= 28) || n == 32 || n == 33;
        must((strcmp(latchtwig_words(n), none) != 0) == answered, "a number that is not answered has words, or one that is has none");
    }
    must(!strcmp(latchtwig_words(UINT64_MAX), none) && !strcmp(latchtwig_words(((uint64_t)1 << 32) + 5), none), "a number beyond all has words");
}

/* A clause that does not fit is read from a copy of the cursor into a larger buffer, and reading goes on. */
static void larger_buffer(void) {
    static const uint8_t text[] = "1 2 3 0\n4 0\n";
    size_t length = sizeof text - 1;
    int32_t literals[3] = {7, 7, 7};
    struct latchtwig_cursor cursor, copy;
    struct latchtwig_opening opening;
    struct latchtwig_clause a;
    must(latchtwig_open(LATCHTWIG_PLAIN, LATCHTWIG_STRICT, text, length, &cursor, &opening) == LATCHTWIG_NO_HEADER, "no header is expected");
    copy = cursor;
    must(latchtwig_next(text, length, &cursor, literals, 2, &a) == LATCHTWIG_REFUSED && a.number == 16 && a.place == 4 && a.line == 1 && a.column == 5 && a.count == 2 && literals[0] == 1 && literals[1] == 2 && literals[2] == 7, "a buffer of two");
    must(latchtwig_next(text, length, &copy, literals, 3, &a) == LATCHTWIG_CLAUSE && a.count == 3 && literals[2] == 3, "a buffer of three");
    must(latchtwig_next(text, length, &copy, literals, 3, &a) == LATCHTWIG_CLAUSE && a.count == 1 && literals[0] == 4 && literals[1] == 2, "the clause after it");
    must(latchtwig_next(text, length, &copy, literals, 3, &a) == LATCHTWIG_END, "the end");
}

/* The number that a clause or a log comes to with so much room. */
static uint64_t first_number(uint32_t format, const uint8_t *text, size_t length, size_t room) {
    static int32_t literals[100];
    struct latchtwig_cursor cursor;
    struct latchtwig_opening opening;
    struct latchtwig_clause a;
    struct latchtwig_solution s;
    if (format == LATCHTWIG_LOG) return latchtwig_log(LATCHTWIG_STRICT, text, length, literals, room, &s), s.number;
    latchtwig_open(format, LATCHTWIG_STRICT, text, length, &cursor, &opening);
    return latchtwig_next(text, length, &cursor, literals, room, &a), a.number;
}

/* A buffer of length / 2 + 1 literals is never full, however close the literals stand. In a plain text half the length is too little. */
static void never_full(void) {
    static const char *const leads[] = {"", "5 ", "{1}", "v ", "h "};
    uint8_t text[100];
    for (uint32_t format = LATCHTWIG_PLAIN; format <= LATCHTWIG_WEIGHTED_2022; format++) {
        size_t from = strlen(leads[format]);
        memcpy(text, leads[format], from);
        for (size_t length = from; length < sizeof text; length++) {
            must(first_number(format, text, length, length / 2 + 1) != 16, "a buffer of length / 2 + 1 literals is full");
            if (format == LATCHTWIG_PLAIN && length % 2) must(first_number(format, text, length, length / 2) == 16, "a shorter one is not full");
            text[length] = (length - from) % 2 ? ' ' : '1';
        }
    }
}

/* The longest header takes 60 bytes, the longest clause 25 and 12 for each literal. */
static void longest_lines(void) {
    static const int32_t literals[3] = {-2147483647, -2147483647, -2147483647};
    uint8_t output[61];
    struct latchtwig_line a;
    for (size_t length = 59; length <= 61; length++) must((latchtwig_write_header(LATCHTWIG_GROUPED, 2147483647, UINT64_MAX, UINT64_MAX, output, length, &a) == LATCHTWIG_LINE ? a.length : a.number) == (length < 60 ? 28 : 60), "the longest header");
    for (size_t k = 0; k <= 3; k++) {
        must(latchtwig_write_clause(LATCHTWIG_GROUPED, UINT64_MAX, literals, k, output, 25 + 12 * k, &a) == LATCHTWIG_LINE && a.length == 25 + 12 * k, "the longest clause");
        must(latchtwig_write_clause(LATCHTWIG_GROUPED, UINT64_MAX, literals, k, output, 24 + 12 * k, &a) == LATCHTWIG_REFUSED && a.number == 28, "an output too short for it");
    }
}

int main(void) {
    static const char *const repeated[] = {"1 -2 3 0\n", "5 1 -2 3 0\n", "{7} 1 -2 3 0\n", "c 1 -2 3 0\n", "h 1 -2 3 0\n"};
    uint8_t *text = malloc(MEGABYTE + 1);
    uint8_t none[1] = {'x'};
    if (!text) return 2;

    for (uint32_t mode = LATCHTWIG_STRICT; mode <= LATCHTWIG_LENIENT_CR; mode++) {
        for (uint32_t format = LATCHTWIG_PLAIN; format <= LATCHTWIG_WEIGHTED_2022; format++) {
            expect("no bytes", format, mode, none, 0, 0, 0);
            expect("no pointer", format, mode, NULL, 0, 0, 0);
            expect("no bytes, nowhere", format, mode, (const uint8_t *)UINTPTR_MAX, 0, 0, 0);
            size_t length = lines(text, MEGABYTE, repeated[format]);
            expect("a megabyte", format, mode, text, length, 0, length);
        }
        expect("no pointer, no such format", 5, mode, NULL, 0, 26, 0);
        expect("no pointer, format 256", 256, mode, NULL, 0, 26, 0);
        expect("no pointer, no such mode", LATCHTWIG_PLAIN, mode + 4, NULL, 0, 26, 0);
        expect("no pointer, mode 256 on", LATCHTWIG_LOG, mode + 256, NULL, 0, 26, 0);

        size_t length = lines(text, (size_t)1 << 16, "0\n");
        expect("64 KB of empty clauses", LATCHTWIG_PLAIN, mode, text, length, 0, 65536);
        expect("64 KB of empty clauses", LATCHTWIG_WEIGHTED, mode, text, length, 0, 65536);
        expect("64 KB of empty clauses", LATCHTWIG_GROUPED, mode, text, length, 9, 0);
        expect("64 KB of empty clauses", LATCHTWIG_WEIGHTED_2022, mode, text, length, 32, 0);
        expect("64 KB of empty clauses", LATCHTWIG_LOG, mode, text, length, mode % 2 == LATCHTWIG_STRICT ? 18 : 0, mode % 2 == LATCHTWIG_STRICT ? 0 : 65536);

        length = lines(text, MEGABYTE, "1 -2 3 0\n");
        text[length] = 'x';
        expect_at("a bad last byte", LATCHTWIG_PLAIN, mode, text, length + 1, 9, length, length / 9 + 1, 1);
        memset(text, '9', MEGABYTE);
        expect("a megabyte of digits", LATCHTWIG_PLAIN, mode, text, MEGABYTE, 15, 0);
        memset(text, 0, MEGABYTE);
        expect("a megabyte of zero bytes", LATCHTWIG_PLAIN, mode, text, MEGABYTE, 9, 0);
    }
    free(text);
    words();
    larger_buffer();
    never_full();
    longest_lines();
    printf("edges: %d tries, %d wrong\n", tried, wrong);
    return wrong != 0;
}

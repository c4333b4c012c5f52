/* Latchtwig for C: texts in the DIMACS formats and solver logs, checked whole or read clause by clause, and headers and clauses written.
 *
 * Link liblatchtwig.a or liblatchtwig.so, which host/build writes to target/host/lib, for x86-64 or aarch64 Linux. They need C's memset and nothing else. This header is for C99 and C++11.
 *
 * A text is a pointer to its first byte and a count of bytes. Any bytes will do, zeros among them; nothing need end the text. A buffer of literals is a pointer and a count of literals, an output a pointer and a count of bytes.
 * With count 0 the pointer is not looked at and may be null. Otherwise so many from it on must be readable, and writable where it is not const, and nothing else may change them during a call. At
 * most PTRDIFF_MAX bytes are allowed. A cursor and an answer are never null. Nothing that is given to one call may overlap.
 *
 * A call touches only what is given to it, keeps nothing, and always returns, in time that grows with what it is given alone. Calls may be made from many threads at once, each with a cursor, a buffer, an output and an answer of its own. They use no heap. Those that judge
 * a whole text use about 5 KB of stack, the others less than 1 KB.
 */
#ifndef LATCHTWIG_H
#define LATCHTWIG_H

#include <stddef.h>
#include <stdint.h>

#ifdef __cplusplus
extern "C" {
#endif

/* Formats. */
#define LATCHTWIG_PLAIN 0u         /* clauses: `p cnf V C`, then `1 -2 0` */
#define LATCHTWIG_WEIGHTED 1u      /* clauses with a weight each: `p wcnf V C top`, then `5 1 -2 0` */
#define LATCHTWIG_GROUPED 2u       /* clauses with a group each: `p gcnf V C groups`, then `{3} 1 -2 0` */
#define LATCHTWIG_LOG 3u           /* what a solver prints: `s SATISFIABLE`, then `v 1 -2 0` */
#define LATCHTWIG_WEIGHTED_2022 4u /* hard clauses and soft ones with a weight each, by the rules of 2022: no header, `h 1 -2 0` and `5 1 -2 0`; strict and lenient read alike */

/* Modes. Lenient never changes what strict reads: a text taken strictly is taken leniently, and one refused leniently is refused strictly, at that place or before it. A text whose lines end with CR alone needs one of the last two. In the others it is one comment if it begins with one, and so a formula without clauses. */
#define LATCHTWIG_STRICT 0u
#define LATCHTWIG_LENIENT 1u    /* a header's counts are not applied; log lines of no known kind are passed over */
#define LATCHTWIG_STRICT_CR 2u  /* as strict, and a CR without LF ends a line too */
#define LATCHTWIG_LENIENT_CR 3u /* as lenient, and a CR without LF ends a line too */

/* What a refusal's number says, in words.
 *
 * In the strict modes 9 is also what a wrong clause count comes to, other than 0, which is none: the place is the text's end if there are fewer clauses, and the first clause
 * beyond the count if there are more. With 26 nothing was read, or written. */
static inline const char *latchtwig_words(uint64_t number) {
    switch (number) {
    case 1: return "the word of the format is expected after `p`";
    case 2: return "the count of variables is expected";
    case 3: return "the count of clauses is expected";
    case 4: return "the top weight or the count of groups is expected";
    case 5: return "a line end is expected";
    case 6: return "a literal or 0 is expected";
    case 7: return "a literal or 0 is expected after the line end";
    case 8: return "literals are expected after a weight, a group or `h`";
    case 9: return "a clause, a comment, a line end or a permitted end of the text is expected";
    case 10: return "a count of variables up to 2147483647 is expected";
    case 11: return "a count of clauses up to 18446744073709551615 is expected";
    case 12: return "a top weight or count of groups up to 18446744073709551615 is expected";
    case 13: return "a weight up to 18446744073709551615 is expected";
    case 14: return "a group within its limit is expected, the header's count of groups or 18446744073709551615";
    case 15: return "a literal within its limit is expected, the header's count of variables or 2147483647";
    case 16: return "no more literals are expected in a clause or a log than the buffer has room for, 1024 where none is lent";
    case 17: return "SATISFIABLE, UNSATISFIABLE or UNKNOWN is expected";
    case 18: return "a log line of a permitted kind is expected";
    case 19: return "the 0 that closes the assignment is expected";
    case 26: return "a known format and a known mode are expected";
    case 27: return "a literal other than 0 and -2147483648 is expected";
    case 28: return "an output as long as the line is expected";
    case 32: return "a weight above 0 is expected";
    case 33: return "no header is expected, as the 2022 form has none";
    default: return "no refusal has this number";
    }
}

/* Whole texts. Each of these three judges the text anew, and all agree with each other. A clause, or a whole log, has room for 1,024 literals. */

/* The number of the refusal that the text comes to, or 0 if it is read to its end. */
uint32_t latchtwig_refusal(uint32_t format, uint32_t mode, const uint8_t *text, size_t length);

/* The place of that refusal: the offset of the byte at fault, or of the first byte where something else was expected, which may be the text's length. The text's length if it
 * is read to its end. 0 with refusal 26. */
uint64_t latchtwig_place(uint32_t format, uint32_t mode, const uint8_t *text, size_t length);

/* What a text comes to. */
struct latchtwig_answer {
    uint64_t number; /* as latchtwig_refusal answers it */
    uint64_t place;  /* as latchtwig_place answers it */
    uint64_t line;   /* of the place, from 1: one more than the line ends before it, LF bytes and in the last two modes each CR without LF too */
    uint64_t column; /* of the place, from 1: one more than the bytes between the last of these, or the text's start, and the place */
};

/* All of this by one reading. The number is answered, and what `answer` points to is filled. Line and column are 0 if the text is read to its end, and with refusal 26. */
uint32_t latchtwig_check(uint32_t format, uint32_t mode, const uint8_t *text, size_t length, struct latchtwig_answer *answer);

/* What the calls below answer. Each also fills an answer, which begins with number, place, line and column of the refusal as above, all 0 where nothing is refused. */
#define LATCHTWIG_NO_HEADER 0u /* by latchtwig_open */
#define LATCHTWIG_HEADER 1u    /* by latchtwig_open */
#define LATCHTWIG_END 0u       /* by latchtwig_next: the text is read to its end */
#define LATCHTWIG_CLAUSE 1u    /* by latchtwig_next */
#define LATCHTWIG_ACCEPTED 1u  /* by latchtwig_log: the log is read to its end */
#define LATCHTWIG_LINE 1u      /* by the three that write */
#define LATCHTWIG_REFUSED 2u   /* by all of them */

/* Where a text is read on: words that only the calls read. A cursor may be copied, and kept as long as the text is. Each copy goes on from where it was made. */
struct latchtwig_cursor {
    uint64_t words[12];
};

/* How a text opens. */
struct latchtwig_opening {
    uint64_t number;
    uint64_t place;
    uint64_t line;
    uint64_t column;
    uint64_t variables; /* this and the next two: the header's counts, 0 where there is none */
    uint64_t clauses;
    uint64_t third; /* the top weight, or the count of groups */
};

/* Opens a text, and leaves a cursor from which latchtwig_next reads its clauses; after a refusal it repeats that. A log has no clauses, and is refused by 26. */
uint32_t latchtwig_open(uint32_t format, uint32_t mode, const uint8_t *text, size_t length, struct latchtwig_cursor *cursor, struct latchtwig_opening *answer);

/* A clause, the end or a refusal. */
struct latchtwig_clause {
    uint64_t number;
    uint64_t place;
    uint64_t line;
    uint64_t column;
    uint64_t count; /* of literals: those of the clause, or those read before a refusal; at most the buffer's */
    uint64_t extra; /* the clause's weight or group; 0 for a hard clause of the 2022 form */
};

/* Reads the next clause. The buffer then holds the literals counted, and after them what it held before; the cursor is where to go on.
 *
 * The end and a refusal are final. Asked again, the call answers the same with no literals, and changes nothing in the buffer.
 *
 * A literal for which the buffer has no room is refusal 16. To go on, call again with a larger buffer and a copy of the cursor that was made before. Every literal but the last takes two bytes of the text at
 * least, so a buffer of length / 2 + 1 literals is never full.
 *
 * The text must be the one that was opened, the whole of it, wherever it stands. Another text, and any words in the cursor, are safe: the call keeps to what is said of every call, and counts no more literals
 * than the buffer has. But it reads from the cursor's place on whatever stands there, and a refusal's place may then be past the text's end. Words of no format, zeros among them, are refused by 26. */
uint32_t latchtwig_next(const uint8_t *text, size_t length, struct latchtwig_cursor *cursor, int32_t *literals, size_t room, struct latchtwig_clause *answer);

/* Verdicts of a log. */
#define LATCHTWIG_VERDICT_NONE 0u /* no line says */
#define LATCHTWIG_VERDICT_YES 1u
#define LATCHTWIG_VERDICT_NO 2u
#define LATCHTWIG_VERDICT_UNKNOWN 3u /* the solver says that it gave up */

/* What a log says, or its refusal. */
struct latchtwig_solution {
    uint64_t number;
    uint64_t place;
    uint64_t line;
    uint64_t column;
    uint64_t count;   /* of the log's literals, or of those read before a refusal; at most the buffer's */
    uint64_t verdict; /* 0 with a refusal */
};

/* Reads a whole log. The buffer then holds the literals counted, and after them what it held before. Its room is for all of them; one of length / 2 + 1 literals is never full. */
uint32_t latchtwig_log(uint32_t mode, const uint8_t *text, size_t length, int32_t *literals, size_t room, struct latchtwig_solution *answer);

/* How many bytes the word has at the place of a refusal, in the mode of the reading: at most 60, all of the text. 0 at a line end, from the text's end on, and where no mode has the number. */
uint64_t latchtwig_word(uint32_t mode, const uint8_t *text, size_t length, uint64_t place);

/* What was written. */
struct latchtwig_line {
    uint64_t number;
    uint64_t place; /* with 27 the index of the literal at fault, else 0 */
    uint64_t line;  /* this and the next are 0: no text is at fault */
    uint64_t column;
    uint64_t length; /* of the line in bytes, its line end too; 0 with a refusal */
};

/* Writes the line of a header at the front of the output. The rest of the output stays as it was, and with a refusal all of it. 60 bytes are enough for every header.
 *
 * `third` is the top weight or the count of groups. A plain header has none. The 2022 form has no header: it is refused by 26, as a log is. */
uint32_t latchtwig_write_header(uint32_t format, uint64_t variables, uint64_t clauses, uint64_t third, uint8_t *output, size_t length, struct latchtwig_line *answer);

/* Writes the line of a clause in the same way. 25 bytes and 12 for each literal are enough for every clause.
 *
 * `extra` is the weight or the group. A plain clause has none. In the 2022 form the clause is soft, and the weight 0 is refused. */
uint32_t latchtwig_write_clause(uint32_t format, uint64_t extra, const int32_t *literals, size_t count, uint8_t *output, size_t length, struct latchtwig_line *answer);

/* Writes the line of a hard clause in the same way. The 2022 form alone has them; the others are refused by 26. */
uint32_t latchtwig_write_hard_clause(uint32_t format, const int32_t *literals, size_t count, uint8_t *output, size_t length, struct latchtwig_line *answer);

#ifdef __cplusplus
}
#endif

#endif

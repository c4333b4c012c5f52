/* How much stack each call uses, at most, over framed texts from standard input (those of steps.c), and over the clauses read from them: latchtwig.h says so.
 *
 * Each call is made on a stack of its own, which is painted before. What is no longer paint was used. */
#define _DEFAULT_SOURCE
#include <inttypes.h>
#include <string.h>
#include <ucontext.h>

#include "guarded.h"
#include "latchtwig.h"

#define PAINT 0xa5
#define ROOM 4096

static uint8_t stack[1 << 16], text[1 << 16], output[25 + 12 * ROOM];
static ucontext_t here, there;
static uint32_t format, mode, told;
static size_t length, room;
static int32_t literals[ROOM];
static uint64_t word;
static struct latchtwig_cursor cursor;
static struct latchtwig_answer answer;
static struct latchtwig_opening opening;
static struct latchtwig_clause clause;
static struct latchtwig_solution solution;
static struct latchtwig_line line;

static void nothing(void) {}
static void refusal(void) { told = latchtwig_refusal(format, mode, text, length); }
static void place(void) { word = latchtwig_place(format, mode, text, length); }
static void check(void) { told = latchtwig_check(format, mode, text, length, &answer); }
static void open_text(void) { told = latchtwig_open(format, mode, text, length, &cursor, &opening); }
static void next(void) { told = latchtwig_next(text, length, &cursor, literals, room, &clause); }
static void log_text(void) { told = latchtwig_log(mode, text, length, literals, room, &solution); }
static void stopped(void) { word = latchtwig_word(mode, text, length, clause.place); }
static void header(void) { told = latchtwig_write_header(format, opening.variables, opening.clauses, opening.third, output, sizeof output, &line); }
static void soft(void) { told = latchtwig_write_clause(format, clause.extra, literals, (size_t)clause.count, output, sizeof output, &line); }
static void hard(void) { told = latchtwig_write_hard_clause(format, literals, (size_t)clause.count, output, sizeof output, &line); }

/* The calls. The first is none, and shows what is used around each. */
enum { NOTHING, REFUSAL, PLACE, CHECK, OPEN, NEXT, LOG, STOPPED, HEADER, SOFT, HARD, CALLS };
static void (*const calls[CALLS])(void) = {nothing, refusal, place, check, open_text, next, log_text, stopped, header, soft, hard};
static const char *const names[CALLS] = {"", "refusal", "place", "check", "open", "next", "log", "word", "write_header", "write_clause", "write_hard_clause"};
static size_t used[CALLS];

static void measure(int call) {
    size_t free_of = 0;
    memset(stack, PAINT, sizeof stack);
    if (getcontext(&there)) stop("no context");
    there.uc_stack.ss_sp = stack;
    there.uc_stack.ss_size = sizeof stack;
    there.uc_link = &here;
    makecontext(&there, calls[call], 0);
    if (swapcontext(&here, &there)) stop("no context");
    while (free_of < sizeof stack && stack[free_of] == PAINT) free_of++;
    if (sizeof stack - free_of > used[call]) used[call] = sizeof stack - free_of;
}

static void one(void) {
    uint32_t kind;
    for (int call = NOTHING; call <= OPEN; call++) measure(call);
    measure(LOG);
    do {
        measure(NEXT);
        kind = told;
        for (int call = STOPPED; call < CALLS; call++) measure(call);
    } while (kind == LATCHTWIG_CLAUSE);
}

/* Those that judge whole texts use about 5 KB, the others less than 1 KB. */
static int tell(void) {
    int wrong = 0;
    printf("stack:");
    for (int call = REFUSAL; call < CALLS; call++) {
        size_t bytes = used[call] - used[NOTHING];
        int whole = call <= CHECK;
        printf(" %s %zu%s", names[call], bytes, call + 1 < CALLS ? "," : " bytes\n");
        if (whole ? bytes < 4096 || bytes > 5632 : bytes >= 1024) wrong++;
    }
    if (wrong) printf("stack: %d of them otherwise than latchtwig.h says\n", wrong);
    return wrong != 0;
}

int main(void) {
    uint8_t frame[10];
    while (fread(frame, 1, sizeof frame, stdin) == sizeof frame) {
        format = frame[0];
        mode = frame[1];
        room = frame[2] | (size_t)frame[3] << 8 | (size_t)frame[4] << 16 | (size_t)frame[5] << 24;
        length = frame[6] | (size_t)frame[7] << 8 | (size_t)frame[8] << 16 | (size_t)frame[9] << 24;
        if (room > ROOM) room = ROOM;
        if (length > sizeof text || fread(text, 1, length, stdin) < length) stop("a text is too long or cut off");
        one();
    }
    return tell();
}

/* Checks an order: a strict plain text on standard input. */
#include <inttypes.h>
#include <stdio.h>

#include "latchtwig.h"

int main(void) {
    static uint8_t text[1 << 20];
    size_t length = fread(text, 1, sizeof text, stdin);
    if (ferror(stdin)) {
        perror("standard input");
        return 2;
    }
    if (length == sizeof text) {
        fputs("too long\n", stderr);
        return 2;
    }
    struct latchtwig_answer answer;
    if (latchtwig_check(LATCHTWIG_PLAIN, LATCHTWIG_STRICT, text, length, &answer) == 0) {
        puts("accepted");
        return 0;
    }
    printf("refused: %" PRIu64 " at line %" PRIu64 ", column %" PRIu64 "\n", answer.number, answer.line, answer.column);
    return 1;
}

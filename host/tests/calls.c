/* Runs framed cases from standard input through the host calls, as crates/host_cases does, and prints a line for each.
 *
 * Each text stands between two pages that cannot be read, first against the one after it and then against the one before it, so that a read outside it ends the program. */
#define _DEFAULT_SOURCE
#include <inttypes.h>
#include <stdio.h>
#include <stdlib.h>
#include <string.h>
#include <sys/mman.h>
#include <unistd.h>

#include "latchtwig.h"

static void stop(const char *why) {
    fprintf(stderr, "calls: %s\n", why);
    exit(2);
}

/* The number in four bytes, little-endian. */
static uint32_t number_of(const uint8_t *b) {
    return (uint32_t)b[0] | (uint32_t)b[1] << 8 | (uint32_t)b[2] << 16 | (uint32_t)b[3] << 24;
}

static void one(uint32_t format, uint32_t mode, size_t length) {
    size_t page = (size_t)sysconf(_SC_PAGESIZE), room = (length + page - 1) / page * page;
    uint8_t *all = mmap(NULL, room + 2 * page, PROT_NONE, MAP_PRIVATE | MAP_ANONYMOUS, -1, 0);
    if (all == MAP_FAILED || (room && mprotect(all + page, room, PROT_READ | PROT_WRITE))) stop("no memory");
    uint8_t *first = all + page, *last = first + room - length;
    if (fread(last, 1, length, stdin) < length) stop("a text is cut off");
    uint32_t number = latchtwig_refusal(format, mode, last, length);
    uint64_t place = latchtwig_place(format, mode, last, length);
    struct latchtwig_answer answer = {7, 7, 7, 7}, again = {8, 8, 8, 8};
    if (latchtwig_check(format, mode, last, length, &answer) != number) stop("latchtwig_check answers another number");
    memmove(first, last, length);
    if (latchtwig_refusal(format, mode, first, length) != number || latchtwig_place(format, mode, first, length) != place) stop("the same text came to something else");
    if (latchtwig_check(format, mode, first, length, &again) != number || memcmp(&answer, &again, sizeof answer)) stop("the same text was checked otherwise");
    munmap(all, room + 2 * page);
    printf("%" PRIu32 " %" PRIu64 " %" PRIu64 " %" PRIu64 " %" PRIu64 " %" PRIu64 "\n", number, place, answer.number, answer.place, answer.line, answer.column);
}

int main(void) {
    uint8_t frame[12];
    size_t got;
    while ((got = fread(frame, 1, sizeof frame, stdin)) == sizeof frame) one(number_of(frame), number_of(frame + 4), number_of(frame + 8));
    if (got) stop("a frame is cut off");
    return 0;
}

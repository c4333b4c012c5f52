/* Memory between two pages that cannot be touched. What stands at its back ends where the page after it begins, and what stands at its front begins where the page before it ends, so that a read or a
 * write outside it ends the program. */
#ifndef GUARDED_H
#define GUARDED_H

#include <stdint.h>
#include <stdio.h>
#include <stdlib.h>
#include <sys/mman.h>
#include <unistd.h>

struct guarded {
    uint8_t *first;
    size_t size;
};

static inline void stop(const char *why) {
    fflush(stdout);
    fprintf(stderr, "%s\n", why);
    exit(2);
}

static inline struct guarded guarded(size_t size) {
    size_t page = (size_t)sysconf(_SC_PAGESIZE);
    struct guarded area = {NULL, (size + page - 1) / page * page};
    uint8_t *all = (uint8_t *)mmap(NULL, area.size + 2 * page, PROT_NONE, MAP_PRIVATE | MAP_ANONYMOUS, -1, 0);
    if (all == MAP_FAILED || (area.size && mprotect(all + page, area.size, PROT_READ | PROT_WRITE))) stop("no memory");
    area.first = all + page;
    return area;
}

/* So many bytes at one of the two sides. */
static inline uint8_t *lent(struct guarded area, size_t size, int at_back) {
    if (size > area.size) stop("more is lent than there is");
    return at_back ? area.first + (area.size - size) : area.first;
}

#endif

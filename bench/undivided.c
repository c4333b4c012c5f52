/* A writer writes 2,000 literals of FEW to MOST digits and both signs in clauses of 100, on a processor that can neither divide nor multiply: undivided WRITER FEW MOST, with WRITER one of b (as it was), a (as it is) and
   n (none). Its status is a sum over the bytes written. It stands alone, with no C library, so that an emulator's count of instructions is the writer's and little else. */
typedef unsigned long size_t;
unsigned long before_clause(unsigned weighted, unsigned long extra, const int *lits, size_t count, unsigned char *out, size_t room);
unsigned long now_clause(unsigned weighted, unsigned long extra, const int *lits, size_t count, unsigned char *out, size_t room);

/* What compilers call where there is no divide instruction, step by step as libgcc has it for such processors. */
unsigned long __udivdi3(unsigned long left, unsigned long part) {
    unsigned long once = 1, times = 0;
    while (part < left && (long)part > 0) part <<= 1, once <<= 1;
    for (; once; part >>= 1, once >>= 1)
        if (left >= part) left -= part, times |= once;
    return times;
}

static unsigned long drawn = 88172645463325252;
static unsigned draw(void) {
    drawn ^= drawn << 13;
    drawn ^= drawn >> 7;
    drawn ^= drawn << 17;
    return (unsigned)(drawn >> 32);
}

/* A literal of so many digits: digit by digit, as nothing multiplies here. */
static int literal(unsigned digits) {
    unsigned size = 0;
    for (unsigned i = 0; i < digits; i++) {
        unsigned digit = draw() & 7;
        size = (size << 3) + (size << 1) + (i ? digit : digits == 10 ? 1 : digit + 1);
    }
    return draw() & 1 ? -(int)size : (int)size;
}

enum { LITERALS = 2000, CLAUSE = 100, EXIT = 93 };
static int lits[LITERALS];
static unsigned char out[CLAUSE * 12 + 2];

static void leave(long status) {
    register long a0 __asm__("a0") = status, a7 __asm__("a7") = EXIT;
    __asm__ volatile("ecall" : : "r"(a0), "r"(a7));
}

static unsigned number(const char *word) {
    unsigned n = 0;
    for (; *word; word++) n = (n << 3) + (n << 1) + (unsigned)(*word - '0');
    return n;
}

__attribute__((used)) void begin(long *stack) {
    char writer = *(char *)stack[2];
    unsigned few = number((char *)stack[3]), most = number((char *)stack[4]), digits = few, sum = 0;
    for (int i = 0; i < LITERALS; i++) {
        lits[i] = literal(digits);
        digits = digits == most ? few : digits + 1;
    }
    /* Each length as often, in no order. */
    for (int i = 0; i < LITERALS; i++) {
        unsigned j = draw() & 1023;
        int other = lits[j];
        lits[j] = lits[i];
        lits[i] = other;
    }
    for (int i = 0; i < LITERALS; i += CLAUSE) {
        unsigned long long_line = 0;
        if (writer == 'b') long_line = before_clause(0, 0, lits + i, CLAUSE, out, sizeof out);
        if (writer == 'a') long_line = now_clause(0, 0, lits + i, CLAUSE, out, sizeof out);
        if (writer != 'n') sum += out[long_line >> 1] + out[long_line - 4] + (unsigned)long_line;
    }
    leave(sum & 127);
}

__asm__(".globl _start\n_start: mv a0, sp\n call begin\n");

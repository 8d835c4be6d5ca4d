/* How deep the calls of the C entry go, as they touch the stack: each call is made on a stack of its own, which is
 * painted before it, and after it the lowest byte that has lost its paint is looked for. Depth is counted from where
 * the caller's stack pointer stands at the call: the return address is its first 8 bytes.
 *
 *     stack FRAMES FRAMES     (files of tools/frames.py: what the machine code of each archive can take)
 *
 * Called are msa_step, msa_run, msa_why and msa_budget, and msa_run_read of the other archive: with every word of the
 * major opcodes 011110, 010001 and 000000 in the bits that tell one instruction from another, and one of each other
 * major opcode; on registers that are drawn, all zeros and all ones; with addresses in the table, in the work window,
 * at the end of either and in neither, in both byte orders, with the switch off, in a slot, with a trap to arm; and
 * with every refusal and a spent budget.
 *
 * Prints the deepest of each call by both ways, of each kind of answer, and of ADDV and VSHF in each format. Ends with
 * status 1 where the two ways differ for a call, where VSHF goes deeper than ADDV in a step or a run, or where a call
 * takes 512 bytes, or msa_run_read, which is not for units with little stack, 768.
 */
#include <inttypes.h>
#include <stdio.h>
#include <stdlib.h>
#include <string.h>
#include "../include/msa.h"

enum { PAINTED = 8192, ARGUMENTS = 18, BAR = 512, READ_BAR = 768, WINDOW = 64 };

/* Calls a function on the stack that ends at top: there the arguments from the seventh on, below them what the call
 * itself takes. Answers rax. */
uint64_t call_on(void *top, void *function, const uint64_t arguments[ARGUMENTS]);
__asm__(".text\n.globl call_on\n.type call_on, @function\ncall_on:\n"
        "\tpush %rbp\n\tpush %rbx\n\tmov %rsp, %rbx\n\tmov %rdi, %rsp\n\tmov %rsi, %rax\n\tmov %rdx, %r10\n"
        "\tmov $17, %ecx\n1:\tpush (%r10,%rcx,8)\n\tdec %ecx\n\tcmp $5, %ecx\n\tjne 1b\n"
        "\tmov (%r10), %rdi\n\tmov 8(%r10), %rsi\n\tmov 16(%r10), %rdx\n\tmov 24(%r10), %rcx\n"
        "\tmov 32(%r10), %r8\n\tmov 40(%r10), %r9\n\tcall *%rax\n"
        "\tmov %rbx, %rsp\n\tpop %rbx\n\tpop %rbp\n\tret\n"
        ".section .note.GNU-stack,\"\",@progbits\n.text\n");

static _Alignas(64) uint8_t stack[PAINTED + 8 * (ARGUMENTS - 6)];
static const uint8_t paint = 0xA6;

/* how many bytes below the caller's stack pointer a call touches; *answer is rax */
static unsigned depth(void *function, const uint64_t arguments[ARGUMENTS], uint64_t *answer) {
    static unsigned last = PAINTED;
    memset(stack + PAINTED - last, paint, last);
    *answer = call_on(stack + sizeof stack, function, arguments);
    unsigned from = 0;
    uint64_t eight;
    while (memcpy(&eight, stack + from, 8), eight == UINT64_C(0x0101010101010101) * paint) from += 8;
    while (stack[from] == paint) from++;
    return last = PAINTED - from;
}

enum { STEP, RUN, WHY, BUDGET, READ, CALLS };
static const char *const names[CALLS] = {"msa_step", "msa_run", "msa_why", "msa_budget", "msa_run_read"};

/* the deepest of each call: by the code, as touched, with which word; and of each answer of a step or a run */
static unsigned code[CALLS], touched[CALLS], kinds[MSA_SPENT + 1];
static unsigned shuffle[RUN + 1]; /* of VSHF, by the code */
static uint32_t words[CALLS];
static unsigned long calls;

static struct {
    uint8_t vectors[MSA_VECTORS_BYTES], generals[MSA_GENERALS_BYTES], work[WINDOW], control[MSA_CONTROL_BYTES];
} lent, before;
static uint8_t table[WINDOW], program[8];
static uint64_t list[2];

enum { PROGRAM = 0x1000, TABLE = 0x2000, WORK = 0x3000 };

static void put(uint8_t *at, unsigned bytes, uint64_t x) {
    for (unsigned i = 0; i < bytes; i++) at[i] = (uint8_t)(x >> 8 * i);
}

static uint64_t address(const void *p) { return (uint64_t)(uintptr_t)p; }

/* the arguments of a step; a run has its budget behind them, and a run from a list the list before that */
struct set_up {
    uint64_t a[ARGUMENTS];
};
enum { PROGRAM_BYTES = 1, PROGRAM_BASE = 2, TABLE_BYTES = 4, TABLE_BASE = 5, VECTORS_BYTES = 7, GENERALS_BYTES = 9,
       WORK_BYTES = 11, WORK_BASE = 12, CONTROL_BYTES = 14, BUDGET_AT = 15, LIST_AT = 15 };
static uint64_t entries = 2; /* of the list that is lent */

static const struct set_up *usual(void) {
    static struct set_up s;
    s = (struct set_up){{address(program), 4, PROGRAM, address(table), WINDOW, TABLE, address(lent.vectors),
                         MSA_VECTORS_BYTES, address(lent.generals), MSA_GENERALS_BYTES, address(lent.work), WINDOW,
                         WORK, address(lent.control), MSA_CONTROL_BYTES, 2}};
    return &s;
}

/* one call; what it may change is laid anew after it */
static unsigned one(unsigned call, const struct set_up *s, uint32_t word) {
    void *const functions[CALLS] = {(void *)(uintptr_t)msa_step, (void *)(uintptr_t)msa_run, (void *)(uintptr_t)msa_why,
                                    (void *)(uintptr_t)msa_budget, (void *)(uintptr_t)msa_run_read};
    struct set_up with = *s;
    uint64_t answer;
    if (call == READ) {
        with.a[LIST_AT] = address(list);
        with.a[LIST_AT + 1] = entries;
        with.a[LIST_AT + 2] = s->a[BUDGET_AT];
    }
    unsigned d = depth(functions[call], with.a, &answer);
    calls++;
    if (d > touched[call]) {
        touched[call] = d;
        words[call] = word;
    }
    if (call == STEP || call == RUN) {
        uint32_t reason = (uint32_t)answer;
        if (reason <= MSA_SPENT && d > kinds[reason]) kinds[reason] = d;
    }
    if (call == STEP || call == RUN || call == READ) lent = before;
    return d;
}

/* a step, a run in each engine and the call why, on the machine that stands in before */
static void all(const struct set_up *s, uint32_t word) {
    one(STEP, s, word);
    one(WHY, s, word);
    one(RUN, s, word);
    one(READ, s, word);
}

static void laid(void) { lent = before; }

static uint64_t drawn(void) {
    static uint64_t x = 88172645463325252u;
    x ^= x << 13, x ^= x >> 7, x ^= x << 17;
    return x;
}

/* Registers: drawn, all zeros, all ones. Every general register but 0 has the same number, so that any base is it. */
static void fill(unsigned pattern, uint64_t general) {
    for (unsigned i = 0; i < sizeof before.vectors; i++)
        before.vectors[i] = pattern == 0 ? (uint8_t)drawn() : pattern == 1 ? 0 : 0xFF;
    memset(before.generals, 0, sizeof before.generals);
    for (unsigned r = 1; r < 32; r++) put(before.generals + 8 * r, 8, general);
    memset(before.control, 0, sizeof before.control);
    put(before.control + MSA_CONTROL_PC, 8, PROGRAM);
    before.control[MSA_CONTROL_SWITCH] = MSA_SWITCH_ON;
    laid();
}

/* every word that differs in what is done, with this machine */
static void every_word(void) {
    static const uint32_t majors[3] = {0x78000000, 0x44000000, 0};
    for (unsigned m = 0; m < 3; m++)
        for (uint32_t top = 0; top < 1024; top++)
            for (uint32_t minor = 0; minor < 64; minor++) {
                uint32_t word = majors[m] | top << 16 | (uint32_t)drawn() % 1024 << 6 | minor;
                if (m == 2) word &= ~UINT32_C(0x700) | ((uint32_t)drawn() & 0x700);
                put(program, 4, word);
                all(usual(), word);
            }
    for (uint32_t major = 0; major < 64; major++) {
        put(program, 4, major << 26);
        all(usual(), major << 26);
    }
    put(program, 4, 0x783E0859); /* CTCMSA to MSACSR */
    all(usual(), 0x783E0859);
}

/* addresses everywhere; numbers that arm a trap; registers of each pattern; in both orders; with the switch off; in a
 * slot */
static void every_machine(void) {
    static const uint64_t generals[] = {TABLE + 24, TABLE + WINDOW - 4, WORK + WINDOW - 4, 0x9000, UINT64_MAX - 3,
                                        0x20000, 0x1FF80};
    for (unsigned g = 0; g < sizeof generals / sizeof *generals; g++) {
        fill(0, generals[g]);
        every_word();
    }
    for (unsigned pattern = 0; pattern < 3; pattern++) {
        fill(pattern, WORK + 24);
        every_word();
    }
    for (unsigned k = 0; k < 4; k++) {
        fill(0, WORK + 24);
        if (k == 0) before.control[MSA_CONTROL_ORDER] = MSA_ORDER_BIG;
        if (k == 1) before.control[MSA_CONTROL_SWITCH] = MSA_SWITCH_OFF;
        if (k == 2) before.control[MSA_CONTROL_MARK] = MSA_MARK_NOT_TAKEN;
        if (k == 3) before.control[MSA_CONTROL_MARK] = MSA_MARK_TAKEN;
        laid();
        every_word();
    }
}

/* 1 to 5 in each of their ways, 11, 20, 51, and what msa_budget does with each program */
static void every_refusal(void) {
    static const struct { unsigned at; uint64_t with; } refused[] = {
        {VECTORS_BYTES, 511}, {GENERALS_BYTES, 255}, {PROGRAM_BYTES, 3}, {PROGRAM_BASE, 2},
        {PROGRAM_BYTES, 262148}, {PROGRAM_BASE, UINT64_MAX - 3}, {TABLE_BYTES, 1048577}, {WORK_BYTES, 1048577},
        {TABLE_BASE, UINT64_MAX}, {WORK_BASE, UINT64_MAX}, {WORK_BASE, TABLE}, {CONTROL_BYTES, 23}, {BUDGET_AT, 0},
        {PROGRAM_BYTES, 0}, {TABLE_BYTES, 0}, {WORK_BYTES, 0}};
    static const struct { unsigned at; uint8_t with; } blocks[] = {
        {MSA_CONTROL_PC, 1}, {MSA_CONTROL_PC, 8}, {MSA_CONTROL_MSACSR + 3, 2}, {MSA_CONTROL_MARK, 3},
        {MSA_CONTROL_SWITCH, 2}, {MSA_CONTROL_ORDER, 2}};
    put(program, 4, 0x7800000E);
    entries = 0;
    one(READ, usual(), 0);
    entries = 2;
    for (unsigned i = 0; i < sizeof refused / sizeof *refused; i++) {
        struct set_up s = *usual();
        s.a[refused[i].at] = refused[i].with;
        /* a longer program than there is: a run is refused before it looks, and so is the budget's call */
        all(&s, 0);
        struct set_up b = {{address(program), s.a[PROGRAM_BYTES], s.a[PROGRAM_BASE], PROGRAM}};
        one(BUDGET, &b, 0);
    }
    for (unsigned i = 0; i < sizeof blocks / sizeof *blocks; i++) {
        fill(0, WORK);
        before.control[blocks[i].at] = blocks[i].with;
        laid();
        all(usual(), 0);
    }
    fill(0, WORK);
    before.generals[0] = 1;
    laid();
    all(usual(), 0);
    fill(0, WORK);
    before.control[MSA_CONTROL_TARGET] = 1;
    before.control[MSA_CONTROL_MARK] = MSA_MARK_TAKEN;
    laid();
    all(usual(), 0);
    fill(0, WORK);
    for (uint64_t counter = PROGRAM - 4; counter <= PROGRAM + 8; counter += 2)
        for (uint32_t offset = 0; offset < 2; offset++) {
            put(program, 4, 0x7800000E);
            put(program + 4, 4, 0x47800000 | offset);
            struct set_up b = {{address(program), 8, PROGRAM, counter}};
            one(BUDGET, &b, 0x47800000 | offset);
        }
}

/* the deepest of a call with an operation of 3R in a format, on registers of each pattern */
static unsigned of(unsigned call, uint32_t operation, unsigned format) {
    unsigned most = 0;
    for (unsigned i = 0; i < 3 * 64; i++) {
        fill(i % 3, WORK);
        uint32_t word = operation | format << 21 | ((uint32_t)drawn() & 0x1FFFC0);
        put(program, 4, word);
        unsigned d = one(call, usual(), word);
        if (d > most) most = d;
    }
    return most;
}

/* The figures of the machine code: the deepest of each call; and of VSHF, which calls nothing unless the shuffle is a
 * function of its own: the frames of the call and of the machine's function, entry::msa_run, and that function's. */
static int figures(const char *path, unsigned from, unsigned to) {
    FILE *f = fopen(path, "r");
    char line[1024], name[64];
    unsigned bytes, own, found = 0;
    if (!f) return 0;
    while (fgets(line, sizeof line, f)) {
        if (sscanf(line, "%u %u %63s", &bytes, &own, name) != 3) continue;
        for (unsigned c = from; c < to; c++)
            if (strcmp(name, names[c]) == 0) {
                code[c] = bytes;
                if (c <= RUN) shuffle[c] += own;
                found++;
            }
        for (unsigned c = from; c <= RUN; c++) {
            if (strcmp(name, "entry::msa_run") == 0) shuffle[c] += own;
            if (strstr(name, "::shuffle::")) shuffle[c] += bytes;
        }
    }
    fclose(f);
    return found == to - from;
}

int main(int count, char **arguments) {
    static const uint32_t addv = 0x7800000E, vshf = 0x78000015;
    int wrong = 0;
    if (count != 3 || !figures(arguments[1], STEP, READ) || !figures(arguments[2], READ, CALLS)) {
        fprintf(stderr, "stack FRAMES FRAMES: files that tools/frames.py has written, with a line for each call\n");
        return 2;
    }
    fill(0, WORK);
    every_refusal();
    every_machine();
    printf("bytes below the caller's frame, by the machine code and as touched in %lu calls\n", calls);
    for (unsigned c = 0; c < CALLS; c++) {
        unsigned bar = c == READ ? READ_BAR : BAR;
        printf("%-12s %5u %5u", names[c], code[c], touched[c]);
        if (c != BUDGET) printf("   word %08" PRIX32, words[c]);
        if (code[c] != touched[c]) printf("   they differ"), wrong = 1;
        if (code[c] >= bar) printf("   over the bar of %u", bar), wrong = 1;
        printf("\n");
    }
    printf("by what a step or a run answers, as touched\n");
    for (unsigned n = 0; n <= MSA_SPENT; n++)
        if (kinds[n]) printf("%10u %5u\n", n, kinds[n]);
    for (unsigned call = STEP; call <= RUN; call++) {
        printf("%s: format, ADDV and VSHF as touched; VSHF at most %u by the machine code\n", names[call],
               shuffle[call]);
        for (unsigned format = 0; format < 4; format++) {
            unsigned a = of(call, addv, format), v = of(call, vshf, format);
            int deeper = v > a || v > shuffle[call];
            printf("%10c %5u %5u%s\n", "BHWD"[format], a, v, deeper ? "   VSHF goes deeper" : "");
            wrong |= deeper;
        }
    }
    return wrong;
}

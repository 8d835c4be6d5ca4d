/* Replays the shared cases of steps and runs (vectors/FORMAT.md) through the C entry
 * and compares the reason, the count, the missing address and every lent byte; then the
 * control block's own limits, loads and stores in both byte orders, the fixed-point multiplies,
 * every way to arm a trap, the budget of programs that branch forward, and drawn programs in both engines.
 * Usage: replay FILE.. ; ends with status 1 where anything differs.
 *
 * Each case is run in several ways: as it stands; with a target that a mark other than 2
 * must leave unread; a step also as a run of budget 1; a run also step by step; and in the second engine
 * (msa_run_read), from a list as long as the program, from a longer one, and from one too short, which is refused.
 *
 * Before each step case, and on the bytes that each run has left, msa_why is called too: its number, kind, word and
 * fact are compared, and that no lent byte is changed. It is called again on read-only pages, once with a page
 * that nothing may touch behind every slice and once with one before it: there a wrong access ends the program.
 *
 * A case is lent in the byte order that its rules name. Cases of a rule that the archive does not have are left out and
 * counted: those without the rule of the fixed-point multiplies that have a word of one. Division by zero is that of
 * the boards: of cases with the other rule some differ.
 */
#define _DEFAULT_SOURCE /* MAP_ANONYMOUS */
#include <inttypes.h>
#include <stdio.h>
#include <stdlib.h>
#include <string.h>
#include <sys/mman.h>
#include "../include/msa.h"

enum { GUARD = 32 };

struct bytes {
    uint8_t *at;
    size_t n;
};

/* n bytes with a guard behind them, which nothing may write */
static struct bytes lend(size_t n) {
    struct bytes b = {malloc(n + GUARD), n};
    if (!b.at) exit(2);
    memset(b.at + n, 0xA5, GUARD);
    return b;
}

static struct bytes copy(struct bytes b) {
    struct bytes c = lend(b.n);
    memcpy(c.at, b.at, b.n);
    return c;
}

static int same(struct bytes a, struct bytes b) {
    for (int i = 0; i < GUARD; i++)
        if (a.at[a.n + i] != 0xA5) return 0;
    return a.n == b.n && memcmp(a.at, b.at, a.n) == 0;
}

static struct bytes hex(const char *s) {
    unsigned long times = 1;
    if (*s == '-') return lend(0);
    if (*s == 'x') {
        char *colon;
        times = strtoul(s + 1, &colon, 10);
        s = colon + 1;
    }
    size_t n = strspn(s, "0123456789abcdefABCDEF") / 2;
    struct bytes b = lend(n * times);
    for (size_t i = 0; i < n; i++) {
        char two[3] = {s[2 * i], s[2 * i + 1], 0};
        b.at[i] = (uint8_t)strtoul(two, NULL, 16);
    }
    for (size_t i = n; i < n * times; i++) b.at[i] = b.at[i - n];
    return b;
}

static void put(uint8_t *at, unsigned n, uint64_t x) {
    for (unsigned i = 0; i < n; i++) at[i] = (uint8_t)(x >> 8 * i);
}

static uint64_t get(const uint8_t *at, unsigned n) {
    uint64_t x = 0;
    while (n-- > 0) x = x << 8 | at[n];
    return x;
}

static struct bytes block(uint64_t pc, uint64_t target, uint32_t msacsr, unsigned mark, unsigned on, unsigned order) {
    struct bytes b = lend(MSA_CONTROL_BYTES);
    put(b.at + MSA_CONTROL_PC, 8, pc);
    put(b.at + MSA_CONTROL_TARGET, 8, target);
    put(b.at + MSA_CONTROL_MSACSR, 4, msacsr);
    put(b.at + MSA_CONTROL_MARK, 2, mark);
    put(b.at + MSA_CONTROL_SWITCH, 1, on);
    put(b.at + MSA_CONTROL_ORDER, 1, order);
    return b;
}

static struct bytes block_of(const char *s, unsigned order) {
    uint64_t pc, target;
    unsigned mark, on;
    uint32_t msacsr;
    if (sscanf(s, "%" SCNx64 " %u %" SCNx64 " %" SCNx32 " %u", &pc, &mark, &target, &msacsr, &on) != 5) exit(2);
    return block(pc, target, msacsr, mark, on, order);
}

/* what is lent, and what must come back */
struct lent {
    struct bytes vectors, generals, work, control;
};

struct test {
    char name[64];
    int run;
    struct bytes program, table;
    uint64_t program_base, table_base, work_base;
    uint32_t budget;
    struct msa_ended answer; /* of a step the count is 0 */
    int told; /* there are a word and a fact */
    uint32_t word;
    uint64_t fact;
    unsigned fixed, big; /* rules: of the fixed-point multiplies, of the big-endian board (the order's number) */
    int unfenced; /* msa_why is called on copies alone, where there are many cases */
    struct lent before, after;
};

static struct msa_ended step(const struct test *t, struct lent *l) {
    struct msa_stepped s = msa_step(t->program.at, t->program.n, t->program_base, t->table.at, t->table.n,
                                    t->table_base, l->vectors.at, l->vectors.n, l->generals.at, l->generals.n,
                                    l->work.at, l->work.n, t->work_base, l->control.at, l->control.n);
    return (struct msa_ended){s.reason > UINT32_MAX ? UINT32_MAX : (uint32_t)s.reason, 0, s.missing};
}

static struct msa_ended run(const struct test *t, struct lent *l, uint32_t budget) {
    return msa_run(t->program.at, t->program.n, t->program_base, t->table.at, t->table.n, t->table_base,
                   l->vectors.at, l->vectors.n, l->generals.at, l->generals.n, l->work.at, l->work.n, t->work_base,
                   l->control.at, l->control.n, budget);
}

/* msa_run_read with a list of this many entries, and of three more that it is not told of; what they hold before the
 * call is told by `stale`. Whether an entry is changed that may not be is told by `kept`; the list comes back in
 * `filled`, which has room for the program. */
static struct msa_ended run_read(const struct test *t, struct lent *l, uint32_t budget, size_t entries, uint64_t stale,
                                 uint64_t *filled, int *kept) {
    size_t words = t->program.n / 4;
    uint64_t *list = malloc((entries + 3) * sizeof *list);
    if (!list) exit(2);
    for (size_t i = 0; i < entries + 3; i++) list[i] = stale + i;
    struct msa_ended got = msa_run_read(t->program.at, t->program.n, t->program_base, t->table.at, t->table.n,
                                        t->table_base, l->vectors.at, l->vectors.n, l->generals.at, l->generals.n,
                                        l->work.at, l->work.n, t->work_base, l->control.at, l->control.n, list,
                                        entries, budget);
    int refused = (got.reason >= MSA_REFUSED_REGISTERS && got.reason <= MSA_REFUSED_STATE)
                  || got.reason == MSA_REFUSED_LIST;
    *kept = 1;
    for (size_t i = refused ? 0 : words; i < entries + 3; i++) *kept &= list[i] == stale + i;
    if (!refused) memcpy(filled, list, words * sizeof *list);
    free(list);
    return got;
}

/* the run's answer by steps alone */
static struct msa_ended steps(const struct test *t, struct lent *l) {
    for (uint32_t count = 0; count < t->budget; count++) {
        struct msa_ended s = step(t, l);
        if (s.reason) return (struct msa_ended){s.reason, count, s.missing};
    }
    return (struct msa_ended){MSA_SPENT, t->budget, 0};
}

static unsigned differences;

static struct lent copies(const struct lent *l) {
    return (struct lent){copy(l->vectors), copy(l->generals), copy(l->work), copy(l->control)};
}

static void give_back(const struct lent *l) {
    free(l->vectors.at);
    free(l->generals.at);
    free(l->work.at);
    free(l->control.at);
}

/* the word at the program counter, or 0 */
static uint32_t word_at(const struct test *t, struct bytes control) {
    if (control.n < MSA_CONTROL_PC + 8) return 0;
    uint64_t at = get(control.at + MSA_CONTROL_PC, 8) - t->program_base;
    return at < t->program.n && t->program.n - at >= 4 ? (uint32_t)get(t->program.at + at, 4) : 0;
}

/* what msa_why must say of the lent bytes, where a step on them answers this number and this missing address */
static struct msa_why expected(const struct test *t, const struct lent *l, uint32_t number, uint64_t missing) {
    struct msa_why y = {(uint16_t)number, MSA_KIND_NOTHING, 0, 0};
    if (number < MSA_NO_WORD) return y;
    if (number > MSA_NO_WORD) y.word = word_at(t, l->control);
    uint64_t general = get(l->generals.at + 8 * (y.word >> 11 & 31), 8); /* of a store and of CTCMSA */
    switch (number) {
    case MSA_NO_WORD:
        y.kind = MSA_KIND_COUNTER;
        y.fact = get(l->control.at + MSA_CONTROL_PC, 8);
        break;
    case MSA_UNASSIGNED:
    case MSA_LEFT_OUT:
    case MSA_OTHER_WORD:
    case MSA_BRANCH_IN_SLOT:
        y.kind = MSA_KIND_WORD;
        y.fact = y.word;
        break;
    case MSA_SWITCHED_OFF: y.kind = MSA_KIND_SWITCH; break;
    case MSA_NO_WINDOW:
        y.kind = MSA_KIND_ADDRESS;
        y.fact = missing;
        break;
    case MSA_READ_ONLY: /* the register, and ten bits with a sign, times the bytes of an element */
        y.kind = MSA_KIND_ADDRESS;
        y.fact = general + (((uint64_t)(y.word >> 16 & 1023) ^ 512) - 512) * (UINT64_C(1) << (y.word & 3));
        break;
    case MSA_TRAP:
        y.kind = MSA_KIND_TRAP;
        y.fact = general & 0x20000 ? 0x20000 : general & general << 5 & 0x1F000;
        break;
    }
    return y;
}

enum { SLICES = 6, EDGE = 1 << 16, ROOM = 1 << 21 }; /* whole pages, of any size in use */

/* The slice at the end or at the beginning of pages for reading only, which lie between two edges that nothing may
 * touch. Each of the slices has its own pages, from case to case. */
static struct bytes fenced(int slice, struct bytes b, int at_end) {
    static uint8_t *rooms[SLICES];
    if (!rooms[slice]) {
        uint8_t *pages = mmap(NULL, ROOM + 2 * EDGE, PROT_NONE, MAP_PRIVATE | MAP_ANONYMOUS, -1, 0);
        if (pages == MAP_FAILED) exit(2);
        rooms[slice] = pages + EDGE;
    }
    if (b.n > ROOM || mprotect(rooms[slice], ROOM, PROT_READ | PROT_WRITE)) exit(2);
    struct bytes c = {rooms[slice] + (at_end ? ROOM - b.n : 0), b.n};
    memcpy(c.at, b.at, b.n);
    if (mprotect(rooms[slice], ROOM, PROT_READ)) exit(2);
    return c;
}

static unsigned long fenced_calls;

/* msa_why in one place: 'c' on copies, 'e' at the end of fenced pages, 'b' at their beginning */
static int explains(const struct test *t, const struct lent *l, char how, char place, struct msa_why want) {
    struct bytes from[SLICES] = {t->program, t->table, l->vectors, l->generals, l->work, l->control}, b[SLICES];
    for (int i = 0; i < SLICES; i++) b[i] = place == 'c' ? copy(from[i]) : fenced(i, from[i], place == 'e');
    struct msa_why got = msa_why(b[0].at, b[0].n, t->program_base, b[1].at, b[1].n, t->table_base, b[2].at, b[2].n,
                                 b[3].at, b[3].n, b[4].at, b[4].n, t->work_base, b[5].at, b[5].n);
    const char *part = got.number != want.number ? "number"
                       : got.kind != want.kind ? "kind"
                       : got.word != want.word ? "word"
                       : got.fact != want.fact ? "fact" : NULL;
    if (place != 'c') fenced_calls++;
    else for (int i = 0; i < SLICES; i++) {
        if (!same(b[i], from[i])) part = "a lent byte";
        free(b[i].at);
    }
    if (part) {
        differences++;
        printf("%s (%c, why, %c): %s; answer %u %u %08" PRIX32 " %" PRIX64, t->name, how, place, part, got.number,
               got.kind, got.word, got.fact);
        printf(", expected %u %u %08" PRIX32 " %" PRIX64 "\n", want.number, want.kind, want.word, want.fact);
    }
    return part == NULL;
}

/* msa_why before a step, or on what a run left, whose answer is this one; after a spent budget it is held to a step */
static int explained(const struct test *t, const struct lent *l, char how, struct msa_ended answer) {
    if (answer.reason == MSA_SPENT) {
        struct lent next = copies(l);
        answer = step(t, &next);
        give_back(&next);
    }
    struct msa_why want = expected(t, l, answer.reason, answer.missing);
    if (how == 's' && t->told) {
        want.word = t->word;
        want.fact = t->fact;
    }
    int fine = explains(t, l, how, 'c', want);
    if (!t->unfenced) fine &= explains(t, l, how, 'e', want) & explains(t, l, how, 'b', want);
    return fine;
}

/* one way of a case: how is 's' step, 'r' run, '1' the step as a run of 1, 'n' the run by steps; 'l' and 'L' the run
 * from a list as long as the program and from a longer one, with other entries before it, 'k' from one too short */
static int agrees(const struct test *t, char how, struct bytes control, struct bytes control_after) {
    struct lent l = {copy(t->before.vectors), copy(t->before.generals), copy(t->before.work), copy(control)};
    struct msa_ended want = t->answer, got;
    int fine = 1;
    switch (how) {
    case 's':
        fine = explained(t, &l, how, want);
        got = step(t, &l);
        break;
    case 'r': got = run(t, &l, t->budget); break;
    case 'l':
    case 'L':
    case 'k': {
        static uint64_t first[MSA_PROGRAM_WORDS], second[MSA_PROGRAM_WORDS];
        size_t words = t->program.n / 4, entries = how == 'l' ? words : how == 'L' ? words + 5 : words - 1;
        uint32_t budget = t->run ? t->budget : 1;
        int kept, again;
        got = run_read(t, &l, budget, entries, how == 'l' ? 0 : 0xFEDCBA9876543210, first, &kept);
        fine &= kept;
        if (how == 'L' && got.reason >= MSA_NO_WORD) {
            struct lent other = copies(&t->before);
            free(other.control.at);
            other.control = copy(control);
            run_read(t, &other, budget, words, 0, second, &again);
            give_back(&other);
            fine &= again && memcmp(first, second, words * sizeof *first) == 0;
        }
        if (!t->run && want.reason == MSA_FINISHED) want = (struct msa_ended){MSA_SPENT, 1, 0};
        break;
    }
    case '1':
        got = run(t, &l, 1);
        if (want.reason == MSA_FINISHED) want = (struct msa_ended){MSA_SPENT, 1, 0};
        break;
    default: got = steps(t, &l);
    }
    if (how != 's' && !strchr("lLk", how)) fine = explained(t, &l, how, want);
    const struct lent *after = &t->after;
    if (how == 'k' && want.reason > MSA_REFUSED_STATE) {
        want = (struct msa_ended){MSA_REFUSED_LIST, 0, 0};
        after = &t->before;
        control_after = control;
    }
    const char *part = got.reason != want.reason ? "reason"
                       : got.count != want.count ? "count"
                       : got.missing != want.missing ? "missing address"
                       : !same(l.vectors, after->vectors) ? "vectors"
                       : !same(l.generals, after->generals) ? "generals"
                       : !same(l.work, after->work) ? "work"
                       : !same(l.control, control_after) ? "control"
                       : !fine ? "list" : NULL;
    if (part) {
        differences++;
        printf("%s (%c): %s; answer %" PRIu32 " %" PRIu32 " %" PRIX64, t->name, how, part, got.reason, got.count,
               got.missing);
        printf(", expected %" PRIu32 " %" PRIu32 " %" PRIX64 "\n", want.reason, want.count, want.missing);
    }
    give_back(&l);
    return fine && part == NULL;
}

/* Table 4.7, the six fixed-point multiplies: the opcodes, and the operations in bits 25 to 22; ROUNDED is added */
enum { FIXED_POINT = 0x7800001C, MUL_Q = 4, MADD_Q = 5, MSUB_Q = 6, ROUNDED = 8 };

static int is_fixed_point(uint32_t word) {
    uint32_t operation = word >> 22 & 7;
    return (word & 0xFC00003F) == FIXED_POINT && operation >= MUL_Q && operation <= MSUB_Q;
}

/* whether a case without the rule of the fixed-point multiplies has a word of one: a step at its counter, a run any */
static int is_outdated(const struct test *t) {
    if (t->fixed) return 0;
    if (!t->run) return is_fixed_point(word_at(t, t->before.control));
    for (size_t i = 0; i + 4 <= t->program.n; i += 4)
        if (is_fixed_point((uint32_t)get(t->program.at + i, 4))) return 1;
    return 0;
}

static int check(const struct test *t) {
    int fine = agrees(t, t->run ? 'r' : 's', t->before.control, t->after.control);
    if (!t->run) fine &= agrees(t, '1', t->before.control, t->after.control);
    else if (t->budget != 0 && t->answer.count < 100000) fine &= agrees(t, 'n', t->before.control, t->after.control);
    if (t->program.n / 4 <= MSA_PROGRAM_WORDS) {
        fine &= agrees(t, 'l', t->before.control, t->after.control);
        fine &= agrees(t, 'L', t->before.control, t->after.control);
        if (t->program.n >= 4) fine &= agrees(t, 'k', t->before.control, t->after.control);
    }
    if (t->before.control.at[MSA_CONTROL_MARK] != MSA_MARK_TAKEN) {
        /* a target that is no multiple of 4 stays unread; it is kept where nothing was finished, else 0 is written */
        int finished = t->run ? t->answer.count != 0 : t->answer.reason == MSA_FINISHED;
        struct bytes odd = copy(t->before.control), odd_after;
        put(odd.at + MSA_CONTROL_TARGET, 8, 0xFEDCBA9876543211);
        odd_after = copy(finished ? t->after.control : odd);
        fine &= agrees(t, t->run ? 'r' : 's', odd, odd_after);
        free(odd.at);
        free(odd_after.at);
    }
    return fine;
}

static void replay(const char *name) {
    static char line[1 << 23];
    struct test t;
    unsigned cases = 0, agree = 0, out = 0;
    FILE *f = fopen(name, "r");
    if (!f) {
        printf("%s: cannot be read\n", name);
        differences++;
        return;
    }
    memset(&t, 0, sizeof t);
    while (fgets(line, sizeof line, f)) {
        char *s = line + 2;
        line[strcspn(line, "\r\n")] = 0;
        if (!strncmp(line, "case ", 5)) {
            char kind[8];
            memset(&t, 0, sizeof t);
            sscanf(line, "case %63s %7s", t.name, kind);
            t.run = !strcmp(kind, "run");
        } else if (!strcmp(line, "end")) {
            if (is_outdated(&t)) {
                out++;
                continue;
            }
            cases++;
            agree += (unsigned)check(&t);
        } else if (line[0] == '#' || line[1] != ' ') {
            continue;
        } else switch (line[0]) {
        case 'r':
            if (sscanf(s, "%*u %u %u", &t.fixed, &t.big) != 2) exit(2);
            break;
        case 'v': t.before.vectors = hex(s); break;
        case 'g': t.before.generals = hex(s); break;
        case 'p': t.program_base = strtoull(s, &s, 16); t.program = hex(s + 1); break;
        case 't': t.table_base = strtoull(s, &s, 16); t.table = hex(s + 1); break;
        case 'w': t.work_base = strtoull(s, &s, 16); t.before.work = hex(s + 1); break;
        case 'c': t.before.control = block_of(s, t.big); break;
        case 'b': t.budget = (uint32_t)strtoul(s, NULL, 10); break;
        case '=':
            t.answer.reason = (uint32_t)strtoul(s, &s, 10);
            t.answer.count = (uint32_t)strtoul(s, NULL, 10);
            break;
        case 'a': t.answer.missing = strtoull(s, NULL, 16); break;
        case 'x':
            t.told = 1;
            t.word = (uint32_t)strtoul(s, &s, 16);
            t.fact = strtoull(s, NULL, 16);
            break;
        case 'V': t.after.vectors = *s == '=' ? t.before.vectors : hex(s); break;
        case 'G': t.after.generals = *s == '=' ? t.before.generals : hex(s); break;
        case 'W': t.after.work = *s == '=' ? t.before.work : hex(s); break;
        case 'C': t.after.control = block_of(s, t.big); break;
        }
    }
    fclose(f);
    const char *base = strrchr(name, '/');
    printf("%s: %u of %u cases agree, %u left out\n", base ? base + 1 : name, agree, cases, out);
}

/* a set-up that is good but for its control block: a one-word program, ADDV.W $w5,$w1,$w2, and its sum after it */
static struct test adding(void) {
    static uint8_t program[4] = {0x4E, 0x09, 0x42, 0x78};
    struct test t = {.name = "block", .program = {program, 4}, .table = lend(0), .program_base = 0x1000};
    t.before.vectors = lend(512);
    t.before.generals = lend(256);
    t.before.work = lend(16);
    memset(t.before.vectors.at, 1, 512);
    memset(t.before.generals.at, 0, 256);
    t.after = t.before;
    t.after.vectors = copy(t.before.vectors);
    for (int i = 0; i < 16; i++) t.after.vectors.at[16 * 5 + i] = 2;
    return t;
}

/* one control block on it */
static int block_answers(struct bytes control, uint32_t reason) {
    struct test t = adding();
    t.answer.reason = reason;
    struct bytes after = copy(control);
    if (reason != MSA_FINISHED) t.after.vectors = t.before.vectors;
    else {
        int taken = control.at[MSA_CONTROL_MARK] == MSA_MARK_TAKEN;
        if (taken) memcpy(after.at + MSA_CONTROL_PC, control.at + MSA_CONTROL_TARGET, 8);
        else put(after.at + MSA_CONTROL_PC, 8, 0x1004);
        put(after.at + MSA_CONTROL_TARGET, 8, 0);
        put(after.at + MSA_CONTROL_MARK, 2, MSA_MARK_CLEAR);
    }
    int fine = agrees(&t, 's', control, after) & agrees(&t, '1', control, after);
    if (reason == 5) {
        /* the limits 1 to 4 come first */
        struct test u = t;
        u.after.vectors = u.before.vectors = lend(511);
        u.answer.reason = 1;
        fine &= agrees(&u, 's', control, after) & agrees(&u, '1', control, after);
        u = t;
        u.program_base = 0x1002;
        u.answer.reason = 2;
        fine &= agrees(&u, 's', control, after) & agrees(&u, '1', control, after);
        u.program_base = 0x1000;
        u.work_base = UINT64_MAX;
        u.answer.reason = 3;
        fine &= agrees(&u, 's', control, after) & agrees(&u, '1', control, after);
        u.table = lend(16);
        u.work_base = u.table_base = 0x2000;
        u.answer.reason = 4;
        fine &= agrees(&u, 's', control, after) & agrees(&u, '1', control, after);
    }
    return fine;
}

/* what the ADDV.W answers with this switch and this order, where the rest of the block is good */
static uint32_t setting_reason(unsigned on, unsigned order) {
    return on > 1 || order > 1 ? MSA_REFUSED_STATE : on == 0 ? MSA_SWITCHED_OFF : MSA_FINISHED;
}

/* every number of switch and order; where the step is finished both are left as they were */
static void settings(void) {
    unsigned cases = 1 << 16, agree = 0;
    struct test finished = adding(), kept = finished;
    kept.after.vectors = kept.before.vectors;
    finished.unfenced = kept.unfenced = 1;
    for (unsigned both = 0; both < cases; both++) {
        unsigned on = both & 255, order = both >> 8;
        struct bytes control = block(0x1000, 0, 0, 0, on, order), after = copy(control);
        kept.answer.reason = setting_reason(on, order);
        if (kept.answer.reason == MSA_FINISHED) put(after.at + MSA_CONTROL_PC, 8, 0x1004);
        struct test *t = kept.answer.reason == MSA_FINISHED ? &finished : &kept;
        snprintf(t->name, sizeof t->name, "switch %u, order %u", on, order);
        agree += (unsigned)(agrees(t, 's', control, after) & agrees(t, '1', control, after));
        free(control.at);
        free(after.at);
    }
    printf("switches and orders: %u of %u cases agree\n", agree, cases);
}

/* Blocks of every length to 49; every number of mark with a bit in each place, beside the same of switch and order as
 * one number, and from 4 on that number with its lowest bit turned.
 */
static void blocks(void) {
    unsigned cases = 0, agree = 0;
    for (size_t n = 0; n < 50; n++) {
        struct bytes b = lend(n), good = block(0x1000, 0, 0, 0, 1, 0);
        memset(b.at, 0, n);
        memcpy(b.at, good.at, n < 24 ? n : 24);
        cases++;
        agree += (unsigned)block_answers(b, n == 24 ? MSA_FINISHED : MSA_REFUSED_STATE);
    }
    for (unsigned mark = 0; mark < 65536; mark = mark < 4 ? mark + 1 : 2 * mark)
        for (unsigned both = 0; both < 65536; both = both < 4 ? both + 1 : 2 * both)
            for (unsigned turned = 0; turned < (both < 4 ? 1 : 2); turned++) {
                unsigned on = (both ^ turned) & 255, order = both >> 8;
                uint32_t reason = mark > 2 ? MSA_REFUSED_STATE : setting_reason(on, order);
                cases++;
                struct bytes b = block(0x1000, mark == 2 ? 0x2000 : 0x2001, 0x0107FFFF, mark, on, order);
                agree += (unsigned)block_answers(b, reason);
            }
    cases += 3;
    agree += (unsigned)block_answers(block(0x1002, 0, 0, 0, 1, 0), MSA_REFUSED_STATE);
    agree += (unsigned)block_answers(block(0x1000, 0x2001, 0, 2, 1, 0), MSA_REFUSED_STATE);
    agree += (unsigned)block_answers(block(0x1000, 0, 0x00080000, 0, 1, 0), MSA_REFUSED_STATE);
    printf("control blocks: %u of %u cases agree\n", agree, cases);
}

/* Table 3.1 of the manual, read off, and the same of the other formats: where byte b of a register is in big-endian
 * memory, from the address of the load or store on. Little-endian all four formats are as B is.
 */
static const uint8_t PLACES[4][16] = {{0, 1, 2, 3, 4, 5, 6, 7, 8, 9, 10, 11, 12, 13, 14, 15},
                                      {1, 0, 3, 2, 5, 4, 7, 6, 9, 8, 11, 10, 13, 12, 15, 14},
                                      {3, 2, 1, 0, 7, 6, 5, 4, 11, 10, 9, 8, 15, 14, 13, 12},
                                      {7, 6, 5, 4, 3, 2, 1, 0, 15, 14, 13, 12, 11, 10, 9, 8}};

static void store(uint8_t *memory, const uint8_t *vector, unsigned format, unsigned order) {
    for (int b = 0; b < 16; b++) memory[PLACES[order == MSA_ORDER_BIG ? format : 0][b]] = vector[b];
}

static void load(uint8_t *vector, const uint8_t *memory, unsigned format, unsigned order) {
    for (int b = 0; b < 16; b++) vector[b] = memory[PLACES[order == MSA_ORDER_BIG ? format : 0][b]];
}

/* a number of no meaning, below another; the same in every replay */
static unsigned drawn(unsigned below) {
    static uint64_t x = 1;
    x = x * UINT64_C(6364136223846793005) + UINT64_C(1442695040888963407);
    return (unsigned)((x >> 32) % below);
}

static struct bytes drawn_bytes(size_t n) {
    struct bytes b = lend(n);
    for (size_t i = 0; i < n; i++) b.at[i] = (uint8_t)drawn(256);
    return b;
}

/* A program of so many words, still to be put, over drawn bytes. The table begins where the work window ends; in some
 * cases these are the two ends of memory.
 */
static struct test drawn_test(size_t words, unsigned order) {
    struct test t = {.program = lend(4 * words), .table = drawn_bytes(40), .program_base = 0x1000};
    t.work_base = drawn(4) ? 0x4000 : UINT64_MAX - 63;
    t.table_base = t.work_base + 64;
    t.before.vectors = drawn_bytes(512);
    t.before.generals = drawn_bytes(256);
    t.before.work = drawn_bytes(64);
    t.before.control = block(0x1000, 0, 0, 0, 1, order);
    put(t.before.generals.at, 8, 0);
    return t;
}

static void give_back_test(const struct test *t) {
    free(t->program.at);
    free(t->table.at);
    give_back(&t->before);
    give_back(&t->after);
}

enum { LD = 0x20, ST = 0x24 }; /* minor opcodes, of format B */

/* puts the word of a load or store of $wd with a drawn offset, and into $rs what makes this its address */
static void put_access(struct test *t, size_t word, unsigned minor, unsigned format, unsigned wd, unsigned rs,
                       uint64_t address) {
    uint32_t s10 = drawn(1024);
    put(t->before.generals.at + 8 * rs, 8, address - (((uint64_t)s10 ^ 512) - 512) * (UINT64_C(1) << format));
    put(t->program.at + 4 * word, 4, UINT32_C(0x78000000) | s10 << 16 | rs << 11 | wd << 6 | minor | format);
}

/* loads and stores of every format in both orders, in the table and in the work window */
static void accesses(void) {
    unsigned cases = 1 << 11, agree = 0;
    for (unsigned i = 0; i < cases; i++) {
        unsigned order = i & 1, format = i >> 1 & 3, stores = i >> 3 & 1, in_table = i >> 4 & 1, wd = drawn(32);
        struct test t = drawn_test(1, order);
        unsigned at = drawn((unsigned)(in_table ? t.table.n : t.before.work.n) - 15);
        snprintf(t.name, sizeof t.name, "%s.%c %u", stores ? "ST" : "LD", "BHWD"[format], i);
        put_access(&t, 0, stores ? ST : LD, format, wd, 1 + drawn(31), (in_table ? t.table_base : t.work_base) + at);
        t.after = copies(&t.before);
        uint8_t *vector = t.after.vectors.at + 16 * wd, *memory = (in_table ? t.table : t.after.work).at + at;
        if (stores && in_table) t.answer.reason = MSA_READ_ONLY;
        else {
            if (stores) store(memory, vector, format, order);
            else load(vector, memory, format, order);
            put(t.after.control.at + MSA_CONTROL_PC, 8, 0x1004);
        }
        agree += (unsigned)check(&t);
        give_back_test(&t);
    }
    printf("loads and stores: %u of %u cases agree\n", agree, cases);
}

/* a store and then a load at the same address, each format after each; the same one gives the register back */
static void round_trips(void) {
    unsigned cases = 1 << 9, agree = 0;
    for (unsigned i = 0; i < cases; i++) {
        unsigned order = i & 1, first = i >> 1 & 3, second = i >> 3 & 3, from = drawn(32), to = drawn(32);
        struct test t = drawn_test(2, order);
        unsigned at = drawn((unsigned)t.before.work.n - 15);
        snprintf(t.name, sizeof t.name, "ST.%c LD.%c %u", "BHWD"[first], "BHWD"[second], i);
        put_access(&t, 0, ST, first, from, 1 + drawn(15), t.work_base + at);
        put_access(&t, 1, LD, second, to, 16 + drawn(16), t.work_base + at);
        t.run = 1;
        t.budget = 3;
        t.answer = (struct msa_ended){MSA_NO_WORD, 2, 0};
        t.after = copies(&t.before);
        store(t.after.work.at + at, t.before.vectors.at + 16 * from, first, order);
        if (first == second) memcpy(t.after.vectors.at + 16 * to, t.before.vectors.at + 16 * from, 16);
        else load(t.after.vectors.at + 16 * to, t.after.work.at + at, second, order);
        put(t.after.control.at + MSA_CONTROL_PC, 8, 0x1008);
        agree += (unsigned)check(&t);
        give_back_test(&t);
    }
    printf("stores and then loads: %u of %u cases agree\n", agree, cases);
}

/* the number of an element of 2 or 4 bytes, with its sign */
static int64_t element(const uint8_t *at, unsigned bytes) {
    int64_t one = INT64_C(1) << (8 * bytes - 1);
    return ((int64_t)get(at, bytes) ^ one) - one;
}

/* the quotient by a number above 0, not above the exact one */
static int64_t floored(int64_t x, int64_t by) { return x / by - (x % by < 0); }

/* What one of the six leaves in an element of n bits: q_mul, q_madd and q_msub of the manual. Elements are from -one to
 * one - 1. So the sum is at the least -one * one - one * one, and at the most (one - 1) * one + one * one + one / 2,
 * which is 2 * one * one less one / 2: for n = 32 from -2^63 to 2^63 - 2^30, and an int64_t has all of these. No part
 * of it is further from 0 than 2^62, and the half is added last.
 */
static int64_t multiplied(unsigned operation, unsigned n, int64_t d, int64_t s, int64_t t) {
    int64_t one = INT64_C(1) << (n - 1), half = operation & ROUNDED ? one / 2 : 0, product = s * t, sum;
    switch (operation & 7) {
    case MUL_Q: return s == -one && t == -one ? one - 1 : floored(product + half, one);
    case MADD_Q: sum = d * one + product; break;
    default: sum = d * one - product;
    }
    sum = floored(sum + half, one);
    return sum < -one ? -one : sum >= one ? one - 1 : sum;
}

enum { CORNERS = 12, OLDS = 5 };

/* the ends, the numbers about 0, and those whose product by 1, 3 or -1 is half a step, one and a half, or nearly so */
static int64_t corner(unsigned n, unsigned k) {
    int64_t one = INT64_C(1) << (n - 1), half = one / 2;
    int64_t all[CORNERS] = {-one, 1 - one, -half - 1, -half, -1, 0, 1, 3, half - 1, half, half + 1, one - 1};
    return all[k % CORNERS];
}

/* puts into the lanes of three registers the k-th of old element and pair of corners, and those behind it */
static void put_corners(uint8_t *vectors, unsigned bytes, unsigned k, unsigned wd, unsigned ws, unsigned wt) {
    static const unsigned olds[OLDS] = {0, 4, 5, 6, CORNERS - 1};
    for (unsigned i = 0; i < 16; i += bytes, k++) {
        put(vectors + 16 * wd + i, bytes, (uint64_t)corner(8 * bytes, olds[k / CORNERS / CORNERS % OLDS]));
        put(vectors + 16 * ws + i, bytes, (uint64_t)corner(8 * bytes, k / CORNERS));
        put(vectors + 16 * wt + i, bytes, (uint64_t)corner(8 * bytes, k));
    }
}

/* puts the word, and what it leaves in $wd */
static void put_multiply(struct test *t, unsigned operation, unsigned format, unsigned wd, unsigned ws, unsigned wt) {
    unsigned bytes = 1u << format;
    put(t->program.at, 4, FIXED_POINT | operation << 22 | (format - 1) << 21 | wt << 16 | ws << 11 | wd << 6);
    t->after = copies(&t->before);
    for (unsigned i = 0; i < 16; i += bytes) {
        const uint8_t *lane = t->before.vectors.at + i;
        int64_t d = element(lane + 16 * wd, bytes), s = element(lane + 16 * ws, bytes);
        int64_t after = multiplied(operation, 8 * bytes, d, s, element(lane + 16 * wt, bytes));
        put(t->after.vectors.at + 16 * wd + i, bytes, (uint64_t)after);
    }
    put(t->after.control.at + MSA_CONTROL_PC, 8, 0x1004);
}

/* One of the six in a format of its two: on all pairs of corners beside all old elements, three registers apart, and on
 * drawn registers, of which some are one. In a block of either order it leaves the same.
 */
static unsigned multiplies(unsigned operation, unsigned format, unsigned *cases) {
    static const char *const names[] = {"MUL", "MADD", "MSUB"};
    unsigned agree = 0, corners = CORNERS * CORNERS * OLDS / (16u >> format);
    for (unsigned i = 0; i < corners + 256; i++) {
        struct test t = drawn_test(1, MSA_ORDER_LITTLE);
        unsigned wd = drawn(32), ws = drawn(32), wt = drawn(32);
        if (i < corners) {
            ws = (wd + 1 + drawn(15)) % 32;
            wt = (wd + 16 + drawn(16)) % 32;
            put_corners(t.before.vectors.at, 1u << format, i * (16u >> format), wd, ws, wt);
        }
        snprintf(t.name, sizeof t.name, "%s%s_Q.%c %u", names[(operation & 7) - MUL_Q],
                 operation & ROUNDED ? "R" : "", "BHW"[format], i);
        t.unfenced = 1;
        put_multiply(&t, operation, format, wd, ws, wt);
        agree += (unsigned)check(&t);
        t.before.control.at[MSA_CONTROL_ORDER] = t.after.control.at[MSA_CONTROL_ORDER] = MSA_ORDER_BIG;
        agree += (unsigned)check(&t);
        *cases += 2;
        give_back_test(&t);
    }
    return agree;
}

static void fixed_point(void) {
    unsigned cases = 0, agree = 0;
    for (unsigned operation = MUL_Q; operation <= MSUB_Q; operation++)
        for (unsigned format = 1; format <= 2; format++) {
            agree += multiplies(operation, format, &cases);
            agree += multiplies(operation | ROUNDED, format, &cases);
        }
    printf("fixed-point multiplies: %u of %u cases agree\n", agree, cases);
}

/* CTCMSA $1,$4 of every number in the bits 17 to 7, with all other bits set: when a trap is armed, and by which bits */
static void traps(void) {
    static uint8_t program[4] = {0x59, 0x20, 0x3E, 0x78};
    struct test t = {.name = "trap", .program = {program, 4}, .table = lend(0), .program_base = 0x1000};
    unsigned cases = 1 << 11, agree = 0;
    t.before = (struct lent){lend(512), lend(256), lend(0), block(0x1000, 0, 0, 0, 1, 0)};
    memset(t.before.vectors.at, 0, 512);
    memset(t.before.generals.at, 0, 256);
    for (uint32_t bits = 0; bits < cases; bits++) {
        uint32_t arming = bits >> 10 ? 1 << 17 : (bits >> 5 & bits) << 12;
        uint64_t value = ~(UINT64_C(0x7FF) << 7) | bits << 7;
        put(t.before.generals.at + 8 * 4, 8, value);
        t.told = 1;
        t.answer.reason = arming ? MSA_TRAP : MSA_FINISHED;
        t.word = arming ? 0x783E2059 : 0;
        t.fact = arming;
        t.after = t.before;
        if (!arming) t.after.control = block(0x1004, 0, value & 0x0107FFFF, 0, 1, 0);
        agree += (unsigned)check(&t);
        if (!arming) free(t.after.control.at);
    }
    printf("traps: %u of %u cases agree\n", agree, cases);
}

/* whether a word reads as BZ.V, BNZ.V, BZ or BNZ; such a word of these ten opcodes, with a drawn register */
static int is_branch(uint32_t word) { return word >> 21 == 0x22B || word >> 21 == 0x22F || word >> 24 == 0x47; }

static uint32_t drawn_branch(int offset) {
    unsigned k = drawn(10);
    return (k < 2 ? 0x22B + 4 * k : 0x236 + k) << 21 | drawn(32) << 16 | ((uint32_t)offset & 0xFFFF);
}

/* puts drawn words: branches forward, words of the minor opcode 001110, which are finished, and a few of no meaning */
static void put_forward(struct test *t, unsigned words) {
    for (unsigned i = 0; i < words; i++) {
        uint32_t word = drawn(32) ? 0x7800000E | drawn(1 << 20) << 6 : drawn(1 << 16) << 16 | drawn(1 << 16);
        if (drawn(3) == 0) word = drawn_branch(drawn(4) ? 1 + (int)drawn(3) : 1 + (int)drawn(32767));
        if (is_branch(word) && (word & 0xFFFF) - 1 >= 32767) word = 0x7800000E;
        put(t->program.at + 4 * i, 4, word);
    }
}

static uint32_t budget_of(const struct test *t, uint64_t counter) {
    return msa_budget(t->program.at, t->program.n, t->program_base, counter);
}

/* a run with this budget on copies */
static struct msa_ended tried(const struct test *t, uint32_t budget) {
    struct lent l = copies(&t->before);
    struct msa_ended end = run(t, &l, budget);
    give_back(&l);
    return end;
}

/* Request 10/12: of drawn programs of n words that branch forward msa_budget is n - i + 1 at word i; a run with it does
 * not end with MSA_SPENT and finishes at most n - i instructions, and with a smaller one it is spent exactly where they
 * are as many. It is 1 at no word, and 0 where an offset is 0 or less, and of a program that is refused.
 */
static void forward(void) {
    unsigned cases = 1 << 14, agree = 0, reached = 0;
    for (unsigned k = 0; k < cases; k++) {
        unsigned n = 1 + drawn(32), i = drawn(n), back = drawn(n);
        struct test t = drawn_test(n, drawn(2));
        if (drawn(2)) t.program_base = UINT64_C(0) - 4 * n;
        put_forward(&t, n);
        put(t.before.control.at + MSA_CONTROL_PC, 8, t.program_base + 4 * i);
        t.before.control.at[MSA_CONTROL_SWITCH] = drawn(16) != 0;
        struct bytes lent = copy(t.program);
        uint64_t counter = t.program_base + 4 * i;
        uint32_t budget = budget_of(&t, counter);
        struct msa_ended end = tried(&t, budget), less = tried(&t, budget - 1);
        int right = budget == n - i + 1 && end.reason != MSA_SPENT && end.count < budget && same(t.program, lent);
        right &= (less.reason == MSA_SPENT) == (end.count == n - i) && less.count == end.count;
        right &= budget_of(&t, t.program_base + 4 * n) == 1 && budget_of(&t, t.program_base - 4) == 1;
        right &= budget_of(&t, counter + 1) == 1 && budget_of(&t, counter + 2) == 1;
        reached += end.count == n - i;
        put(t.program.at + 4 * back, 4, drawn_branch(-(int)drawn(4)));
        right &= budget_of(&t, counter) == 0 && budget_of(&t, t.program_base + 4 * n) == 1;
        t.program_base += 2;
        right &= budget_of(&t, counter) == 0 && budget_of(&t, counter + 2) == 0;
        agree += (unsigned)right;
        free(lent.at);
        give_back_test(&t);
    }
    differences += cases - agree + (reached == 0);
    printf("forward programs: %u of %u cases agree, %u finish as many as they may\n", agree, cases, reached);
}

/* A word: of the vector major opcode with a minor one that has operations, a branch, LSA, DLSA, CTCMSA, CFCMSA, MOVE.V,
 * or any. */
static uint32_t drawn_word(void) {
    static const uint8_t minors[] = {0, 1, 2, 6, 7, 9, 10, 13, 14, 15, 16, 17, 18, 19, 20, 21, 25, 26, 28, 30};
    uint32_t any = drawn(1 << 16) << 16 | drawn(1 << 16);
    switch (drawn(16)) {
    case 0: return drawn_branch((int)drawn(9) - 4);
    case 1: return (any & 0x03FFF8C0) | (drawn(2) ? 0x05 : 0x15);
    case 2: return 0x78000000 | (any & 0x03FFFFC0) | LD | drawn(8);
    case 3: return drawn(8) ? 0x783E0019 | (any & 0x00C0F800) | (drawn(2) ? 1 : drawn(32)) << 6 : any;
    default: return 0x78000000 | (any & 0x03FFFFC0) | minors[drawn(sizeof minors)];
    }
}

/* General registers that hold addresses in the windows or a little beside them, small numbers, or anything. */
static void put_generals(struct test *t) {
    for (unsigned r = 1; r < 32; r++) {
        uint64_t x = get(t->before.generals.at + 8 * r, 8);
        switch (drawn(4)) {
        case 0: x = t->work_base + drawn(80) - 8; break;
        case 1: x = t->table_base + drawn(48) - 4; break;
        case 2: x %= 512;
        }
        put(t->before.generals.at + 8 * r, 8, x);
    }
}

/* In some cases one limit of the set-up is broken. */
static void put_limits(struct test *t) {
    switch (drawn(64)) {
    case 0: t->before.vectors.n--; break;
    case 1: t->program.n--; break;
    case 2: t->program_base += 2; break;
    case 3: t->table_base = t->work_base + drawn(64); break;
    case 4: t->before.control.at[MSA_CONTROL_ORDER] = 2; break;
    case 5: put(t->before.generals.at, 8, 1); break;
    case 6: put(t->before.control.at + MSA_CONTROL_MSACSR, 4, drawn(1 << 16) << 16); break;
    case 7: t->table_base = UINT64_MAX - drawn(39); break;
    }
}

/* Request 12/12: drawn programs do in the second engine what they do in the first, and every number of document 01 that
 * a run can answer comes up. */
static void engines(void) {
    unsigned cases = 1 << 15, agree = 0, numbers[MSA_SPENT + 1] = {0}, missing = 0;
    for (unsigned k = 0; k < cases; k++) {
        unsigned n = 2 + drawn(23);
        struct test t = drawn_test(n, drawn(2));
        for (unsigned i = 0; i < n; i++) put(t.program.at + 4 * i, 4, drawn_word());
        put_generals(&t);
        put(t.before.control.at + MSA_CONTROL_PC, 8, t.program_base + 4 * drawn(n + 1) + (drawn(32) ? 0 : 1));
        put(t.before.control.at + MSA_CONTROL_TARGET, 8, t.program_base + 4 * drawn(n));
        put(t.before.control.at + MSA_CONTROL_MARK, 2, drawn(4) ? 0 : drawn(3));
        t.before.control.at[MSA_CONTROL_SWITCH] = drawn(16) != 0;
        put_limits(&t);
        snprintf(t.name, sizeof t.name, "engines %u", k);
        t.run = 1;
        t.budget = drawn(64);
        t.after = copies(&t.before);
        t.answer = run(&t, &t.after, t.budget);
        numbers[t.answer.reason < MSA_SPENT ? t.answer.reason : MSA_SPENT]++;
        agree += (unsigned)(agrees(&t, 'l', t.before.control, t.after.control)
                            & agrees(&t, 'L', t.before.control, t.after.control)
                            & agrees(&t, 'k', t.before.control, t.after.control));
        give_back_test(&t);
    }
    for (uint32_t i = 1; i <= MSA_SPENT; i++) missing += (i <= MSA_REFUSED_STATE || i >= MSA_NO_WORD) && !numbers[i];
    differences += missing;
    printf("both engines: %u of %u drawn programs agree, %u reasons did not come up\n", agree, cases, missing);
}

/* each number and each kind has a sentence of its own */
static void texts(void) {
    unsigned cases = 0, own = 0;
    for (uint32_t i = 0; i <= MSA_REFUSED_LIST; i++) {
        if ((i > MSA_REFUSED_STATE && i < MSA_NO_WORD) || (i > MSA_SPENT && i < MSA_REFUSED_LIST)) continue;
        cases++;
        own += strcmp(msa_reason_text(i), msa_reason_text(UINT32_MAX)) != 0;
    }
    for (uint32_t i = 0; i <= MSA_KIND_TRAP; i++, cases++)
        own += strcmp(msa_kind_text(i), msa_kind_text(UINT32_MAX)) != 0;
    differences += cases - own;
    printf("texts: %u of %u\n", own, cases);
}

int main(int n, char **names) {
    for (int i = 1; i < n; i++) replay(names[i]);
    blocks();
    settings();
    accesses();
    round_trips();
    fixed_point();
    traps();
    forward();
    engines();
    texts();
    printf("msa_why: %lu calls on fenced read-only pages\n", fenced_calls);
    return differences != 0;
}

/* Announces soundings: for each ping it lends the emulator a kernel's words and the
 * ping's echo samples, runs the kernel, and prints the sounding that the kernel left,
 * or why there is none, in lines that can be read aloud.
 *
 *     announce WORDS PINGS [BUDGET]
 *
 * WORDS  a word a line, in hex (host/kernels/bottom.hex; its listing stands beside it)
 * PINGS  a ping a line: SAMPLES echo strengths, two hex digits each
 * BUDGET of a kernel that branches back, which may go on for as long as its data say: how many instructions it is
 *        allowed, 1000 where it is not given. A kernel that only branches forward gets what msa_budget says
 *
 * A sounding is passed on only where it is this ping's own: the result cell is cleared
 * before each run, the run must end with MSA_NO_WORD, which is the end of the kernel,
 * and the cell must hold this ping's number in every halfword behind the result.
 */
#include <inttypes.h>
#include <stdio.h>
#include <stdlib.h>
#include <string.h>
#include "../include/msa.h"

enum {
    SAMPLES = 128,
    BLANKING = 16, /* samples of the outgoing pulse */
    SAMPLE_CM = 25, /* depth of a sample */
    FAINT = 32, /* an echo below this strength is no bottom */
    CELL = 16, /* bytes of the result cell */
    MOST_WORDS = 1024
};

/* addresses, as the kernel sees them; the program begins at 0, as in its listing */
enum { TABLE = 0x10000, WORK = 0x20000, RESULT = WORK + SAMPLES };

static uint8_t program[MSA_WORD_BYTES * MOST_WORDS];
static size_t program_bytes;

static const uint8_t table[16] = {0, 1, 2, 3, 4, 5, 6, 7, 8, 9, 10, 11, 12, 13, 14, 15};

/* little-endian, on any host */
static void put(uint8_t *at, unsigned bytes, uint64_t x) {
    for (unsigned i = 0; i < bytes; i++) at[i] = (uint8_t)(x >> 8 * i);
}

static unsigned half(const uint8_t *at) { return at[0] | (unsigned)at[1] << 8; }

/* the words of the kernel; 0 where the file has none, too many, or anything else in it */
static int load_words(const char *file) {
    FILE *f = fopen(file, "r");
    uint32_t word;
    if (!f) return 0;
    while (fscanf(f, "%8" SCNx32, &word) == 1) {
        if (program_bytes == sizeof program) break;
        put(program + program_bytes, MSA_WORD_BYTES, word);
        program_bytes += MSA_WORD_BYTES;
    }
    int whole = feof(f);
    fclose(f);
    return whole && program_bytes != 0;
}

/* the samples of a line; 0 where it is anything but 2 * SAMPLES hex digits */
static int read_ping(const char *line, uint8_t samples[SAMPLES]) {
    if (strlen(line) != 2 * SAMPLES || strspn(line, "0123456789abcdefABCDEF") != 2 * SAMPLES) return 0;
    for (int i = 0; i < SAMPLES; i++) {
        char digits[3] = {line[2 * i], line[2 * i + 1], 0};
        samples[i] = (uint8_t)strtoul(digits, NULL, 16);
    }
    return 1;
}

/* the next line without its end, of one too long its beginning; 0 at the end of the file */
static int read_line(FILE *f, char *line, size_t size) {
    int c;
    size_t n = 0;
    while ((c = getc(f)) != EOF && c != '\n')
        if (n + 1 < size) line[n++] = (char)c;
    line[n] = 0;
    return c != EOF || n != 0;
}

static void say(uint32_t reason) { printf("    reason %" PRIu32 ": %s\n", reason, msa_reason_text(reason)); }

/* why a run ended before the end of the kernel, in lines to be read aloud; why is of the bytes that the run left */
static void explain(uint32_t reason, struct msa_why why) {
    say(reason);
    if (reason == MSA_SPENT) {
        printf("    The next step would %s.\n", why.number == MSA_FINISHED ? "be done" : "stop");
        if (why.number != MSA_FINISHED) say(why.number);
    }
    if (why.number >= MSA_UNASSIGNED) printf("    word 0x%08" PRIX32 "\n", why.word);
    if (why.kind != MSA_KIND_NOTHING) printf("    fact 0x%" PRIX64 ": %s\n", why.fact, msa_kind_text(why.kind));
}

/* Runs the kernel on a ping. Answers 1 and the result where the cell holds this ping's own; else 0. */
static int sound(uint16_t number, const uint8_t samples[SAMPLES], uint32_t budget, unsigned *result) {
    uint8_t vectors[MSA_VECTORS_BYTES] = {0}, generals[MSA_GENERALS_BYTES] = {0}, control[MSA_CONTROL_BYTES] = {0};
    static uint8_t work[SAMPLES + CELL];
    uint8_t *cell = work + SAMPLES;

    memcpy(work, samples, SAMPLES);
    memset(cell, 0, CELL);
    put(generals + 8 * 4, 8, WORK + BLANKING);
    put(generals + 8 * 5, 8, TABLE);
    put(generals + 8 * 6, 8, 8);
    put(generals + 8 * 7, 8, RESULT);
    put(generals + 8 * 9, 8, number);
    put(control + MSA_CONTROL_PC, 8, 0);
    control[MSA_CONTROL_SWITCH] = MSA_SWITCH_ON;
    control[MSA_CONTROL_ORDER] = MSA_ORDER_LITTLE; /* the result cell is read so */

    struct msa_ended end = msa_run(program, program_bytes, 0, table, sizeof table, TABLE, vectors, sizeof vectors,
                                   generals, sizeof generals, work, sizeof work, WORK, control, sizeof control, budget);
    if (end.reason != MSA_NO_WORD) {
        printf("ping %u: no sounding (%" PRIu32 ", after %" PRIu32 " instructions)\n", number, end.reason, end.count);
        explain(end.reason, msa_why(program, program_bytes, 0, table, sizeof table, TABLE, vectors, sizeof vectors,
                                    generals, sizeof generals, work, sizeof work, WORK, control, sizeof control));
        return 0;
    }
    for (int i = 2; i < CELL; i += 2)
        if (half(cell + i) != number) {
            printf("ping %u: no sounding (the kernel left none of this ping)\n", number);
            return 0;
        }
    *result = half(cell);
    return 1;
}

static void announce(uint16_t number, const uint8_t samples[SAMPLES], uint32_t budget) {
    unsigned result;
    if (!sound(number, samples, budget, &result)) return;
    unsigned strength = result >> 8, sample = 255 - (result & 255), depth = sample * SAMPLE_CM;
    if (strength < FAINT) printf("ping %u: no bottom (strongest echo %u)\n", number, strength);
    else printf("ping %u: %u.%02u m (strength %u)\n", number, depth / 100, depth % 100, strength);
}

/* The budget of every ping's run. Where msa_budget has an answer it is taken: with so many instructions no run from the
 * kernel's first word ends with MSA_SPENT, whatever the samples are, so no ping's slot is cut short, and none is longer
 * than it need be. Where it is 0, the kernel branches back, and the caller's number stands between it and the next
 * ping.
 */
static uint32_t sized(uint32_t given) {
    uint32_t enough = msa_budget(program, program_bytes, 0, 0);
    return enough != 0 ? enough : given;
}

int main(int n, char **words) {
    static char line[2 * SAMPLES + 2];
    uint8_t samples[SAMPLES];
    uint32_t given = n > 3 ? (uint32_t)strtoul(words[3], NULL, 10) : 1000;
    if (n < 3) {
        puts("announce WORDS PINGS [BUDGET]");
        return 2;
    }
    if (!load_words(words[1])) {
        printf("%s: no kernel\n", words[1]);
        return 2;
    }
    FILE *f = fopen(words[2], "r");
    if (!f) {
        printf("%s: no pings\n", words[2]);
        return 2;
    }
    uint32_t budget = sized(given);
    /* pings are numbered from 1, so that no number is that of a cleared cell */
    for (unsigned number = 1; read_line(f, line, sizeof line); number = number % 65535 + 1)
        if (read_ping(line, samples)) announce((uint16_t)number, samples, budget);
        else printf("ping %u: no sounding (not %d samples)\n", number, SAMPLES);
    fclose(f);
    return 0;
}

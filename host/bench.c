/* Times the shared kernels: runs each a fixed number of times through msa_run and through msa_run_read, checks the
 * answer and every lent byte each time, and prints finished instructions per second by the least, the median and the
 * mean of the runs. The least is the one to compare: whatever else the machine does can only add to it. The two go in
 * turns of TURN runs, so that both meet the same machine, and each a processor that has just run its code;
 * msa_run_read reads the words again in each run.
 *
 *     bench TIMES BESIDE KERNEL.bin..      (tools/kernels.py writes the files and says their layout)
 *
 * BESIDE is a file of lines "NAME NANOSECONDS", as host/native.c prints them, or "-": with it, how much of that speed
 * each has, by the least. Ends with status 1 where a result is wrong. There are no thresholds: how fast is a
 * matter of the machine.
 */
#define _POSIX_C_SOURCE 199309L /* clock_gettime */
#include <stdio.h>
#include <stdlib.h>
#include <string.h>
#include <time.h>
#include "../include/msa.h"

enum { REGISTERS = MSA_VECTORS_BYTES + MSA_GENERALS_BYTES, TURN = 64 };

static uint64_t list[MSA_PROGRAM_WORDS];
static uint8_t file[64 + 4 * (MSA_WORD_BYTES * MSA_PROGRAM_WORDS + MSA_WINDOW_BYTES)];

static uint64_t number(const uint8_t *at, unsigned bytes) {
    uint64_t x = 0;
    for (unsigned i = bytes; i > 0; i--) x = x << 8 | at[i - 1];
    return x;
}

static double seconds(void) {
    struct timespec t;
    clock_gettime(CLOCK_MONOTONIC, &t);
    return (double)t.tv_sec + (double)t.tv_nsec / 1e9;
}

static int by_size(const void *a, const void *b) {
    double x = *(const double *)a, y = *(const double *)b;
    return (x > y) - (x < y);
}

/* the seconds that a file has for a kernel, or 0 */
static double beside(const char *times, const char *name) {
    char other[64];
    double nanoseconds, found = 0;
    FILE *f = strcmp(times, "-") ? fopen(times, "r") : NULL;
    while (f && fscanf(f, "%63s %lf", other, &nanoseconds) == 2)
        if (strcmp(other, name) == 0) found = nanoseconds / 1e9;
    if (f) fclose(f);
    return found;
}

/* of the two engines over all kernels: instructions, and seconds by the least, the median and the mean of each, and
 * beside */
static struct sums { double count, least, median, mean, beside; } sum[2];
static const char *const engine[2] = {"run", "run_read"};

static void line(const char *name, int which, const struct sums *s) {
    printf("%-14s %-8s %6.0f %8.1f %8.1f %8.1f", name, engine[which], s->count, s->count / s->least / 1e6,
           s->count / s->median / 1e6, s->count / s->mean / 1e6);
    if (s->beside > 0) printf(" %8.2f", s->beside / s->least);
}

/* one kernel; adds to the sums, answers 0 where it is wrong. spent has room for both engines */
static int bench(const char *path, unsigned times, double *spent, const char *others) {
    FILE *f = fopen(path, "rb");
    size_t size = f ? fread(file, 1, sizeof file, f) : 0;
    if (f) fclose(f);
    if (size < 48) return 0;
    uint64_t program_base = number(file, 8), table_base = number(file + 8, 8), work_base = number(file + 16, 8);
    uint32_t budget = (uint32_t)number(file + 24, 4), count = (uint32_t)number(file + 32, 4);
    uint32_t reason = (uint32_t)number(file + 28, 4);
    size_t words = number(file + 36, 4), constants = number(file + 40, 4), window = number(file + 44, 4);
    size_t lent = REGISTERS + window + MSA_CONTROL_BYTES;
    if (size != 48 + words + constants + 2 * lent) return 0;
    const uint8_t *program = file + 48, *table = program + words, *before = table + constants, *after = before + lent;
    uint8_t *now = malloc(lent);
    if (!now) return 0;
    uint8_t *vectors = now, *generals = now + MSA_VECTORS_BYTES, *work = now + REGISTERS, *control = work + window;
    double time[2] = {0, 0};
    int right[2] = {1, 1};
    unsigned done[2] = {0, 0};
    for (unsigned i = 0; done[0] < times || done[1] < times; i++) {
        int which = i / TURN & 1;
        if (done[which] == times) continue;
        memcpy(now, before, lent);
        double start = seconds();
        struct msa_ended end =
            which ? msa_run_read(program, words, program_base, table, constants, table_base,
                                 vectors, MSA_VECTORS_BYTES, generals, MSA_GENERALS_BYTES,
                                 work, window, work_base, control, MSA_CONTROL_BYTES,
                                 list, sizeof list / sizeof *list, budget)
                  : msa_run(program, words, program_base, table, constants, table_base,
                            vectors, MSA_VECTORS_BYTES, generals, MSA_GENERALS_BYTES,
                            work, window, work_base, control, MSA_CONTROL_BYTES, budget);
        double took = seconds() - start;
        spent[which * times + done[which]++] = took;
        time[which] += took;
        right[which] &= end.reason == reason && end.count == count && end.missing == 0 && memcmp(now, after, lent) == 0;
    }
    free(now);
    const char *slash = strrchr(path, '/'), *name = slash ? slash + 1 : path;
    for (int which = 0; which < 2; which++) {
        double *of = spent + which * times;
        qsort(of, times, sizeof *of, by_size);
        struct sums s = {count, of[0], of[times / 2], time[which] / times, beside(others, name)};
        line(name, which, &s);
        puts(right[which] ? "" : "  WRONG");
        sum[which].count += s.count;
        sum[which].least += s.least;
        sum[which].median += s.median;
        sum[which].mean += s.mean;
        sum[which].beside += s.beside;
    }
    return right[0] && right[1];
}

int main(int n, char **words) {
    unsigned times = n > 1 ? (unsigned)strtoul(words[1], NULL, 10) : 0;
    double *spent = malloc(2 * (times ? times : 1) * sizeof *spent);
    int wrong = 0;
    if (n < 4 || times == 0 || !spent) {
        puts("bench TIMES BESIDE KERNEL.bin..");
        return 2;
    }
    printf("%-14s %-8s %6s %8s %8s %8s%s\n", "million/s by", "", "words", "least", "median", "mean",
           strcmp(words[2], "-") ? "  of QEMU" : "");
    for (int i = 3; i < n; i++)
        if (!bench(words[i], times, spent, words[2])) {
            printf("%s: wrong\n", words[i]);
            wrong = 1;
        }
    for (int which = 0; which < 2; which++) {
        line("all", which, &sum[which]);
        puts("");
    }
    free(spent);
    return wrong;
}

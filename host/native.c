/* The shared kernels as what they are, words of a MIPS64 with MSA, for a time to hold msa_run's to: the program is
 * compiled for that machine and run there, or under qemu-mips64el.
 *
 *     native TIMES KERNEL.bin..      (tools/kernels.py writes the files and says their layout)
 *
 * The bytes of each window stand at the window's own addresses and the words at the program's. After the last word
 * stand three more, which go back. General register 27 holds the state's address meanwhile: the kernels leave it alone,
 * and it is 0 before and after. Prints a line a kernel, its name and the least nanoseconds of a run, less those of a
 * kernel of no words. Ends with status 1 where a result is wrong.
 */
#define _GNU_SOURCE
#include <stdint.h>
#include <stdio.h>
#include <stdlib.h>
#include <string.h>
#include <sys/mman.h>
#include <time.h>

enum { VECTORS = 512, GENERALS = 256, REGISTERS = VECTORS + GENERALS, CONTROL = 24, PAGE = 65536 };

/* the registers, then what the caller needs again */
static struct { uint8_t registers[REGISTERS]; uint64_t kept[24]; } state;

/* Runs the words at an address on the state's registers. kept: 0 to 11 the caller's $16 to $23 and $28 to $31, 12 where
 * the kernel goes back to, 13 to 20 its $f24 to $f31. */
void enter(void *state, const void *words);
__asm__(".set push\n.set noreorder\n.set noat\n.globl enter\n.type enter, @function\n"
        ".macro each_vector do\n.irp n,0,1,2,3,4,5,6,7,8,9,10,11,12,13,14,15,"
        "16,17,18,19,20,21,22,23,24,25,26,27,28,29,30,31\n"
        "\\do $w\\n, 16*\\n($27)\n.endr\n.endm\n"
        ".macro each_general do\n.irp n,1,2,3,4,5,6,7,8,9,10,11,12,13,14,15,16,17,18,19,20,21,22,23,24,25,28,29,30,31\n"
        "\\do $\\n, 512+8*\\n($27)\n.endr\n.endm\n"
        ".macro each_kept do dof\n.irp n,16,17,18,19,20,21,22,23\n\\do $\\n, 768+8*(\\n-16)($27)\n.endr\n"
        ".irp n,28,29,30,31\n\\do $\\n, 832+8*(\\n-28)($27)\n.endr\n"
        ".irp n,24,25,26,27,28,29,30,31\n\\dof $f\\n, 872+8*(\\n-24)($27)\n.endr\n.endm\n"
        "enter:\n\tmove $27, $4\n\teach_kept sd, sdc1\n\tmove $26, $5\n\tdla $5, back\n\tsd $5, 864($27)\n"
        "\teach_vector ld.d\n\teach_general ld\n\tjr $26\n\tld $26, 720($27)\n"
        "back:\n\teach_vector st.d\n\teach_general sd\n\teach_kept ld, ldc1\n\tjr $31\n\tnop\n"
        ".set pop\n");

/* sd $26, 720($27); ld $26, 864($27); jr $26; nop */
static const uint32_t goes_back[4] = {0xFF7A02D0, 0xDF7A0360, 0x03400008, 0};

static uint8_t file[1 << 21];

static uint64_t number(const uint8_t *at, unsigned bytes) {
    uint64_t x = 0;
    for (unsigned i = bytes; i > 0; i--) x = x << 8 | at[i - 1];
    return x;
}

static uint64_t nanoseconds(void) {
    struct timespec t;
    clock_gettime(CLOCK_MONOTONIC, &t);
    return (uint64_t)t.tv_sec * 1000000000 + (uint64_t)t.tv_nsec;
}

/* memory at an address of the kernel's choice */
static uint8_t *window(uint64_t base, size_t bytes) {
    uint64_t from = base & ~(uint64_t)(PAGE - 1);
    void *at = mmap((void *)from, base - from + bytes + PAGE, PROT_READ | PROT_WRITE | PROT_EXEC,
                    MAP_PRIVATE | MAP_ANONYMOUS | MAP_FIXED, -1, 0);
    return at == MAP_FAILED ? NULL : (uint8_t *)base;
}

static void place(uint8_t *at, const uint8_t *words, size_t bytes) {
    memcpy(at, words, bytes);
    memcpy(at + bytes, goes_back, sizeof goes_back);
    __builtin___clear_cache((char *)at, (char *)at + bytes + sizeof goes_back);
}

/* the least time of a run, with the state and the window laid anew before each */
static uint64_t least(const void *words, unsigned times, uint8_t *work, const uint8_t *before, size_t bytes) {
    uint64_t best = UINT64_MAX;
    for (unsigned i = 0; i < times; i++) {
        memcpy(state.registers, before, REGISTERS);
        memcpy(work, before + REGISTERS, bytes);
        uint64_t start = nanoseconds();
        enter(&state, words);
        uint64_t time = nanoseconds() - start;
        if (time < best) best = time;
    }
    return best;
}

static int run(const char *name, unsigned times) {
    FILE *f = fopen(name, "rb");
    size_t size = f ? fread(file, 1, sizeof file, f) : 0;
    if (f) fclose(f);
    if (size < 48) return 0;
    uint64_t program_base = number(file, 8), table_base = number(file + 8, 8), work_base = number(file + 16, 8);
    size_t words = number(file + 36, 4), constants = number(file + 40, 4), bytes = number(file + 44, 4);
    size_t lent = REGISTERS + bytes + CONTROL;
    if (size != 48 + words + constants + 2 * lent) return 0;
    const uint8_t *program = file + 48, *table = program + words, *before = table + constants, *after = before + lent;
    uint8_t *at = window(program_base, words + sizeof goes_back), *work = window(work_base, bytes);
    uint8_t *constant = window(table_base, constants);
    static uint32_t none[4];
    if (!at || !work || !constant) return 0;
    memcpy(constant, table, constants);
    place(at, program, words);
    place((uint8_t *)none, program, 0);
    mprotect((void *)((uintptr_t)none & ~(uintptr_t)(PAGE - 1)), 2 * PAGE, PROT_READ | PROT_WRITE | PROT_EXEC);
    uint64_t empty = least(none, times, work, before, bytes), whole = least(at, times, work, before, bytes);
    const char *slash = strrchr(name, '/');
    printf("%s %llu\n", slash ? slash + 1 : name, (unsigned long long)(whole - empty));
    return memcmp(state.registers, after, REGISTERS) == 0 && memcmp(work, after + REGISTERS, bytes) == 0;
}

int main(int n, char **words) {
    unsigned times = n > 1 ? (unsigned)strtoul(words[1], NULL, 10) : 0;
    int wrong = 0;
    if (n < 3 || times == 0) {
        puts("native TIMES KERNEL.bin..");
        return 2;
    }
    for (int i = 2; i < n; i++)
        if (!run(words[i], times)) {
            fprintf(stderr, "%s: wrong\n", words[i]);
            wrong = 1;
        }
    return wrong;
}

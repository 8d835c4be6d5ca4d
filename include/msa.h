/* The C entry of Szafranosz: one step or one run of the integer and fixed-point subset of
 * the MIPS64 SIMD Architecture, rev. 1.12, why the next step would stop, and how large a
 * budget is enough. The layout of the lent bytes is described in docs/LAYOUT.md. Program,
 * registers and control block are little-endian; the elements that a kernel loads from the
 * table and the work window, and stores into the work window, are in the order that the
 * control block names.
 *
 * Link with target/staticlib/libentry.a (`host/build` makes it, x86-64). The four functions
 * msa_step, msa_run, msa_why and msa_budget are pure but for the bytes lent to them: they
 * allocate nothing, keep nothing and call nothing; msa_why and msa_budget are lent every
 * byte for reading only. No pointer may be null, also not with a length of 0, and a slice
 * that is lent for writing must overlap no other. The texts at the end are of this header
 * alone, not of the archive.
 *
 * Below its caller's frame a step or a run takes 480 bytes of stack, msa_why 120 and
 * msa_budget 8, the return address included, with no recursion. That is measured, not
 * proved: docs/TRUST.md says how, and `host/build stack` does it again.
 */
#ifndef MSA_H
#define MSA_H

#include <stddef.h>
#include <stdint.h>

#ifdef __cplusplus
extern "C" {
#endif

enum {
    MSA_VECTORS_BYTES = 512, /* 32 registers of 16 bytes, register r at 16r */
    MSA_GENERALS_BYTES = 256, /* 32 registers of 8 bytes, register r at 8r; register 0 is zero */
    MSA_WORD_BYTES = 4, /* word i of the program at 4i */
    MSA_PROGRAM_WORDS = 65536, /* at the most */
    MSA_WINDOW_BYTES = 1048576, /* of the table, and of the work window, at the most */
    MSA_CONTROL_BYTES = 24
};

/* where the fields of the control block begin */
enum {
    MSA_CONTROL_PC = 0, /* 8 bytes: program counter */
    MSA_CONTROL_TARGET = 8, /* 8 bytes: target of a taken mark; not looked at and written as 0 with another mark */
    MSA_CONTROL_MSACSR = 16, /* 4 bytes */
    MSA_CONTROL_MARK = 20, /* 2 bytes: slot mark */
    MSA_CONTROL_SWITCH = 22, /* 1 byte: MSA switch */
    MSA_CONTROL_ORDER = 23 /* 1 byte: byte order; no call changes it. With a switch written as two bytes it is little */
};

enum { MSA_MARK_CLEAR = 0, MSA_MARK_NOT_TAKEN = 1, MSA_MARK_TAKEN = 2 };
enum { MSA_SWITCH_OFF = 0, MSA_SWITCH_ON = 1 };

/* The byte order of loads and stores of format H, W or D, whichever window they go to; fixed for a run. Element
 * i is at the address of the load or store plus i times its size in either order, and format B is the same in both.
 */
enum {
    MSA_ORDER_LITTLE = 0, /* of each element the least significant byte first */
    MSA_ORDER_BIG = 1 /* the most significant byte first */
};

/* the reasons that come back */
enum msa_answer {
    MSA_FINISHED = 0, /* not of a run: the step is finished, or of msa_why: it would be */

    /* the set-up is refused; no byte is changed */
    MSA_REFUSED_REGISTERS = 1, /* vectors are not 512 bytes, or generals not 256 */
    MSA_REFUSED_PROGRAM = 2, /* no whole words, base no multiple of 4, too many words, or past 2^64 */
    MSA_REFUSED_WINDOW = 3, /* a window is too large, or passes 2^64 */
    MSA_REFUSED_SHARED = 4, /* the two windows share an address */
    MSA_REFUSED_STATE = 5, /* register 0, program counter, target, MSACSR, or a block outside its layout */

    /* the step stops, and changes nothing */
    MSA_NO_WORD = 11, /* the program counter is at no program word: the usual end of a kernel */
    MSA_UNASSIGNED = 12, /* an MSA word that the manual assigns to nothing */
    MSA_LEFT_OUT = 13, /* an MSA word that the manual assigns, and that is left out here */
    MSA_OTHER_WORD = 14, /* another word, and not LSA, DLSA, BZ or BNZ */
    MSA_BRANCH_IN_SLOT = 15, /* a branch whose slot mark is set */
    MSA_SWITCHED_OFF = 16, /* the MSA switch is off */
    MSA_NO_WINDOW = 17, /* load or store whose sixteen bytes lie in no single window; `missing` names one of them */
    MSA_READ_ONLY = 18, /* store wholly inside the table */
    MSA_TRAP = 19, /* CTCMSA that arms a float trap */
    MSA_SPENT = 20, /* a run only, and there before 11 to 19: the count equals the budget */

    /* msa_run_read only, after 1 to 5 and before 20; no byte and no entry is changed */
    MSA_REFUSED_LIST = 51 /* the list has fewer entries than the program has words */
};

/* What msa_step and msa_run answer. Read `reason` first. With MSA_NO_WINDOW `missing` is
 * the first of the sixteen addresses, counted upward modulo 2^64, that does not lie in the
 * window holding the first byte, or the first address itself if no window holds it; it may
 * be 0, past a window that ends at 2^64. With every other reason `missing` is 0.
 *
 * C code compiled against a header in which these two answered a uint64_t keeps
 * working: on x86-64 (System V) a struct of 16 bytes of integers comes back in the
 * registers rax and rdx, the arguments stand where they stood, and rax is what it was, the
 * reason of a step, reason + 2^32 * count of a run. Such code does not look at rdx, where
 * `missing` is.
 */
struct msa_stepped {
    uint64_t reason; /* of enum msa_answer */
    uint64_t missing;
};

struct msa_ended {
    uint32_t reason; /* of enum msa_answer */
    uint32_t count; /* of finished instructions */
    uint64_t missing;
};

/* what the fact of a struct msa_why is */
enum msa_kind {
    MSA_KIND_NOTHING = 0, /* there is none: of MSA_FINISHED and of the refusals */
    MSA_KIND_COUNTER = 1, /* of 11: the program counter */
    MSA_KIND_WORD = 2, /* of 12 to 15: the word at the program counter */
    MSA_KIND_SWITCH = 3, /* of 16: the MSA switch, MSA_SWITCH_OFF */
    MSA_KIND_ADDRESS = 4, /* of 17: `missing` of msa_step; of 18: the first address of the store */
    MSA_KIND_TRAP = 5 /* of 19: bit 17 (0x20000) of the value for MSACSR if set, else those of 16 to 12 that 11 to 7
                         share, at their places */
    /* 6 and 7 are kept for a vector register and a control register */
};

/* What msa_why answers. Read `number` first: it says whether there are a word and a fact; each may be 0 and still be
 * there (the word 0 is no instruction, 14; the address 0 may be the one that is missing, 17). In C++ the function hides
 * the struct of the same name: write `struct msa_why`.
 */
struct msa_why {
    uint16_t number; /* of enum msa_answer: what msa_step would answer, so never MSA_SPENT */
    uint16_t kind; /* of enum msa_kind: what the fact is */
    uint32_t word; /* with 12 to 19 the word at the program counter, else 0 */
    uint64_t fact; /* with 11 to 19, else 0 */
};

/* One step. Its reason is MSA_FINISHED, or why the instruction was not finished; then no byte is changed. */
struct msa_stepped msa_step(const uint8_t *program, size_t program_bytes, uint64_t program_base,
                            const uint8_t *table, size_t table_bytes, uint64_t table_base,
                            uint8_t *vectors, size_t vectors_bytes,
                            uint8_t *generals, size_t generals_bytes,
                            uint8_t *work, size_t work_bytes, uint64_t work_base,
                            uint8_t *control, size_t control_bytes);

/* One run of at most budget instructions; with count 0 no byte is changed. */
struct msa_ended msa_run(const uint8_t *program, size_t program_bytes, uint64_t program_base,
                         const uint8_t *table, size_t table_bytes, uint64_t table_base,
                         uint8_t *vectors, size_t vectors_bytes,
                         uint8_t *generals, size_t generals_bytes,
                         uint8_t *work, size_t work_bytes, uint64_t work_base,
                         uint8_t *control, size_t control_bytes,
                         uint32_t budget);

/* msa_run with a list of read instructions, and faster: each word of the program is read once, into the list, and the
 * run looks at the list alone. The answer and every lent byte are those of msa_run, but that a list of fewer entries
 * than the program has words is refused with MSA_REFUSED_LIST. What the entries hold before the call does not matter;
 * after a run that was not refused the first, as many as the program has words, are the program's, and those behind
 * them are as they were. The list must overlap no other slice. It is in an archive of its own,
 * target/staticlib/libentry_read.a (made by `host/build` too), which may be linked beside libentry.a.
 */
struct msa_ended msa_run_read(const uint8_t *program, size_t program_bytes, uint64_t program_base,
                              const uint8_t *table, size_t table_bytes, uint64_t table_base,
                              uint8_t *vectors, size_t vectors_bytes,
                              uint8_t *generals, size_t generals_bytes,
                              uint8_t *work, size_t work_bytes, uint64_t work_base,
                              uint8_t *control, size_t control_bytes,
                              uint64_t *list, size_t list_entries,
                              uint32_t budget);

/* Why the next step would stop, or that it would not; no byte is changed. Of the bytes that a run has left it names
 * that run's refusal or stop, with its word and fact; after MSA_SPENT it says what would come next.
 */
struct msa_why msa_why(const uint8_t *program, size_t program_bytes, uint64_t program_base,
                       const uint8_t *table, size_t table_bytes, uint64_t table_base,
                       const uint8_t *vectors, size_t vectors_bytes,
                       const uint8_t *generals, size_t generals_bytes,
                       const uint8_t *work, size_t work_bytes, uint64_t work_base,
                       const uint8_t *control, size_t control_bytes);

/* How large a budget is enough for a run from this program counter with a clear slot mark (MSA_MARK_CLEAR). Where every
 * branch of the program (BZ, BNZ, BZ.V, BNZ.V) has an offset of at least 1 and the counter is at word i of n, it is
 * n - i + 1: with this budget or more no run ends with MSA_SPENT, whatever the registers and windows hold; it is
 * refused, or stops by itself after at most n - i instructions. It is 1 where the counter is at no word: then a run is
 * refused, or stops at once. Else it is 0, and no such number is known: a branch goes back, or to its own slot, or the
 * program is one that a run refuses with MSA_REFUSED_PROGRAM. It depends on nothing else, so it can be asked once for
 * many runs.
 */
uint32_t msa_budget(const uint8_t *program, size_t program_bytes, uint64_t program_base, uint64_t counter);

/* A reason in one sentence that can be read aloud. In it the kernel is the program that was lent, the host program
 * the caller, and the memory windows are the table and the work window.
 */
static inline const char *msa_reason_text(uint32_t number) {
    switch (number) {
    case MSA_FINISHED:
        return "No stop: the instruction is done, or would be done next.";
    case MSA_REFUSED_REGISTERS:
        return "The host program lent vector registers that are not 512 bytes, or general registers that are not 256.";
    case MSA_REFUSED_PROGRAM:
        return "The host program lent a kernel of no whole words, of over 65,536, or at an address it cannot have.";
    case MSA_REFUSED_WINDOW:
        return "The host program lent a memory window of over 1,048,576 bytes, or one that passes the last address.";
    case MSA_REFUSED_SHARED:
        return "The host program lent two memory windows, table and work, that share an address.";
    case MSA_REFUSED_STATE:
        return "The host program lent a register 0 that is not zero, or a control block that is not as laid down.";
    case MSA_NO_WORD:
        return "The program counter is at no word of the kernel: this is how a kernel usually ends.";
    case MSA_UNASSIGNED:
        return "The kernel is wrong or damaged: its next word is a vector word (MSA) of no meaning in the manual.";
    case MSA_LEFT_OUT:
        return "The kernel needs a vector instruction (MSA) of the manual that this emulator leaves out.";
    case MSA_OTHER_WORD:
        return "The kernel is wrong or damaged: its next word is no vector word (MSA), and not LSA, DLSA, BZ or BNZ.";
    case MSA_BRANCH_IN_SLOT:
        return "A branch stands right behind another branch, where none may: in the kernel, or as the host lent it.";
    case MSA_SWITCHED_OFF:
        return "The next instruction needs the vector unit (MSA), which the host program has switched off.";
    case MSA_NO_WINDOW:
        return "The kernel wants to read or write sixteen bytes that do not all lie in one memory window.";
    case MSA_READ_ONLY:
        return "The kernel wants to write into the table, the memory window that is for reading only.";
    case MSA_TRAP:
        return "The kernel wants to arm a floating-point trap in the control register MSACSR; there are no traps here.";
    case MSA_SPENT:
        return "All instructions that the host program allowed are done: it allowed too few, or the kernel never ends.";
    case MSA_REFUSED_LIST:
        return "The host program lent a list of read instructions that is shorter than the kernel.";
    default:
        return "No reason has this number.";
    }
}

/* what the fact is, in one sentence that can be read aloud behind it */
static inline const char *msa_kind_text(uint32_t kind) {
    switch (kind) {
    case MSA_KIND_NOTHING:
        return "There is no fact.";
    case MSA_KIND_COUNTER:
        return "This is the program counter: the address at which a word of the kernel is looked for.";
    case MSA_KIND_WORD:
        return "This is the word at the program counter.";
    case MSA_KIND_SWITCH:
        return "This is the switch of the vector unit (MSA): 0 is off.";
    case MSA_KIND_ADDRESS:
        return "This is a memory address: with 17 the first byte that is missing, with 18 the first to be written.";
    case MSA_KIND_TRAP:
        return "These are the bits that arm the trap, each at its place in MSACSR.";
    default:
        return "No kind of fact has this number.";
    }
}

#ifdef __cplusplus
}
#endif

#endif

/* Instructions of x86-64, as far as Go's compiler puts them between the last act of a function and its end: results are moved, and what
 * is known already is compared, to jump to the place where the function ends. */
#include "log.h"

/* What an instruction does. IDLE: nothing that another goroutine sees, for it only has registers and the function's own frame. BRANCH:
 * it jumps, or goes on. */
struct instruction {
    enum { OTHER, IDLE, JUMP, BRANCH, CALL } kind;
    size_t length;
    int32_t distance;        /* of a jump or a call, from its end on */
};

/* How an instruction is written: its prefixes, and the bytes of a number behind it, if it has one. */
struct form {
    bool is_short, is_wide;  /* operands of two or of eight bytes */
    bool has_high_base;      /* the operand in memory isn't the function's frame */
};

static bool is_one_of(unsigned char byte, const char *bytes, size_t count) { return memchr(bytes, byte, count) != NULL; }
#define IS_ONE_OF(byte, bytes) is_one_of(byte, bytes, sizeof bytes - 1)

/* The length of the operand that begins at the byte, if it is a register or in the function's own frame, by the stack pointer, or if
 * the instruction doesn't use what is there. 0: another one. */
static size_t operand_length(const unsigned char *at, const struct form *form, bool is_unused) {
    unsigned mode = *at >> 6, base = *at & 7;
    if (mode == 3) return 1;
    size_t length = 1 + (base == 4) + (mode == 1 ? 1 : mode == 2 ? 4 : 0);
    if (is_unused) return length + (mode == 0 && (base == 5 || (base == 4 && (at[1] & 7) == 5)) ? 4 : 0);
    return base == 4 && at[1] == 0x24 && !form->has_high_base ? length : 0;
}

/* The length of an instruction with an operand behind its `code` bytes and a number of `number` bytes behind that. */
static struct instruction idle(size_t code, size_t operand, size_t number) {
    return operand ? (struct instruction){IDLE, code + operand + number, 0} : (struct instruction){OTHER, 0, 0};
}

/* Those that begin with the byte 0f: moves of vectors, with and without signs, by a condition, and those that set a byte by one. */
static struct instruction of_two_bytes(const unsigned char *code, const struct form *form) {
    static const char vectors[] = "\x10\x11\x28\x29\x2e\x2f\x54\x57\x6e\x6f\x7e\x7f\xd6\xef", wider[] = "\xb6\xb7\xbe\xbf\xaf\xa3";
    int32_t distance;
    if ((*code & 0xf0) == 0x80) {
        memcpy(&distance, code + 1, sizeof distance);
        return (struct instruction){BRANCH, 6, distance};
    }
    if (*code == 0xba) return idle(2, operand_length(code + 1, form, false), 1);
    bool is_idle = (*code & 0xf0) == 0x40 || (*code & 0xf0) == 0x90 || IS_ONE_OF(*code, vectors) || IS_ONE_OF(*code, wider);
    if (!is_idle && *code != 0x1f) return (struct instruction){OTHER, 0, 0};
    return idle(2, operand_length(code + 1, form, *code == 0x1f), 0);
}

/* Those with a number behind the operand. Of f6 and f7 only the tests have one, and divisions may panic. */
static struct instruction with_number(const unsigned char *code, const struct form *form) {
    size_t operand = operand_length(code + 1, form, false), number = form->is_short ? 2 : 4;
    unsigned which = code[1] >> 3 & 7;
    if (IS_ONE_OF(*code, "\x80\x83\xc0\xc1\xc6\x6b")) return idle(1, operand, 1);
    if (IS_ONE_OF(*code, "\x81\xc7\x69")) return idle(1, operand, number);
    if (which > 3) return (struct instruction){OTHER, 0, 0};
    return idle(1, operand, which > 1 ? 0 : *code == 0xf6 ? 1 : number);
}

static struct instruction of_one_byte(const unsigned char *code, const struct form *form) {
    size_t number = form->is_short ? 2 : 4;
    int32_t distance;
    memcpy(&distance, code + 1, sizeof distance);
    if (*code == 0x90 || *code == 0x98 || *code == 0x99) return (struct instruction){IDLE, 1, 0};
    if (*code == 0xe8) return (struct instruction){CALL, 5, distance};
    if (*code == 0xe9) return (struct instruction){JUMP, 5, distance};
    if (*code == 0xeb) return (struct instruction){JUMP, 2, (signed char)code[1]};
    if ((*code & 0xf0) == 0x70) return (struct instruction){BRANCH, 2, (signed char)code[1]};
    if ((*code & 0xf8) == 0xb8) return (struct instruction){IDLE, form->is_wide ? 9 : 1 + number, 0};
    if ((*code & 0xc6) == 0x04 || *code == 0xa8 || *code == 0xa9) return (struct instruction){IDLE, 1 + (*code & 1 ? number : 1), 0};
    if (*code == 0x8d) return idle(1, operand_length(code + 1, form, true), 0);
    if ((*code & 0xc4) == 0 || IS_ONE_OF(*code, "\x63\x84\x85\x88\x89\x8a\x8b\xd0\xd1\xd2\xd3"))
        return idle(1, operand_length(code + 1, form, false), 0);
    if (*code == 0xfe || *code == 0xff) return idle(1, code[1] >> 3 & 6 ? 0 : operand_length(code + 1, form, false), 0);
    if (IS_ONE_OF(*code, "\x80\x81\x83\xc0\xc1\xc6\xc7\x69\x6b\xf6\xf7")) return with_number(code, form);
    return (struct instruction){OTHER, 0, 0};
}

static struct instruction instruction_at(const unsigned char *at) {
    const unsigned char *code = at;
    struct form form = {0};
    for (; *code == 0x66 || *code == 0xf2 || *code == 0xf3; code++) form.is_short |= *code == 0x66;
    if ((*code & 0xf0) == 0x40) {
        form.is_wide = *code & 8;
        form.has_high_base = *code & 3;
        code++;
    }
    struct instruction it = *code == 0x0f ? of_two_bytes(code + 1, &form) : of_one_byte(code, &form);
    it.length += (size_t)(code - at);
    return it;
}

/* Whether the code does nothing but end its function, by `call runtime.racefuncexit`, on each way that it may go. A loop uses all steps
 * up. */
static bool leads_to_end(const unsigned char *code, bool may_jump, int *steps) {
    while ((*steps)-- > 0) {
        struct instruction it = instruction_at(code);
        const unsigned char *next = code + it.length, *to = next + it.distance;
        if (it.kind == CALL) return (aero_code((word)to + 1)->is & IS_HOOK) != 0;
        if (it.kind != IDLE && (it.kind == OTHER || !may_jump)) return false;
        if (it.kind == BRANCH && !leads_to_end(to, may_jump, steps)) return false;
        code = it.kind == JUMP ? to : next;
    }
    return false;
}

bool aero_leads_to_end(word at, bool may_jump) {
    int steps = 500;
    return leads_to_end((const unsigned char *)at, may_jump, &steps);
}

/* A plain interpreter in C for guests of A32 instructions, to compare `llsc solo` with. It is compiled and called so, by the words
   of that command,

       cc -std=c11 -O2 interpreter.c -o interpreter
       ./interpreter solo [--budget N] FILE.elf

   and prints the same report, so that scripts which try or measure `llsc` take it too. `docs/GUESTS.md` says which instructions
   there are, what a guest finds at its start, its calls and its stops.

   An instruction is decoded where it is first met, into a table with an entry for each word of memory, and a switch carries it
   out. No segment is both written and run, so what is decoded stays as it is. There is one thread, and nothing is proved. The
   compiler is GCC or Clang. */
#include <stdbool.h>
#include <stdint.h>
#include <stdio.h>
#include <stdlib.h>
#include <string.h>

enum { BYTES = 1 << 20, STACK = 4096, SEGMENTS = 64, MOST_OUTPUT = 65536, LONGEST_FILE = 1 << 25 };
enum { SP = 13, LR = 14, PC = 15, REGISTERS = 16 };
enum { V = 1, C = 2, Z = 4, N = 8 }; /* the flags, as bits of one number */

/* The kinds of instructions: none that is known yet, data processing in the order of its opcodes, and all others. */
enum kind {
    UNKNOWN, AND, EOR, SUB, RSB, ADD, ADC, SBC, RSC, TST, TEQ, CMP, CMN, ORR, MOV, BIC, MVN,
    UNDEFINED, UNPREDICTABLE, NOTHING, MOVE_TOP,
    MULTIPLY, MULTIPLY_ADD, MULTIPLY_SUBTRACT, UNSIGNED_LONG, SIGNED_LONG,
    COUNT_ZEROS, REVERSE, EXTEND_BYTE, EXTEND_HALF, EXTEND_SIGNED_BYTE, EXTEND_SIGNED_HALF,
    LOAD_WORD, LOAD_BYTE, LOAD_HALF, LOAD_SIGNED_BYTE, LOAD_SIGNED_HALF, STORE_WORD, STORE_BYTE, STORE_HALF,
    LOAD_BLOCK, STORE_BLOCK, BRANCH, BRANCH_REGISTER, CALL, LOAD_EXCLUSIVE, STORE_EXCLUSIVE, CLEAR_EXCLUSIVE
};

/* The forms of an operand, which is a shifter's or an offset: a number, as also where there is none; register m as it is, shifted
   by a number or by register a, or turned by one bit through the carry. And the shifts, by their encodings. */
enum form { NUMBER, REGISTER, BY_NUMBER, BY_REGISTER, WITH_CARRY };
enum shift { LSL, LSR, ASR, ROR };

/* How a load or a store uses its base. */
enum index { PLAIN, BEFORE, AFTER };

struct instruction {
    uint8_t kind, form, shift;
    uint8_t d, n, m, a; /* registers: d is set or stored (Rd, Rt, RdHi), n is the base or first operand, m the second, a another */
    uint8_t index;      /* of a load or a store; the bytes of an exclusive, and of a block */
    bool sets;          /* the flags */
    bool option;        /* a number that is turned; an offset that is taken away; a link; a long product that is added */
    uint16_t fails;     /* bit f is set where the condition fails by flags f */
    uint32_t number;    /* an immediate, an offset, how far to shift or to branch, or a list of registers with more */
};

enum { UP = 1 << 16, FIRST_MOVED = 1 << 17, BASE_MOVED = 1 << 18 }; /* beside the list of registers of a block */

struct segment { uint32_t start, end; bool written, run; };

enum stop { RUNNING, EXIT, UNDEFINED_WORD, UNPREDICTABLE_WORD, THUMB, ALIGNMENT, OUTSIDE, READ_ONLY, BUDGET };
static const char *const stop_names[] = {
    [EXIT] = "exit", [UNDEFINED_WORD] = "undefined", [UNPREDICTABLE_WORD] = "unpredictable", [THUMB] = "thumb",
    [ALIGNMENT] = "alignment", [OUTSIDE] = "outside", [READ_ONLY] = "readonly", [BUDGET] = "budget",
};

static const uint32_t NO_ROW = UINT32_MAX;

struct machine {
    uint32_t r[REGISTERS]; /* r15 is the address of the instruction in hand plus 8 */
    uint32_t next;         /* the address of the instruction that comes next */
    unsigned flags;
    uint32_t row;          /* the row that is reserved, eight bytes wide, or NO_ROW */
    uint64_t steps, reads, writes, fails;
    enum stop stop;
    uint32_t stop_value;   /* the code, or the address */
    uint32_t read_only_start, read_only_end; /* all segments that are not written lie in between */
    struct segment segments[SEGMENTS];
    unsigned count;
    uint32_t written;      /* bytes of the output */
    uint8_t output[MOST_OUTPUT];
    uint8_t bytes[BYTES];
    struct instruction code[BYTES / 4];
};

/* Bits of a word from `low` up. */
static uint32_t bits(uint32_t word, unsigned low, unsigned count) { return word >> low & ((1u << count) - 1); }

static uint32_t turned(uint32_t x, unsigned amount) { return amount == 0 ? x : x >> amount | x << (32 - amount); }

/* The flags by which a condition fails, bit f for flags f. */
static uint16_t failing_flags(unsigned condition) {
    uint16_t fails = 0;
    for (unsigned f = 0; f < 16; f += 1) {
        bool n = f & N, z = f & Z, c = f & C, v = f & V;
        bool holds[8] = {z, c, n, v, c && !z, n == v, !z && n == v, true}; /* EQ CS MI VS HI GE GT AL */
        if (holds[condition / 2] == (condition % 2 == 1))                   /* an odd condition is the other way round */
            fails |= 1u << f;
    }
    return fails;
}

/* Decoding. Each function is told a word of its class, and fills in what it finds; `i` has its condition already. Where one gives
   up, the word is no instruction of the subset. */

static void is_unpredictable_if(struct instruction *i, bool is) {
    if (is)
        *i = (struct instruction){.kind = UNPREDICTABLE};
}

static void decode_shift(struct instruction *i, uint32_t word) {
    i->m = bits(word, 0, 4);
    i->shift = bits(word, 5, 2);
    i->number = bits(word, 7, 5);
    i->form = BY_NUMBER;
    if (i->number == 0) { /* it is no shift, one by 32, or a turn through the carry */
        i->form = i->shift == LSL ? REGISTER : i->shift == ROR ? WITH_CARRY : BY_NUMBER;
        i->number = 32;
    }
}

static bool decode_data(struct instruction *i, uint32_t word) {
    unsigned kind = AND + bits(word, 21, 4), n = bits(word, 16, 4), d = bits(word, 12, 4);
    bool sets = bits(word, 20, 1), compares = kind >= TST && kind <= CMN;
    if ((compares && (!sets || d != 0)) || ((kind == MOV || kind == MVN) && n != 0))
        return false;
    i->kind = kind;
    i->sets = sets;
    i->d = d;
    i->n = n;
    if (bits(word, 25, 1)) {
        i->form = NUMBER;
        i->number = turned(bits(word, 0, 8), 2 * bits(word, 8, 4));
        i->option = bits(word, 8, 4) != 0;
    } else if (!bits(word, 4, 1)) {
        decode_shift(i, word);
    } else {
        i->form = BY_REGISTER;
        i->m = bits(word, 0, 4);
        i->shift = bits(word, 5, 2);
        i->a = bits(word, 8, 4);
        is_unpredictable_if(i, n == PC || d == PC || i->a == PC || i->m == PC);
        return true;
    }
    is_unpredictable_if(i, sets && !compares && d == PC);
    return true;
}

/* Branches to registers, and CLZ. */
static bool decode_miscellaneous(struct instruction *i, uint32_t word) {
    i->m = bits(word, 0, 4);
    i->d = bits(word, 12, 4);
    if ((word & 0x0FFFFFD0) == 0x012FFF10) {
        i->kind = BRANCH_REGISTER;
        i->option = bits(word, 5, 1);
        is_unpredictable_if(i, i->option && i->m == PC);
    } else if ((word & 0x0FFF0FF0) == 0x016F0F10) {
        i->kind = COUNT_ZEROS;
        is_unpredictable_if(i, i->d == PC || i->m == PC);
    } else {
        return false;
    }
    return true;
}

static bool decode_product(struct instruction *i, uint32_t word) {
    unsigned which = bits(word, 21, 3);
    i->d = bits(word, 16, 4);
    i->a = bits(word, 12, 4);
    i->m = bits(word, 8, 4);
    i->n = bits(word, 0, 4);
    i->sets = bits(word, 20, 1);
    if (which == 0 && i->a == 0)
        i->kind = MULTIPLY;
    else if (which == 1)
        i->kind = MULTIPLY_ADD;
    else if (which == 3 && !i->sets)
        i->kind = MULTIPLY_SUBTRACT;
    else if (which >= 4)
        i->kind = which < 6 ? UNSIGNED_LONG : SIGNED_LONG;
    else
        return false;
    i->option = which % 2 == 1;
    is_unpredictable_if(i, i->d == PC || i->a == PC || i->m == PC || i->n == PC || (which >= 4 && i->d == i->a));
    return true;
}

static bool decode_exclusive(struct instruction *i, uint32_t word) {
    static const uint8_t sizes[4] = {4, 8, 1, 2};
    bool load = bits(word, 20, 1), pair = bits(word, 21, 2) == 1;
    if (!bits(word, 23, 1) || bits(word, 8, 4) != 15 || (load && bits(word, 0, 4) != 15))
        return false;
    i->kind = load ? LOAD_EXCLUSIVE : STORE_EXCLUSIVE;
    i->index = sizes[bits(word, 21, 2)];
    i->n = bits(word, 16, 4);
    i->a = bits(word, 12, 4);                     /* the status of a store */
    i->d = load ? i->a : bits(word, 0, 4);        /* what is loaded or stored */
    bool clashes = !load && (i->a == i->n || i->a == i->d || (pair && i->a == i->d + 1) || i->a == PC);
    is_unpredictable_if(i, i->n == PC || i->d == PC || clashes || (pair && (i->d % 2 == 1 || i->d == LR)));
    return true;
}

/* The registers and the index of a load or a store. */
static bool decode_access(struct instruction *i, uint32_t word) {
    bool before = bits(word, 24, 1), moved = bits(word, 21, 1);
    i->n = bits(word, 16, 4);
    i->d = bits(word, 12, 4);
    i->option = !bits(word, 23, 1);
    i->index = !before ? AFTER : moved ? BEFORE : PLAIN;
    return before || !moved;
}

static bool moves_badly(const struct instruction *i) { return i->index != PLAIN && (i->n == PC || i->n == i->d); }

static bool decode_word_access(struct instruction *i, uint32_t word) {
    bool byte = bits(word, 22, 1), load = bits(word, 20, 1), by_register = bits(word, 25, 1);
    if (!decode_access(i, word))
        return false;
    i->kind = load ? (byte ? LOAD_BYTE : LOAD_WORD) : byte ? STORE_BYTE : STORE_WORD;
    i->form = NUMBER;
    i->number = bits(word, 0, 12);
    if (by_register)
        decode_shift(i, word);
    is_unpredictable_if(i, moves_badly(i) || (byte && i->d == PC) || (by_register && i->m == PC));
    return true;
}

static bool decode_half_access(struct instruction *i, uint32_t word) {
    static const uint8_t loads[4] = {UNDEFINED, LOAD_HALF, LOAD_SIGNED_BYTE, LOAD_SIGNED_HALF};
    bool by_register = !bits(word, 22, 1);
    i->kind = bits(word, 20, 1) ? loads[bits(word, 5, 2)] : STORE_HALF;
    if (!decode_access(i, word) || (i->kind == STORE_HALF && bits(word, 5, 2) != 1) || (by_register && bits(word, 8, 4) != 0))
        return false;
    i->form = by_register ? REGISTER : NUMBER;
    i->m = bits(word, 0, 4);
    i->number = bits(word, 8, 4) << 4 | bits(word, 0, 4);
    is_unpredictable_if(i, moves_badly(i) || i->d == PC || (by_register && i->m == PC));
    return true;
}

static bool decode_block(struct instruction *i, uint32_t word) {
    uint32_t list = bits(word, 0, 16);
    bool load = bits(word, 20, 1), moved = bits(word, 21, 1);
    if (bits(word, 22, 1))
        return false;
    i->kind = load ? LOAD_BLOCK : STORE_BLOCK;
    i->n = bits(word, 16, 4);
    i->index = 4 * __builtin_popcount(list);
    i->number = list | (bits(word, 23, 1) ? UP : 0) | (bits(word, 24, 1) ? FIRST_MOVED : 0) | (moved ? BASE_MOVED : 0);
    bool lowest = (list & ((1u << i->n) - 1)) == 0;
    is_unpredictable_if(i, i->n == PC || list == 0 || (moved && list >> i->n & 1 && (load || !lowest)));
    return true;
}

/* Extended parts, and the bytes of a word the other way round. */
static bool decode_media(struct instruction *i, uint32_t word) {
    static const uint8_t extends[4] = {EXTEND_SIGNED_BYTE, EXTEND_SIGNED_HALF, EXTEND_BYTE, EXTEND_HALF};
    i->d = bits(word, 12, 4);
    i->m = bits(word, 0, 4);
    if ((word & 0x0FFF0FF0) == 0x06BF0F30) {
        i->kind = REVERSE;
    } else if ((word & 0x0FAF03F0) == 0x06AF0070) {
        i->kind = extends[2 * bits(word, 22, 1) + bits(word, 20, 1)];
        i->number = 8 * bits(word, 10, 2);
    } else {
        return false;
    }
    is_unpredictable_if(i, i->d == PC || i->m == PC);
    return true;
}

/* MOVW, MOVT, NOP and YIELD. */
static bool decode_wide(struct instruction *i, uint32_t word) {
    i->d = bits(word, 12, 4);
    i->form = NUMBER;
    i->number = bits(word, 16, 4) << 12 | bits(word, 0, 12);
    if ((word & 0x0FFFFFFE) == 0x0320F000) {
        i->kind = NOTHING;
        return true;
    }
    if (bits(word, 20, 2) != 0)
        return false;
    i->kind = bits(word, 22, 1) ? MOVE_TOP : MOV;
    is_unpredictable_if(i, i->d == PC);
    return true;
}

static bool decode_conditional(struct instruction *i, uint32_t word) {
    bool without_flags = bits(word, 23, 2) == 2 && !bits(word, 20, 1); /* where a compare would set none */
    switch (bits(word, 25, 3)) {
    case 0:
        if (bits(word, 4, 4) == 9)
            return bits(word, 24, 1) ? decode_exclusive(i, word) : decode_product(i, word);
        if (bits(word, 4, 1) && bits(word, 7, 1))
            return decode_half_access(i, word);
        return without_flags ? decode_miscellaneous(i, word) : decode_data(i, word);
    case 1: return without_flags ? decode_wide(i, word) : decode_data(i, word);
    case 2: return decode_word_access(i, word);
    case 3: return bits(word, 4, 1) ? decode_media(i, word) : decode_word_access(i, word);
    case 4: return decode_block(i, word);
    case 5:
        i->kind = BRANCH;
        i->option = bits(word, 24, 1);
        i->number = 8 + 4 * (bits(word, 0, 23) - (word & 1u << 23));
        return true;
    case 7:
        i->kind = CALL;
        i->number = bits(word, 0, 24);
        return bits(word, 24, 1);
    default: return false;
    }
}

static struct instruction decode(uint32_t word) {
    struct instruction i = {.kind = UNDEFINED};
    if (word == 0xF57FF01F)
        return (struct instruction){.kind = CLEAR_EXCLUSIVE};
    if ((word & 0xFFFFFFC0) == 0xF57FF040 && bits(word, 4, 2) != 3)
        return (struct instruction){.kind = NOTHING}; /* a barrier */
    if (word >> 28 == 15 || !decode_conditional(&i, word))
        return (struct instruction){.kind = UNDEFINED};
    if (i.kind != UNPREDICTABLE) /* which stops also where the condition fails */
        i.fails = failing_flags(word >> 28);
    return i;
}

/* Memory. What may go wrong stops the thread, and gives false. */

static bool stops(struct machine *m, enum stop stop, uint32_t value) {
    m->stop = stop;
    m->stop_value = value;
    return false;
}

static uint32_t word_at(const uint8_t *bytes) {
    return bytes[0] | (uint32_t)bytes[1] << 8 | (uint32_t)bytes[2] << 16 | (uint32_t)bytes[3] << 24;
}

static void put_word(uint8_t *bytes, uint32_t value) {
    bytes[0] = (uint8_t)value;
    bytes[1] = (uint8_t)(value >> 8);
    bytes[2] = (uint8_t)(value >> 16);
    bytes[3] = (uint8_t)(value >> 24);
}

static bool is_read_only(const struct machine *m, uint32_t start, uint32_t end) {
    if (end <= m->read_only_start || start >= m->read_only_end)
        return false;
    for (unsigned k = 0; k < m->count; k += 1)
        if (!m->segments[k].written && start < m->segments[k].end && m->segments[k].start < end)
            return true;
    return false;
}

static inline bool may_load(struct machine *m, uint32_t addr, uint32_t size) {
    if (addr % size != 0)
        return stops(m, ALIGNMENT, addr);
    return addr <= BYTES - size || stops(m, OUTSIDE, addr);
}

static inline bool may_store(struct machine *m, uint32_t addr, uint32_t size) {
    return may_load(m, addr, size) && (!is_read_only(m, addr, addr + size) || stops(m, READ_ONLY, addr));
}

static inline bool load(struct machine *m, uint32_t addr, uint32_t size, uint32_t *value) {
    if (!may_load(m, addr, size))
        return false;
    const uint8_t *bytes = m->bytes + addr;
    *value = size == 4 ? word_at(bytes) : size == 2 ? bytes[0] | (uint32_t)bytes[1] << 8 : bytes[0];
    m->reads += 1;
    return true;
}

/* Stores where that may be done already; it ends a reservation on the row. */
static inline void put(struct machine *m, uint32_t addr, uint32_t size, uint32_t value) {
    uint8_t *bytes = m->bytes + addr;
    if (size == 4) {
        put_word(bytes, value);
    } else {
        bytes[0] = (uint8_t)value;
        if (size == 2)
            bytes[1] = (uint8_t)(value >> 8);
    }
    if (addr / 8 == m->row)
        m->row = NO_ROW;
}

static inline bool store(struct machine *m, uint32_t addr, uint32_t size, uint32_t value) {
    if (!may_store(m, addr, size))
        return false;
    put(m, addr, size, value);
    m->writes += 1;
    return true;
}

/* Registers. */

/* Goes to an address: only A32 instructions are run, and they lie at multiples of 4. */
static bool go(struct machine *m, uint32_t addr) {
    if (addr % 2 == 1)
        return stops(m, THUMB, m->r[PC] - 8);
    if (addr % 4 == 2)
        return stops(m, UNPREDICTABLE_WORD, m->r[PC] - 8);
    m->next = addr;
    return true;
}

static inline bool set(struct machine *m, unsigned d, uint32_t value) {
    if (d == PC)
        return go(m, value);
    m->r[d] = value;
    return true;
}

static inline unsigned signs(uint32_t value) { return (value >> 31 ? N : 0) | (value == 0 ? Z : 0); }

/* A sum, and all flags by it, if they are to be set. */
static inline uint32_t sum(struct machine *m, bool sets, uint32_t x, uint32_t y, unsigned carry) {
    uint64_t whole = (uint64_t)x + y + carry;
    uint32_t value = (uint32_t)whole;
    if (sets)
        m->flags = signs(value) | (whole >> 32 ? C : 0) | (((x ^ value) & (y ^ value)) >> 31 ? V : 0);
    return value;
}

/* A shift by 1 to 255, and the last bit that it moves out. */
static uint32_t shifted(enum shift shift, uint32_t x, unsigned amount, unsigned *carry) {
    switch (shift) {
    case LSL:
        *carry = amount > 32 ? 0 : (uint64_t)x << amount >> 32 & 1;
        return amount > 31 ? 0 : x << amount;
    case LSR:
        *carry = amount > 32 ? 0 : x >> (amount - 1) & 1;
        return amount > 31 ? 0 : x >> amount;
    case ASR:
        *carry = (int32_t)x >> (amount > 32 ? 31 : amount - 1) & 1;
        return (uint32_t)((int32_t)x >> (amount > 31 ? 31 : amount));
    default:
        x = turned(x, amount % 32);
        *carry = x >> 31;
        return x;
    }
}

/* The operand, and the shifter's carry. */
static inline uint32_t operand(const struct machine *m, const struct instruction *i, unsigned *carry) {
    unsigned old = m->flags / C % 2, amount;
    uint32_t x = m->r[i->m];
    *carry = old;
    switch (i->form) {
    case NUMBER:
        if (i->option)
            *carry = i->number >> 31;
        return i->number;
    case REGISTER: return x;
    case BY_NUMBER: return shifted(i->shift, x, i->number, carry);
    case WITH_CARRY:
        *carry = x & 1;
        return x >> 1 | old << 31;
    default:
        amount = m->r[i->a] & 0xFF;
        return amount == 0 ? x : shifted(i->shift, x, amount, carry);
    }
}

/* Instructions. Each gives false where it stops the thread. `y` is the operand. */

/* A sum in a register. */
static inline bool set_sum(struct machine *m, const struct instruction *i, uint32_t x, uint32_t y, unsigned carry) {
    return set(m, i->d, sum(m, i->sets, x, y, carry));
}

/* The flags by the result of a logical operation, if they are to be set. */
static inline void set_signs(struct machine *m, const struct instruction *i, uint32_t value, unsigned carry) {
    if (i->sets)
        m->flags = signs(value) | (carry ? C : 0) | (m->flags & V);
}

static inline bool set_logical(struct machine *m, const struct instruction *i, uint32_t value, unsigned carry) {
    set_signs(m, i, value, carry);
    return set(m, i->d, value);
}

static inline void multiply(struct machine *m, const struct instruction *i) {
    uint32_t value = m->r[i->n] * m->r[i->m];
    if (i->kind == MULTIPLY_ADD)
        value += m->r[i->a];
    else if (i->kind == MULTIPLY_SUBTRACT)
        value = m->r[i->a] - value;
    m->r[i->d] = value;
    if (i->sets)
        m->flags = signs(value) | (m->flags & (C | V));
}

static inline void multiply_long(struct machine *m, const struct instruction *i) {
    uint32_t x = m->r[i->n], y = m->r[i->m];
    uint64_t value = i->kind == SIGNED_LONG ? (uint64_t)((int64_t)(int32_t)x * (int32_t)y) : (uint64_t)x * y;
    if (i->option)
        value += (uint64_t)m->r[i->d] << 32 | m->r[i->a];
    m->r[i->a] = (uint32_t)value;
    m->r[i->d] = (uint32_t)(value >> 32);
    if (i->sets)
        m->flags = (value >> 63 ? N : 0) | (value == 0 ? Z : 0) | (m->flags & (C | V));
}

/* The address of a load or a store; its base is set to `back` afterwards. */
static inline uint32_t address(const struct machine *m, const struct instruction *i, uint32_t y, uint32_t *back) {
    uint32_t base = m->r[i->n], moved = i->option ? base - y : base + y;
    *back = i->index == PLAIN ? base : moved;
    return i->index == AFTER ? base : moved;
}

static inline bool carry_out_load(struct machine *m, const struct instruction *i, uint32_t y, uint32_t size) {
    uint32_t back, value;
    if (!load(m, address(m, i, y, &back), size, &value))
        return false;
    m->r[i->n] = back; /* r15 is made anew for each instruction */
    if (i->kind == LOAD_SIGNED_BYTE)
        value = (uint32_t)(int8_t)value;
    else if (i->kind == LOAD_SIGNED_HALF)
        value = (uint32_t)(int16_t)value;
    return set(m, i->d, value);
}

static inline bool carry_out_store(struct machine *m, const struct instruction *i, uint32_t y, uint32_t size) {
    uint32_t back, addr = address(m, i, y, &back);
    if (!store(m, addr, size, m->r[i->d]))
        return false;
    m->r[i->n] = back;
    return true;
}

/* A block of registers, the lowest one at the lowest address. Nothing is accessed where one of the words may not be. */
static bool carry_out_block(struct machine *m, const struct instruction *i, bool loads) {
    uint32_t base = m->r[i->n], moved = i->number & UP ? base + i->index : base - i->index;
    uint32_t lowest = i->number & UP ? base : moved;
    if (!(i->number & FIRST_MOVED) == !(i->number & UP))
        lowest += 4;
    for (uint32_t k = 0; k < i->index; k += 4)
        if (!(loads ? may_load(m, lowest + k, 4) : may_store(m, lowest + k, 4)))
            return false;
    uint32_t addr = lowest, value = 0;
    for (uint32_t rest = i->number & 0xFFFF; rest != 0; rest &= rest - 1, addr += 4) {
        unsigned r = __builtin_ctz(rest);
        if (!loads) {
            put(m, addr, 4, m->r[r]);
            continue;
        }
        value = word_at(m->bytes + addr);
        if (r != PC)
            m->r[r] = value;
    }
    *(loads ? &m->reads : &m->writes) += i->index / 4;
    if (i->number & BASE_MOVED)
        m->r[i->n] = moved;
    return !loads || !(i->number >> PC & 1) || go(m, value);
}

static bool load_exclusive(struct machine *m, const struct instruction *i) {
    uint32_t addr = m->r[i->n], size = i->index;
    if (!may_load(m, addr, size))
        return false;
    load(m, addr, size == 8 ? 4 : size, &m->r[i->d]); /* of a doubleword the low half */
    if (size == 8)
        m->r[i->d + 1] = word_at(m->bytes + addr + 4);
    m->row = addr / 8;
    return true;
}

static bool store_exclusive(struct machine *m, const struct instruction *i) {
    uint32_t addr = m->r[i->n], size = i->index;
    if (!may_store(m, addr, size))
        return false;
    bool stored = addr / 8 == m->row;
    m->row = NO_ROW;
    if (stored)
        put(m, addr, size == 8 ? 4 : size, m->r[i->d]);
    if (stored && size == 8)
        put(m, addr + 4, 4, m->r[i->d + 1]);
    *(stored ? &m->writes : &m->fails) += 1;
    m->r[i->a] = !stored;
    return true;
}

/* A write's answer. Each of its bytes counts as a load. */
static uint32_t write_output(struct machine *m, uint32_t descriptor, uint32_t addr, uint32_t count) {
    if (descriptor != 1 && descriptor != 2)
        return -9;
    if (count == 0)
        return 0;
    if ((uint64_t)addr + count > BYTES)
        return -14;
    if ((uint64_t)m->written + count > MOST_OUTPUT)
        return -28;
    memcpy(m->output + m->written, m->bytes + addr, count);
    m->written += count;
    m->reads += count;
    return count;
}

static bool carry_out_call(struct machine *m, uint32_t immediate) {
    uint32_t number = immediate == 0 ? m->r[7] : 0;
    if (number == 1) {
        m->steps += 1; /* the call is a step, though the thread stops */
        return stops(m, EXIT, m->r[0] & 0xFF);
    }
    m->r[0] = number == 4 ? write_output(m, m->r[0], m->r[1], m->r[2]) : number == 158 ? 0 : (uint32_t)-38;
    return true;
}

/* Decodes the instruction at an address, where one may be run. */
static bool meet(struct machine *m, uint32_t addr) {
    for (unsigned k = 0; k < m->count; k += 1)
        if (m->segments[k].run && m->segments[k].start <= addr && addr + 4 <= m->segments[k].end) {
            m->code[addr / 4] = decode(word_at(m->bytes + addr));
            return true;
        }
    return stops(m, OUTSIDE, addr);
}

static inline bool carry_out(struct machine *m, const struct instruction *i) {
    unsigned carry, old = m->flags / C % 2;
    uint32_t *r = m->r, x = r[i->n], y = operand(m, i, &carry);
    switch (i->kind) {
    case AND: return set_logical(m, i, x & y, carry);
    case EOR: return set_logical(m, i, x ^ y, carry);
    case SUB: return set_sum(m, i, x, ~y, 1);
    case RSB: return set_sum(m, i, ~x, y, 1);
    case ADD: return set_sum(m, i, x, y, 0);
    case ADC: return set_sum(m, i, x, y, old);
    case SBC: return set_sum(m, i, x, ~y, old);
    case RSC: return set_sum(m, i, ~x, y, old);
    case TST: set_signs(m, i, x & y, carry); return true;
    case TEQ: set_signs(m, i, x ^ y, carry); return true;
    case CMP: sum(m, true, x, ~y, 1); return true;
    case CMN: sum(m, true, x, y, 0); return true;
    case ORR: return set_logical(m, i, x | y, carry);
    case MOV: return set_logical(m, i, y, carry);
    case BIC: return set_logical(m, i, x & ~y, carry);
    case MVN: return set_logical(m, i, ~y, carry);
    case MOVE_TOP: r[i->d] = y << 16 | (r[i->d] & 0xFFFF); return true;
    case MULTIPLY: case MULTIPLY_ADD: case MULTIPLY_SUBTRACT: multiply(m, i); return true;
    case UNSIGNED_LONG: case SIGNED_LONG: multiply_long(m, i); return true;
    case COUNT_ZEROS: r[i->d] = r[i->m] == 0 ? 32 : __builtin_clz(r[i->m]); return true;
    case REVERSE: r[i->d] = __builtin_bswap32(r[i->m]); return true;
    case EXTEND_BYTE: r[i->d] = (uint8_t)turned(r[i->m], y); return true;
    case EXTEND_HALF: r[i->d] = (uint16_t)turned(r[i->m], y); return true;
    case EXTEND_SIGNED_BYTE: r[i->d] = (uint32_t)(int8_t)turned(r[i->m], y); return true;
    case EXTEND_SIGNED_HALF: r[i->d] = (uint32_t)(int16_t)turned(r[i->m], y); return true;
    case LOAD_WORD: return carry_out_load(m, i, y, 4);
    case LOAD_HALF: case LOAD_SIGNED_HALF: return carry_out_load(m, i, y, 2);
    case LOAD_BYTE: case LOAD_SIGNED_BYTE: return carry_out_load(m, i, y, 1);
    case STORE_WORD: return carry_out_store(m, i, y, 4);
    case STORE_HALF: return carry_out_store(m, i, y, 2);
    case STORE_BYTE: return carry_out_store(m, i, y, 1);
    case LOAD_BLOCK: return carry_out_block(m, i, true);
    case STORE_BLOCK: return carry_out_block(m, i, false);
    case BRANCH:
        if (i->option)
            r[LR] = r[PC] - 4;
        m->next = r[PC] - 8 + y;
        return true;
    case BRANCH_REGISTER:
        x = r[i->m];
        if (i->option)
            r[LR] = r[PC] - 4;
        return go(m, x);
    case CALL: return carry_out_call(m, y);
    case LOAD_EXCLUSIVE: return load_exclusive(m, i);
    case STORE_EXCLUSIVE: return store_exclusive(m, i);
    case CLEAR_EXCLUSIVE: m->row = NO_ROW; return true;
    case NOTHING: return true;
    case UNPREDICTABLE: return stops(m, UNPREDICTABLE_WORD, r[PC] - 8);
    default: return stops(m, UNDEFINED_WORD, r[PC] - 8);
    }
}

/* Runs the thread until it stops. */
static void run(struct machine *m, uint64_t budget) {
    while (m->steps < budget) {
        uint32_t pc = m->next;
        if (pc >= BYTES) {
            stops(m, OUTSIDE, pc);
            return;
        }
        const struct instruction *i = &m->code[pc / 4];
        if (i->kind == UNKNOWN && !meet(m, pc))
            return;
        m->r[PC] = pc + 8;
        m->next = pc + 4;
        if (!(i->fails >> m->flags & 1) && !carry_out(m, i))
            return;
        m->steps += 1;
    }
    m->stop = BUDGET;
}

/* The file. */

static uint32_t half_at(const uint8_t *bytes) { return bytes[0] | (uint32_t)bytes[1] << 8; }

/* Makes memory of an ELF file; false where it is none that is accepted. */
static bool take_file(struct machine *m, const uint8_t *file, size_t length) {
    static const uint8_t start[20] = {0x7F, 'E', 'L', 'F', 1, 1, [16] = 2, [18] = 40}; /* 32 bits, little-endian, executable, Arm */
    if (length < 52 || memcmp(file, start, 6) != 0 || memcmp(file + 16, start + 16, 4) != 0)
        return false;
    uint32_t headers = word_at(file + 28), count = half_at(file + 44);
    if (half_at(file + 42) != 32 || count > SEGMENTS || headers > length || count > (length - headers) / 32)
        return false;
    m->read_only_start = BYTES;
    for (uint32_t k = 0; k < count; k += 1) {
        const uint8_t *header = file + headers + 32 * k;
        uint32_t kind = word_at(header), offset = word_at(header + 4), addr = word_at(header + 8), in_file = word_at(header + 16);
        uint32_t in_memory = word_at(header + 20), flags = word_at(header + 24);
        if (kind == 2 || kind == 3) /* it wants a dynamic linker */
            return false;
        if (kind != 1 || in_memory == 0)
            continue;
        struct segment segment = {addr, addr + in_memory, flags & 2, flags & 1};
        if (addr > BYTES - STACK || in_memory > BYTES - STACK - addr || in_file > in_memory || offset > length ||
            in_file > length - offset || (segment.written && segment.run))
            return false;
        memcpy(m->bytes + addr, file + offset, in_file);
        m->segments[m->count++] = segment;
        if (!segment.written) {
            m->read_only_start = addr < m->read_only_start ? addr : m->read_only_start;
            m->read_only_end = segment.end > m->read_only_end ? segment.end : m->read_only_end;
        }
    }
    m->next = word_at(file + 24);
    return m->next % 4 == 0 && m->next < BYTES && meet(m, m->next);
}

static bool read_file(struct machine *m, const char *name) {
    static uint8_t file[LONGEST_FILE + 1];
    FILE *from = fopen(name, "rb");
    if (from == NULL)
        return false;
    size_t length = fread(file, 1, sizeof file, from);
    fclose(from);
    return length <= LONGEST_FILE && take_file(m, file, length);
}

int main(int argc, char **argv) {
    struct machine *m = calloc(1, sizeof *m);
    unsigned long long budget = 100000000;
    if (argc == 5 && strcmp(argv[2], "--budget") == 0)
        budget = strtoull(argv[3], NULL, 10);
    else if (argc != 3)
        argc = 0;
    if (argc == 0 || strcmp(argv[1], "solo") != 0) {
        fputs("usage: interpreter solo [--budget N] FILE.elf\n", stderr);
        return 2;
    }
    if (m == NULL || !read_file(m, argv[argc - 1])) {
        fprintf(stderr, "interpreter: %s is no ELF file that is run here\n", argv[argc - 1]);
        return 4;
    }
    m->r[1] = 1; /* the number of threads; r0 is the thread's own, 0 */
    m->r[SP] = BYTES;
    m->row = NO_ROW;
    run(m, budget);
    printf("thread 0 stop %s ", stop_names[m->stop]);
    if (m->stop == EXIT)
        printf("%u", m->stop_value);
    else if (m->stop == BUDGET)
        printf("%llu", budget);
    else
        printf("%08x", m->stop_value);
    printf(" steps %llu out %u\n", (unsigned long long)m->steps, m->written);
    fwrite(m->output, 1, m->written, stdout);
    printf("\nreads %llu writes %llu fails %llu\n", (unsigned long long)m->reads, (unsigned long long)m->writes,
           (unsigned long long)m->fails);
    int status = m->stop != EXIT || m->stop_value != 0;
    free(m);
    return status;
}

/* The instructions of RV64IMA with Zicsr, and those of S-mode. The bits of an instruction are named as the manual names them. */
#include "rv64.h"

enum opcode {
    LOAD = 0x03, MISC_MEM = 0x0f, OP_IMM = 0x13, AUIPC = 0x17, OP_IMM_32 = 0x1b, STORE = 0x23, AMO = 0x2f, OP = 0x33, LUI = 0x37,
    OP_32 = 0x3b, BRANCH = 0x63, JALR = 0x67, JAL = 0x6f, SYSTEM = 0x73
};
enum word { ECALL = 0x00000073, EBREAK = 0x00100073, SRET = 0x10200073, WFI = 0x10500073 };
enum { SFENCE_VMA = 0x09 }; /* funct7 */
enum csr {
    SSTATUS = 0x100, SIE = 0x104, STVEC = 0x105, SSCRATCH = 0x140, SEPC = 0x141, SCAUSE = 0x142, STVAL = 0x143, SIP = 0x144, SATP = 0x180
};

static uint64_t sign_extended(uint64_t value, unsigned bits) {
    const uint64_t sign = UINT64_C(1) << (bits - 1);
    value &= 2 * sign - 1;
    return (value ^ sign) - sign;
}

static unsigned bits(uint32_t word, unsigned from, unsigned count) { return word >> from & ((1u << count) - 1); }

static unsigned rd(uint32_t word) { return bits(word, 7, 5); }
static unsigned rs1(uint32_t word) { return bits(word, 15, 5); }
static unsigned rs2(uint32_t word) { return bits(word, 20, 5); }
static unsigned funct3(uint32_t word) { return bits(word, 12, 3); }
static unsigned funct7(uint32_t word) { return bits(word, 25, 7); }

static uint64_t immediate_i(uint32_t word) { return sign_extended(word >> 20, 12); }
static uint64_t immediate_s(uint32_t word) { return sign_extended(bits(word, 25, 7) << 5 | bits(word, 7, 5), 12); }
static uint64_t immediate_u(uint32_t word) { return sign_extended(word & 0xfffff000, 32); }

static uint64_t immediate_b(uint32_t word) {
    return sign_extended(bits(word, 31, 1) << 12 | bits(word, 7, 1) << 11 | bits(word, 25, 6) << 5 | bits(word, 8, 4) << 1, 13);
}

static uint64_t immediate_j(uint32_t word) {
    return sign_extended(bits(word, 31, 1) << 20 | bits(word, 12, 8) << 12 | bits(word, 20, 1) << 11 | bits(word, 21, 10) << 1, 21);
}

static void illegal(struct hart *hart, uint32_t word) { trap(hart, ILLEGAL, word); }

static int is_less(uint64_t a, uint64_t b) { return (a ^ UINT64_C(1) << 63) < (b ^ UINT64_C(1) << 63); }

static uint64_t shifted_right(uint64_t a, unsigned by, int is_arithmetic) {
    const uint64_t fill = is_arithmetic && a >> 63 != 0 && by != 0 ? UINT64_MAX << (64 - by) : 0;
    return a >> by | fill;
}

/* The operations of I; with other: SUB for ADD, SRA for SRL. */
static uint64_t computed(unsigned operation, int other, uint64_t a, uint64_t b) {
    switch (operation) {
    case 0: return other ? a - b : a + b;
    case 1: return a << (b & 63);
    case 2: return is_less(a, b);
    case 3: return a < b;
    case 4: return a ^ b;
    case 5: return shifted_right(a, b & 63, other);
    case 6: return a | b;
    default: return a & b;
    }
}

/* Those of 32 bits: ADDW or SUBW, SLLW, SRLW or SRAW. */
static uint64_t computed_w(unsigned operation, int other, uint64_t a, uint64_t b) {
    if (operation == 0) return sign_extended(other ? a - b : a + b, 32);
    if (operation == 1) return sign_extended(a << (b & 31), 32);
    return sign_extended(shifted_right(other ? sign_extended(a, 32) : a & 0xffffffff, b & 31, other), 32);
}

/* The upper 64 bits of a product of unsigned numbers, by halves. */
static uint64_t upper_product(uint64_t a, uint64_t b) {
    const uint64_t low_a = a & 0xffffffff, high_a = a >> 32, low_b = b & 0xffffffff, high_b = b >> 32;
    const uint64_t middle = high_a * low_b + (low_a * low_b >> 32);
    const uint64_t other = low_a * high_b + (middle & 0xffffffff);
    return high_a * high_b + (middle >> 32) + (other >> 32);
}

static uint64_t magnitude(uint64_t a) { return a >> 63 != 0 ? -a : a; }

/* A division by 0 answers all ones and leaves the dividend; the one that overflows comes out right in unsigned numbers. */
static uint64_t quotient(uint64_t a, uint64_t b) {
    const uint64_t q = b == 0 ? 0 : magnitude(a) / magnitude(b);
    if (b == 0) return UINT64_MAX;
    return (a ^ b) >> 63 != 0 ? -q : q;
}

static uint64_t remainder_of(uint64_t a, uint64_t b) {
    const uint64_t r = b == 0 ? magnitude(a) : magnitude(a) % magnitude(b);
    return a >> 63 != 0 ? -r : r;
}

/* The operations of M. */
static uint64_t multiplied(unsigned operation, uint64_t a, uint64_t b) {
    switch (operation) {
    case 0: return a * b;
    case 1: return upper_product(a, b) - (a >> 63 != 0 ? b : 0) - (b >> 63 != 0 ? a : 0);
    case 2: return upper_product(a, b) - (a >> 63 != 0 ? b : 0);
    case 3: return upper_product(a, b);
    case 4: return quotient(a, b);
    case 5: return b == 0 ? UINT64_MAX : a / b;
    case 6: return remainder_of(a, b);
    default: return b == 0 ? a : a % b;
    }
}

/* MULW, DIVW, DIVUW, REMW and REMUW: on numbers of 32 bits, extended as the operation takes them. */
static uint64_t multiplied_w(unsigned operation, uint64_t a, uint64_t b) {
    const int is_unsigned = operation == 5 || operation == 7;
    a = is_unsigned ? a & 0xffffffff : sign_extended(a, 32);
    b = is_unsigned ? b & 0xffffffff : sign_extended(b, 32);
    return sign_extended(multiplied(operation, a, b), 32);
}

/* OP and OP-32. */
static void register_operation(struct hart *hart, uint32_t word, int is_w) {
    const unsigned operation = funct3(word), kind = funct7(word);
    const uint64_t a = hart->x[rs1(word)], b = hart->x[rs2(word)];
    const int is_shift_or_add = operation == 0 || operation == 1 || operation == 5;
    if (kind == 1 && !(is_w && operation >= 1 && operation <= 3)) {
        hart->x[rd(word)] = is_w ? multiplied_w(operation, a, b) : multiplied(operation, a, b);
    } else if ((kind == 0 && (!is_w || is_shift_or_add)) || (kind == 0x20 && (operation == 0 || operation == 5))) {
        hart->x[rd(word)] = is_w ? computed_w(operation, kind != 0, a, b) : computed(operation, kind != 0, a, b);
    } else {
        illegal(hart, word);
    }
}

/* OP-IMM and OP-IMM-32. Of a shift the bits above its amount tell which one it is. */
static void immediate_operation(struct hart *hart, uint32_t word, int is_w) {
    const unsigned operation = funct3(word), kind = is_w ? funct7(word) : funct7(word) & 0x7e;
    const int is_shift = operation == 1 || operation == 5;
    const uint64_t a = hart->x[rs1(word)], b = immediate_i(word);
    const int other = operation == 5 && kind == 0x20;
    if ((is_shift && kind != 0 && !other) || (is_w && operation != 0 && !is_shift)) {
        illegal(hart, word);
    } else {
        hart->x[rd(word)] = is_w ? computed_w(operation, other, a, b) : computed(operation, other, a, b);
    }
}

static void load_register(struct hart *hart, uint32_t word) {
    const unsigned size = 1u << (funct3(word) & 3);
    uint64_t value;
    if (funct3(word) == 7) {
        illegal(hart, word);
    } else if (load(hart, MLE_LOAD, hart->x[rs1(word)] + immediate_i(word), size, &value)) {
        hart->x[rd(word)] = funct3(word) >= 4 ? value : sign_extended(value, 8 * size);
    }
}

static void store_register(struct hart *hart, uint32_t word) {
    if (funct3(word) > 3) {
        illegal(hart, word);
    } else {
        store(hart, hart->x[rs1(word)] + immediate_s(word), 1u << funct3(word), hart->x[rs2(word)]);
    }
}

/* A jump: the return address goes into a register only if the target can be gone to. */
static void jump(struct hart *hart, uint64_t target, unsigned link) {
    const uint64_t back = hart->pc + 4;
    if (target % 4 != 0) {
        trap(hart, MISALIGNED_FETCH, target);
    } else {
        hart->next = target;
        hart->x[link] = back;
    }
}

static void branch(struct hart *hart, uint32_t word) {
    const uint64_t a = hart->x[rs1(word)], b = hart->x[rs2(word)];
    int is_taken;
    switch (funct3(word) >> 1) {
    case 0: is_taken = a == b; break;
    case 2: is_taken = is_less(a, b); break;
    case 3: is_taken = a < b; break;
    default: illegal(hart, word); return;
    }
    if (is_taken != (int)(funct3(word) & 1)) jump(hart, hart->pc + immediate_b(word), 0);
}

/* What an AMO stores, of the word that it loaded and its register. */
static uint64_t amo_result(unsigned operation, uint64_t old, uint64_t value) {
    switch (operation) {
    case 0x00: return old + value;
    case 0x01: return value;
    case 0x04: return old ^ value;
    case 0x08: return old | value;
    case 0x0c: return old & value;
    case 0x10: return is_less(old, value) ? old : value;
    case 0x14: return is_less(old, value) ? value : old;
    case 0x18: return old < value ? old : value;
    default: return old < value ? value : old;
    }
}

static int is_amo(unsigned operation) { return operation == 1 || (operation % 4 == 0 && operation <= 0x1c); }

/* AMO: LR is a load, SC and each other is a store. */
static void atomic(struct hart *hart, uint32_t word) {
    const unsigned operation = funct7(word) >> 2, size = 1u << (funct3(word) & 3);
    const int is_lr = operation == 2, is_sc = operation == 3;
    uint64_t value = sign_extended(hart->x[rs2(word)], 8 * size), pa, old;
    if ((funct3(word) != 2 && funct3(word) != 3) || (is_lr ? rs2(word) != 0 : !is_sc && !is_amo(operation))) {
        illegal(hart, word);
        return;
    }
    if (!reach(hart, is_lr ? MLE_LOAD : MLE_STORE, hart->x[rs1(word)], size, &pa)) return;
    old = sign_extended(ram_load(pa, size), 8 * size);
    if (is_sc) {
        old = hart->reserved != pa; /* the answer: 0 if it stores */
        if (old == 0) ram_store(pa, size, value);
        hart->reserved = NOTHING;
    } else if (is_lr) {
        hart->reserved = pa;
    } else {
        ram_store(pa, size, amo_result(operation, old, value));
    }
    hart->x[rd(word)] = old;
}

/* A control register: where it is and which of its bits can be written to, or NULL. */
static uint64_t *csr(struct hart *hart, unsigned number, uint64_t *writable) {
    *writable = UINT64_MAX;
    switch (number) {
    case SSTATUS: *writable = SSTATUS_SIE | SSTATUS_SPIE | SSTATUS_SPP | SSTATUS_SUM | SSTATUS_MXR; return &hart->sstatus;
    case SIE: *writable = SSIP; return &hart->sie;
    case STVEC: *writable = ~UINT64_C(3); return &hart->stvec;
    case SSCRATCH: return &hart->sscratch;
    case SEPC: *writable = ~UINT64_C(3); return &hart->sepc;
    case SCAUSE: return &hart->scause;
    case STVAL: return &hart->stval;
    case SIP: *writable = SSIP; return &hart->sip;
    case SATP: return &hart->satp;
    default: return NULL;
    }
}

/* A satp with a MODE that is none is not written at all (4.1.11). */
static int is_satp(uint64_t satp) { return satp >> 60 == MLE_BARE || satp >> 60 == MLE_SV39 || satp >> 60 == MLE_SV48; }

/* CSRRW, CSRRS and CSRRC, and those with an immediate. The last two write nothing where their field is 0. */
static void access_csr(struct hart *hart, uint32_t word) {
    const unsigned number = word >> 20, operation = funct3(word) & 3;
    const uint64_t operand = (funct3(word) & 4) != 0 ? rs1(word) : hart->x[rs1(word)];
    const uint64_t upper_half = number == SSTATUS ? UINT64_C(2) << 32 : 0; /* UXL: U-mode has 64 bits */
    uint64_t writable, old, value, *there = csr(hart, number, &writable);
    if (hart->mode == MLE_USER || there == NULL) {
        illegal(hart, word);
        return;
    }
    old = *there;
    value = operation == 1 ? operand : operation == 2 ? old | operand : old & ~operand;
    value = (old & ~writable) | (value & writable);
    if ((operation == 1 || rs1(word) != 0) && (number != SATP || is_satp(value))) *there = value;
    hart->x[rd(word)] = old | upper_half;
}

/* SRET. */
static void return_from_trap(struct hart *hart) {
    hart->mode = (hart->sstatus & SSTATUS_SPP) != 0 ? MLE_SUPERVISOR : MLE_USER;
    hart->sstatus &= ~(uint64_t)(SSTATUS_SIE | SSTATUS_SPP);
    if ((hart->sstatus & SSTATUS_SPIE) != 0) hart->sstatus |= SSTATUS_SIE;
    hart->sstatus |= SSTATUS_SPIE;
    hart->next = hart->sepc;
}

/* SYSTEM without control registers. An ECALL from S-mode is for the firmware. */
static void system_operation(struct hart *hart, uint32_t word) {
    const struct mle_fence registers = {hart->x[rs1(word)], hart->x[rs2(word)], rs1(word) != 0, rs2(word) != 0};
    if (word == ECALL && hart->mode == MLE_USER) {
        trap(hart, ECALL_FROM_U, 0);
    } else if (word == ECALL) {
        firmware(hart);
    } else if (word == EBREAK) {
        trap(hart, BREAKPOINT, hart->pc);
    } else if (hart->mode == MLE_USER) {
        illegal(hart, word);
    } else if (word == SRET) {
        return_from_trap(hart);
    } else if (funct7(word) == SFENCE_VMA && rd(word) == 0) {
        fence(hart, &registers);
    } else if (word != WFI) { /* WFI does nothing but to end the turn */
        illegal(hart, word);
    }
}

static void execute(struct hart *hart, uint32_t word) {
    switch (word & 0x7f) {
    case LOAD: load_register(hart, word); break;
    case MISC_MEM: break; /* FENCE, FENCE.I: each access is done at once, and in order */
    case OP_IMM: immediate_operation(hart, word, 0); break;
    case AUIPC: hart->x[rd(word)] = hart->pc + immediate_u(word); break;
    case OP_IMM_32: immediate_operation(hart, word, 1); break;
    case STORE: store_register(hart, word); break;
    case AMO: atomic(hart, word); break;
    case OP: register_operation(hart, word, 0); break;
    case LUI: hart->x[rd(word)] = immediate_u(word); break;
    case OP_32: register_operation(hart, word, 1); break;
    case BRANCH: branch(hart, word); break;
    case JALR:
        if (funct3(word) == 0) {
            jump(hart, (hart->x[rs1(word)] + immediate_i(word)) & ~UINT64_C(1), rd(word));
        } else {
            illegal(hart, word);
        }
        break;
    case JAL: jump(hart, hart->pc + immediate_j(word), rd(word)); break;
    case SYSTEM:
        if ((funct3(word) & 3) != 0) {
            access_csr(hart, word);
        } else if (funct3(word) == 0) {
            system_operation(hart, word);
        } else {
            illegal(hart, word);
        }
        break;
    default: illegal(hart, word);
    }
}

int step(struct hart *hart) {
    const int may_interrupt = hart->mode == MLE_USER || (hart->sstatus & SSTATUS_SIE) != 0;
    uint64_t word = 0;
    hart->next = hart->pc + 4;
    if (may_interrupt && (hart->sip & hart->sie & SSIP) != 0) {
        trap(hart, UINT64_C(1) << 63 | 1, 0);
    } else if (load(hart, MLE_FETCH, hart->pc, 4, &word)) {
        execute(hart, (uint32_t)word);
        hart->x[0] = 0;
    }
    hart->pc = hart->next;
    return word != WFI;
}

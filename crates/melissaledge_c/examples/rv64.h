/* A small emulator of RV64IMA with Zicsr, S-mode and U-mode: what its parts share. rv64.c has the memory path, which is by
 * melissaledge.h alone, the firmware and the turns of the harts; rv64_instructions.c has what the instructions do. */
#ifndef RV64_H
#define RV64_H

#include "melissaledge.h"

#define HARTS 4

struct hart {
    uint64_t x[32], pc, next; /* next: where the hart goes on after this instruction */
    uint64_t sstatus, sie, stvec, sscratch, sepc, scause, stval, sip, satp;
    uint64_t reserved; /* the word that LR reserved, by its physical address, or NOTHING */
    struct mle_tlb *tlb;
    uint8_t mode; /* enum mle_mode */
    uint8_t is_started;
};

#define NOTHING UINT64_MAX

enum { SSTATUS_SIE = 0x2, SSTATUS_SPIE = 0x20, SSTATUS_SPP = 0x100, SSTATUS_SUM = 0x40000, SSTATUS_MXR = 0x80000 };
enum { SSIP = 0x2 }; /* the one interrupt that there is: a software interrupt */
enum cause { MISALIGNED_FETCH = 0, ILLEGAL = 2, BREAKPOINT = 3, ECALL_FROM_U = 8 };

/* rv64.c. An access answers 1; else the hart took a trap and it answers 0. size is 1, 2, 4 or 8 bytes. */
int load(struct hart *hart, enum mle_access_kind kind, uint64_t va, unsigned size, uint64_t *value);
int store(struct hart *hart, uint64_t va, unsigned size, uint64_t value);
int reach(struct hart *hart, enum mle_access_kind kind, uint64_t va, unsigned size, uint64_t *pa);
uint64_t ram_load(uint64_t pa, unsigned size);
void ram_store(uint64_t pa, unsigned size, uint64_t value);
void fence(struct hart *hart, const struct mle_fence *fence);
void trap(struct hart *hart, uint64_t cause, uint64_t value);
void firmware(struct hart *hart);

/* rv64_instructions.c. Does one instruction; 0 if it was WFI, so that the turn may end. */
int step(struct hart *hart);

#endif

# Where harts begin, and the accesses to pages of processes, which may fault.

        .section .text.start
        .globl  _start, hart_start
# The firmware jumps here on one hart, its number in a0. This one has it start the others at hart_start.
_start:
        li      a1, 1
        j       1f
hart_start:
        li      a1, 0
1:      la      sp, stacks
        addi    t0, a0, 1
        slli    t0, t0, 12
        add     sp, sp, t0              # 4 KiB a hart
        la      t0, trap
        csrw    stvec, t0
        li      t0, 1 << 18             # SUM: the kernel may use the pages of processes
        csrs    sstatus, t0
        li      t0, 2                   # SSIE: a software interrupt ends WFI; it is not taken, as SIE is 0
        csrw    sie, t0
        call    hart_main

        .text
        .balign 4
# A page fault, of user_load or user_store, which have no use for t0: it goes on behind the access, with all ones in a0.
# Anything else ends the run.
trap:
        csrr    t0, scause
        addi    t0, t0, -13             # load page fault
        beqz    t0, 1f
        addi    t0, t0, -2              # store page fault
        beqz    t0, 1f
        j       halt
1:      csrr    t0, sepc
        addi    t0, t0, 4
        csrw    sepc, t0
        li      a0, -1
        sret

        .option norvc                   # the accesses are 4 bytes long
        .globl  user_load, user_store
# The word at the address a0.
user_load:
        ld      a0, 0(a0)
        ret
# Stores the word a1 at the address a0.
user_store:
        sd      a1, 0(a0)
        ret

        .bss
        .balign 16
stacks: .space  4 * 4096

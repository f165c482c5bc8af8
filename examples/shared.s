# Two mills share one card by ASID: for kernel programmers, one User address that leads each mill to a page of its own.
#
# The kernel writes three TLB slots, none of them global, and from then on none:
#   slot 0, mill A (ASID 1): 00400000 its program, 00401000 its data
#   slot 1, mill B (ASID 2): the same two addresses, onto frames of B's
#   slot 2, mill B (ASID 2): 00402000, B's entry
# While A runs, EntryHi holds ASID 1 and no slot of B's matches. So A reads its own word (of the two slots one matches; both would be stop 16),
# and its load from 00402000 is a refill, as if B were not on the card. The kernel notes it, and then B runs.
# Registers are neither saved nor cleared between the mills, so that all can be read at the end; a kernel for work would do both.
# After the run: s0 = A's word, s1 = A's result, s2 = 0 (where A wanted B's entry), s3 = Cause 8 (code 2, TLBL) of A's refill and
# s4 = its address, s5 = B's word, s6 = B's entry, k0 = Cause 20h: B's system call.

        .set    noreorder
        .set    noat
        .equ    MILL_A, 1               # ASIDs
        .equ    MILL_B, 2
        .equ    PROGRAM, 0x00400000     # where each mill finds its program
        .equ    ENTRY, 0x00402000       # where B finds its entry
        .equ    FRAME, 64               # EntryLo: the frame's number from bit 6 up
        .equ    READ, 2                 # valid; not dirty (read only), not global
        .equ    WRITE, 6                # valid and dirty (writable); not global
        .equ    USER, 0x12              # Status: User mode, CU0 clear; EXL is set, so Kernel mode until ERET

        .macro  slot number, page, even, odd # writes a TLB slot
        li      $k0, \number
        mtc0    $k0, $0                 # Index
        li      $k0, \page
        mtc0    $k0, $10                # EntryHi: the page and the ASID
        li      $k0, \even
        mtc0    $k0, $2                 # EntryLo0
        li      $k0, \odd
        mtc0    $k0, $3                 # EntryLo1
        nop
        tlbwi
        .endm

        .text
        .globl  __start
        .org    0x000                   # 80000000: refill
        mfc0    $s3, $13                # s3 = Cause
        mfc0    $s4, $8                 # s4 = BadVAddr, the address that A wanted
        b       enter                   # A is over; now B
        li      $k1, MILL_B             # (in the slot)

        .org    0x180                   # 80000180: every other exception; here B's system call
        mfc0    $k0, $13                # k0 = Cause
idle:   b       idle
        nop

        .org    0x200
__start:
        slot    0, PROGRAM+MILL_A, 2*FRAME+READ, 3*FRAME+WRITE # physical 2000 and 3000
        slot    1, PROGRAM+MILL_B, 4*FRAME+READ, 5*FRAME+WRITE # physical 4000 and 5000
        slot    2, ENTRY+MILL_B, 6*FRAME+WRITE, 0 # physical 6000; nothing at 00403000
        li      $k0, USER
        mtc0    $k0, $12
        li      $k1, MILL_A             # A first
enter:  mtc0    $k1, $10                # EntryHi: the ASID of the mill that runs
        lui     $k0, PROGRAM >> 16
        mtc0    $k0, $14                # EPC = its program, the same address for both
        nop
        eret

        .section .mill_a, "awx"         # at 80002000; A sees it at 00400000
        lui     $t0, PROGRAM >> 16
        lw      $s0, 0x1000($t0)        # its own word
        addiu   $s1, $s0, 1
        sw      $s1, 0x1000($t0)        # its result, in the word's place
        lw      $s2, 0x2000($t0)        # B's entry: a refill, and s2 stays as it was
        b       .                       # never reached
        nop
        .org    0x1000                  # its data
        .word   0x0000a001              # A's word

        .section .mill_b, "awx"         # at 80004000; B sees it at 00400000
        lui     $t0, PROGRAM >> 16
        lw      $s5, 0x1000($t0)        # its own word, from the address that A stored to
        lw      $s6, 0x2000($t0)        # its entry
        syscall                         # done
        .org    0x1000                  # its data
        .word   0x0000b001              # B's word
        .org    0x2000                  # its entry
        .word   0x0000be01

# What the benchmark's programs share: the boot ROM and the kernel's handler. A program sets STATUS, then includes this file.
#
# The boot ROM fills three slots of the TLB, sets the timer and goes to the program at 00400000, in the mode that STATUS says.
# It is left for good after 37 steps.

        .set    noreorder
        .set    noat
        .equ    PERIOD, 1000            # steps from one timer interrupt to the next

        .macro  slot number, page, frame, flags
        li      $t0, \number
        mtc0    $t0, $0                 # Index
        li      $t0, \page + 1          # address space 1
        mtc0    $t0, $10                # EntryHi
        li      $t0, \frame * 64 + \flags
        mtc0    $t0, $2                 # EntryLo0
        addiu   $t0, $t0, 64
        mtc0    $t0, $3                 # EntryLo1
        tlbwi
        .endm

        .section .boot, "ax"            # bfc00000
        slot    5, 0x400000, 2, 0x1a    # code, valid
        slot    17, 0x10000000, 4, 0x1e # data, valid and dirty
        slot    30, 0x7fffe000, 6, 0x1e # stack, valid and dirty
        li      $t0, PERIOD
        mtc0    $t0, $11                # Compare
        lui     $t0, 0x40
        mtc0    $t0, $14                # EPC

        .section .start, "ax"           # bfc00088, right behind it: all that differs from program to program
        li      $t0, STATUS
        mtc0    $t0, $12                # Status
        eret

        .section .kernel, "ax"          # 80000180
        mfc0    $k0, $13                # Cause
        andi    $k0, $k0, 0x7c
stuck:  bne     $k0, $zero, stuck       # only interrupts are expected
        mfc0    $k1, $11                # Compare
        addiu   $k1, $k1, PERIOD
        mtc0    $k1, $11
        lui     $k0, 0x8000
        lw      $k1, 0x800($k0)         # interrupts counted
        addiu   $k1, $k1, 1
        sw      $k1, 0x800($k0)
        eret

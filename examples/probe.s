# A probe of the processor in User mode: what does a division by zero leave? Mills' programs ask this before they test a head.
#
# A zero divisor raises nothing. The card leaves the dividend in HI; in LO all ones, or 1 where DIV's dividend is negative.
# (Of `div $t2, $t0, $t1` the assembler makes a test of the divisor too, and a BREAK; with $zero first it is the one instruction.)
# The program divides -7 and 7 by zero, then -7 as an unsigned number. If each leaves what the cards leave it files CARD, else OTHER.
# After the run: v0 = 1 result, v1 = CARD, s0 and s1 = LO and HI of DIV -7, s2 and s3 of DIV 7, s4 and s5 of DIVU fffffff9.

        .set    noreorder
        .equ    OTHER, 0                # another processor: its program would not test the head
        .equ    CARD, 1                 # the card
        .equ    DONE, 0                 # services of the kernel
        .equ    FILE, 1

        .text
        .globl  __start
__start:
        li      $t0, -7
        li      $t1, 7
        li      $t2, 1
        li      $t3, -1                 # all ones
        li      $a0, OTHER
        div     $zero, $t0, $zero       # -7: below zero
        mflo    $s0
        mfhi    $s1
        bne     $s0, $t2, told
        nop
        bne     $s1, $t0, told
        nop
        div     $zero, $t1, $zero       # 7: zero or more
        mflo    $s2
        mfhi    $s3
        bne     $s2, $t3, told
        nop
        bne     $s3, $t1, told
        nop
        divu    $zero, $t0, $zero       # fffffff9, which is 4294967289 here; in HI it is sign-extended
        mflo    $s4
        mfhi    $s5
        bne     $s4, $t3, told
        nop
        bne     $s5, $t0, told
        nop
        li      $a0, CARD
told:   li      $v0, FILE
        syscall
        li      $v0, DONE
        syscall

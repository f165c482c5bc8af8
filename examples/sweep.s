# A solenoid sweep in User mode: each of 16 coils is switched on in turn and its current judged; the results go to the kernel.
#
# The program stands at 00400000 and its data at 00401000; the kernel beneath it is front/kernel.s.
# Results that it files: first the coils whose current is out of limits, one bit each (coil 0 is the lowest bit), then the mean current.
# After the run: v0 = 2 results, v1 = the mean, s0 = the bad coils, s1 = the sum of all currents in milliamps.

        .set    noreorder
        .equ    COILS, 16
        .equ    LOW, 180                # a good coil draws 180 to 260 milliamps
        .equ    HIGH, 260
        .equ    DONE, 0                 # services of the kernel
        .equ    FILE, 1

        .text
        .globl  __start
__start:
        la      $t0, current            # t0 walks along the table of currents
        la      $t1, coils              # t1 = the word that switches the coils
        li      $t2, 1                  # t2 = the coil that is on, as one bit
        li      $s0, 0                  # s0 = bad coils
        li      $s1, 0                  # s1 = sum
        li      $t3, COILS              # t3 = coils left
sweep:  sw      $t2, 0($t1)             # this coil on, all others off
        lhu     $t4, 0($t0)             # its current
        addiu   $t0, $t0, 2
        addu    $s1, $s1, $t4
        sltiu   $t5, $t4, LOW           # too low?
        sltiu   $t6, $t4, HIGH + 1      # not too high?
        xori    $t6, $t6, 1
        or      $t5, $t5, $t6
        beqz    $t5, good
        addiu   $t3, $t3, -1            # (in the slot, so always) one coil less
        or      $s0, $s0, $t2           # bad: note its bit
good:   bnez    $t3, sweep
        sll     $t2, $t2, 1             # (in the slot) the next coil
        sw      $zero, 0($t1)           # all coils off

        move    $a0, $s0                # file the bad coils
        li      $v0, FILE
        syscall
        li      $t7, COILS              # file the mean
        divu    $zero, $s1, $t7
        mflo    $a0
        li      $v0, FILE
        syscall
        li      $v0, DONE
        syscall

        .data
coils:  .word   0
current: .half  212, 208, 215, 210, 209, 174, 211, 213 # coil 5 is too low: 174
        .half   207, 210, 214, 212, 268, 209, 211, 210 # coil 12 is too high: 268

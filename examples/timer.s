# A timer in Kernel mode: an interrupt every 100 steps, five times; between them the program counts.
#
# Count gains one with each step. When it equals Compare the timer asks for an interrupt (IP7); writing Compare takes the request back.
# After the run: s0 = rounds of the counting loop, s1 = 5 ticks, s2 = Count at the last tick.

        .set    noreorder
        .set    noat
        .equ    EVERY, 100              # steps from tick to tick
        .equ    TICKS, 5
        .equ    TIMER_ON, 0x8001        # Status: IM7 and IE
        .equ    ALL_OFF, 0

        .text
        .org    0x180                   # 80000180: here the card goes on an interrupt
tick:   addiu   $s1, $s1, 1             # one tick more
        mfc0    $s2, $9                 # s2 = Count
        mfc0    $k0, $11                # the next one is due EVERY steps after this one was
        nop
        addiu   $k0, $k0, EVERY
        mtc0    $k0, $11                # and the request is taken back
        li      $k1, TICKS
        beq     $s1, $k1, last
        nop
        eret                            # back to the loop
last:   mtc0    $zero, $12              # after the last tick: no more interrupts
idle:   b       idle
        nop

        .org    0x200
        .globl  __start
__start:
        li      $s0, 0
        li      $s1, 0
        mfc0    $t0, $9
        nop
        addiu   $t0, $t0, EVERY
        mtc0    $t0, $11                # Compare = Count + EVERY
        li      $t1, TIMER_ON
        mtc0    $t1, $12
count:  b       count
        addiu   $s0, $s0, 1             # (in the slot) one round more

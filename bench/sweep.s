# A solenoid sweep in User mode over mapped pages, under a kernel that answers the timer.
#
# A sweep walks along 64 coils of eight bytes each: position (4), step (2), duty (1). bench/assemble makes the tables of this file.

        .equ    STATUS, 0x8013          # IM7, User, EXL, IE
        .include "boot.s"

        .section .user, "ax"            # 00400000
        lui     $sp, 0x7fff
        ori     $sp, $sp, 0xeff0
        lui     $s0, 0x1000
        addiu   $t9, $zero, 64
        addu    $t0, $zero, $zero
fill:   sll     $t1, $t0, 5
        addu    $t1, $t1, $t0
        sw      $t1, 0($s0)             # position
        sll     $t2, $t0, 1
        addiu   $t2, $t2, 3
        sh      $t2, 4($s0)             # step
        addiu   $t3, $t2, 90
        sb      $t3, 6($s0)             # duty
        addiu   $t0, $t0, 1
        bne     $t0, $t9, fill
        addiu   $s0, $s0, 8

sweep:  lui     $s0, 0x1000             # coils
        lui     $s1, 0x1000
        ori     $s1, $s1, 0x1000        # ports
        addiu   $s2, $zero, 64          # coils left
        addu    $s3, $zero, $zero       # drive bits
coil:   lw      $t0, 0($s0)
        lh      $t1, 4($s0)
        lbu     $a1, 6($s0)
        addu    $t0, $t0, $t1
        slti    $t2, $t0, 4000
        bne     $t2, $zero, below
        sra     $t3, $t0, 4
        subu    $t1, $zero, $t1         # at the top: turn round
        sh      $t1, 4($s0)
below:  bgez    $t0, inside
        sw      $t0, 0($s0)
        subu    $t1, $zero, $t1         # at the bottom too
        sh      $t1, 4($s0)
inside: jal     drive
        addu    $a0, $t3, $t1
        andi    $t4, $s2, 31
        addiu   $t5, $zero, 1
        sllv    $t5, $t5, $t4
        slt     $t6, $v0, $s4
        beq     $t6, $zero, off
        sw      $v0, 4($s1)
        or      $s3, $s3, $t5
off:    sw      $s3, 0($s1)
        addiu   $s2, $s2, -1
        bgtz    $s2, coil
        addiu   $s0, $s0, 8
        srl     $t7, $s3, 3
        xor     $s5, $s5, $t7
        j       sweep
        addu    $s6, $s6, $s5

        .section .other, "ax"           # 00401000, the code's other page
drive:  addiu   $sp, $sp, -16
        sw      $ra, 12($sp)
        mult    $a0, $a1
        mflo    $v0
        mfhi    $v1
        sra     $v0, $v0, 8
        xori    $v0, $v0, 0x55
        sll     $t8, $s4, 3             # a mean that follows slowly
        subu    $t8, $t8, $s4
        addu    $t8, $t8, $v0
        sra     $s4, $t8, 3
        lw      $ra, 12($sp)
        jr      $ra
        addiu   $sp, $sp, 16

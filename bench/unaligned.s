# Unaligned loads and stores in Kernel mode over mapped pages, under a handler that answers the timer. In User mode the doubleword
# ones are reserved.
#
# 64 records of 13 bytes each lie side by side: a word (4), a doubleword (8), a byte (1). So each begins at another offset of a
# doubleword than the one before it. A sweep reads them on one data page and writes them anew on the other; then the pages change
# places. bench/assemble makes the tables of this file.

        .equ    STATUS, 0x8003          # IM7, Kernel, EXL, IE
        .include "boot.s"
        .set    gp=64                   # LD and SD are one instruction each
        .equ    RECORD, 13              # bytes of a record
        .equ    RECORDS, 64
        .equ    COUNTS, 0xc00           # 16 words behind the records: how often a byte came

        .section .user, "ax"            # 00400000
        lui     $s0, 0x1000             # the page that is read
        lui     $s1, 0x1000
        ori     $s1, $s1, 0x1000        # the page that is written
        lui     $t0, 0x9e37
        ori     $t0, $t0, 0x79b9
        sw      $t0, 0($s0)
        lui     $t0, 0x7f4a
        ori     $t0, $t0, 0x7c15
        sw      $t0, 4($s0)
        ld      $t1, 0($s0)             # 9e3779b97f4a7c15
        or      $t2, $t1, $zero
        addu    $t3, $s0, $zero
        addiu   $t4, $s0, RECORDS * RECORD
fill:   sd      $t2, 0($t3)             # its multiples, which all differ
        addiu   $t3, $t3, 8
        bne     $t3, $t4, fill
        daddu   $t2, $t2, $t1

sweep:  addu    $s3, $s0, $zero         # the record that is read
        addiu   $s4, $s1, 5             # the record that is written, at another offset
        addiu   $s2, $zero, RECORDS     # records left
record: lwl     $t0, 0($s3)             # its word
        lwr     $t0, 3($s3)
        ldl     $t1, 4($s3)             # its doubleword
        ldr     $t1, 11($s3)
        lbu     $t2, 12($s3)            # its byte
        lwl     $s5, 1($s3)             # parts of registers; the rest is kept
        ldr     $s5, 6($s3)
        ldl     $s6, 9($s3)
        lwr     $s6, 7($s3)
        addu    $s7, $s7, $t0           # the sum of all words
        xor     $t1, $t1, $s5
        bgez    $t0, above
        daddu   $t1, $t1, $s6
        nor     $t1, $t1, $zero         # below zero: turn it round
        addiu   $t2, $t2, 7
above:  sra     $t3, $s7, 5
        xor     $t3, $t3, $s7
        andi    $t4, $t2, 0x3c
        addu    $t4, $t4, $s1
        lw      $t5, COUNTS($t4)
        addu    $t2, $t2, $t3
        addiu   $t5, $t5, 1
        jal     put
        sw      $t5, COUNTS($t4)
        addiu   $s2, $s2, -1
        bgtz    $s2, record
        addiu   $s3, $s3, RECORD
        xor     $t6, $s0, $s1           # the pages change places
        xor     $s0, $s0, $t6
        j       sweep
        xor     $s1, $s1, $t6

        .section .other, "ax"           # 00401000, the code's other page
put:    swl     $t3, 0($s4)             # a record's word
        swr     $t3, 3($s4)
        sdl     $t1, 4($s4)             # its doubleword
        sdr     $t1, 11($s4)
        sb      $t2, 12($s4)            # its byte
        swl     $s5, 8($s4)             # parts over it, and over the end of the one before it
        sdr     $s5, 1($s4)
        sdl     $s6, 10($s4)
        swr     $s6, 2($s4)
        jr      $ra
        addiu   $s4, $s4, RECORD

# A kernel that fills the TLB on demand: for kernel programmers, the refill handler of the R4000 manual with a table of pages.
#
# Context holds the base of the table (80000000) and, after a refill, the missing page's number, so that it is the address of the page
# pair's entry: 80000000 + (address / 2000h) x 16. For addresses from 00400000 the entries stand from 80002000 on, a doubleword for
# EntryLo0 and one for EntryLo1.
# The program stores to four pages and reads two back. Each pair is missed once, at its first use, and then stays in a random slot.
# After the run: s0 = what was stored at 00400000, s1 = at 00403000, s2 = refills, s3 = the sum of the two.

        .set    noreorder
        .set    noat
        .set    gp=64                   # ld is one instruction here
        .equ    FRAME, 64               # EntryLo: the frame's number from bit 6 up
        .equ    RIGHTS, 7               # dirty (writable), valid, global

        .text
        .globl  __start
        .org    0x000                   # 80000000: refill
        mfc0    $k0, $4                 # k0 = Context: the entry of the missing pair
        addiu   $s2, $s2, 1
        ld      $k1, 0($k0)
        dmtc0   $k1, $2                 # EntryLo0
        ld      $k1, 8($k0)
        dmtc0   $k1, $3                 # EntryLo1
        nop
        tlbwr                           # EntryHi names the page already
        nop
        eret

        .org    0x180                   # 80000180: nothing else is expected
        b       .
        nop

        .org    0x200
__start:
        lui     $t0, 0x8000
        mtc0    $t0, $4                 # Context = the base of the table
        li      $t1, 1
        mtc0    $t1, $6                 # Wired = 1: slot 0 is never chosen at random
        lui     $t2, 0x0040
        li      $t3, 0x1111
        sw      $t3, 0x0000($t2)        # page 00400000, first half of its pair
        li      $t3, 0x2222
        sw      $t3, 0x1000($t2)        # its other half: no refill
        li      $t3, 0x3333
        sw      $t3, 0x2000($t2)        # the next pair
        li      $t3, 0x4444
        sw      $t3, 0x3000($t2)
        lw      $s0, 0x0000($t2)
        lw      $s1, 0x3000($t2)
        addu    $s3, $s0, $s1
done:   b       done
        nop

        .section .table, "aw"           # at 80002000: two pairs
        .dword  4 * FRAME + RIGHTS, 5 * FRAME + RIGHTS # 00400000, 00401000: physical 4000, 5000
        .dword  6 * FRAME + RIGHTS, 7 * FRAME + RIGHTS # 00402000, 00403000: physical 6000, 7000

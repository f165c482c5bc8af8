# A module's label, copied from an odd address to another: unaligned words in User mode.
#
# A load of a word must stand at a multiple of 4. LWL and LWR together (ulw to the assembler) load a word that does not, SWL and SWR (usw) store one.
# The label is 16 characters at 00401001; it goes to 00402003, and its characters are added up as a check number, which is filed.
# After the run: v0 = 1 result, v1 = the check number, s1..s4 = the label, four characters each.

        .set    noreorder
        .text
        .globl  __start
__start:
        la      $t0, label
        la      $t1, copy
        ulw     $s1, 0($t0)             # 'MILL'
        ulw     $s2, 4($t0)             # '-07/'
        ulw     $s3, 8($t0)             # 'HEAD'
        ulw     $s4, 12($t0)            # '-113'
        usw     $s1, 0($t1)
        usw     $s2, 4($t1)
        usw     $s3, 8($t1)
        usw     $s4, 12($t1)

        li      $a0, 0                  # a0 = the check number
        addiu   $t2, $t1, 16            # t2 = the end of the copy
add:    lbu     $t3, 0($t1)
        addiu   $t1, $t1, 1
        bne     $t1, $t2, add
        addu    $a0, $a0, $t3           # (in the slot)
        li      $v0, 1                  # file it
        syscall
        li      $v0, 0                  # done
        syscall

        .data
        .byte   0                       # so that the label stands at an odd address
label:  .ascii  "MILL-07/HEAD-113"

        .bss
        .space  3
copy:   .space  16

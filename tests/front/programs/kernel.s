# A kernel of another make, for --kernel: every exception ends in an idle loop that shows Cause in k0.
        .set    noreorder
        .text
        .globl  __start
__start:
        b       general                 # 80000000
        nop
        .org    0x180
general:
        mfc0    $k0, $13
        b       .
        nop
        .data
        .space  5000                    # so that the program's pages start at physical 00002000
        .word   1

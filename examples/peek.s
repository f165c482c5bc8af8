# A User program that tries to read the kernel's page: it gets an exception, and the kernel notes it.
#
# The program may read its own page, and does. Then it loads from 80000400, where the kernel keeps the results of everyone.
# That address is not for User mode, so the load is an address error (AdEL, code 4 in Cause), t1 stays as it was, and the program is over.
# After the run: t0 = its own word, t1 = 0, k0 = Cause 10h, k1 = where the load stands, a0 = the address that it wanted.

        .set    noreorder
        .text
        .globl  __start
__start:
        lw      $t0, own                # its own page: allowed
        lui     $t2, 0x8000
        lw      $t1, 0x400($t2)         # the kernel's page: not allowed
        li      $t0, 0                  # never reached
        li      $v0, 0
        syscall

        .data
own:    .word   0x00c0ffee

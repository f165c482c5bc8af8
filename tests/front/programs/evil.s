# A User program whose sections and symbols have names that a shell or an awk would act on.
        .set    noreorder
        .text
        .globl  __start
__start:
        li      $t0, 7
        break
        .section "x 0+PATH[$(touch${IFS}marker)]", "aw"
        .globl  "a[$(touch marker)]"
"a[$(touch marker)]":
        .word   1
        .globl  "%s%n*"
"%s%n*": .word  2
        .section "`touch marker`", "a"
        .word   3
        .globl  "-name with spaces"
"-name with spaces":
        .word 4

# More code than an image's text can hold.
        .text
        .globl  __start
__start:
        .fill   20000, 1, 1
        .data
        .word   1

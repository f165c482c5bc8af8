# A User program with more data than the RAM has beside the kernel.
        .text
        .globl  __start
__start:
        syscall
        .data
        .space  60000

# A User program with every part that front/user.ld places, each of more than a page.
        .text
        .globl  __start
__start: syscall
        .space  4096
text:   syscall
        .section .rodata.one, "a"
constant: .word 1
        .section .data.two, "aw"
        .space  4096
data:   .word   2
        .bss
        .space  4096
zeros:  .space  4
        .comm   common, 4

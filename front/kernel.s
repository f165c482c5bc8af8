# The kernel beneath a User program: it files results, notes faults, and idles when the program is over.
#
# A program asks for a service by SYSCALL, with the number of the service in v0:
#   v0 = 0   the program is done
#   v0 = 1   file the result in a0; back comes v0 = the row that it stands in, 0 to 31, or -1 if all 32 are taken
# Any other number, any fault, and a SYSCALL in a delay slot end the program.
#
# When the program is over the card idles here until the budget is used up, and these registers say how it went:
#   v0  how many results were filed      v1  the last of them
#   k0  Cause of the last exception      k1  where it happened (EPC; the branch, if in its delay slot)
#   a0  after a fault, the address that was wrong (BadVAddr)
# The same stands in RAM from `filed` on, for ./card state.
        .set    noreorder               # each branch is followed by its delay slot, as written
        .set    noat                    # at belongs to the program
        .text
        .globl  __start
__start:
refill: j       over                    # 80000000: no page for an address; this kernel has no more pages to give
        mfc0    $k0, $13                # (in the slot) k0 = Cause

        .org    0x180                   # 80000180: every other exception
general:
        mfc0    $k0, $13                # k0 = Cause
        andi    $k1, $k0, 0x7c          # its code, times 4
        xori    $k1, $k1, 8 << 2        # 8 is a system call
        bnez    $k1, over
        nop
        bltz    $k0, over               # the top bit says: in a delay slot
        xori    $k1, $v0, 1             # which service?
        bnez    $k1, over               # 0 is done; no other but 1 is built
        nop

file:   lui     $k0, %hi(filed)
        lw      $v0, %lo(filed)($k0)    # v0 = rows taken so far
        nop
        sltiu   $k1, $v0, 32
        beqz    $k1, full
        sll     $k1, $v0, 2
        addu    $k1, $k1, $k0
        sw      $a0, %lo(results)($k1)  # the result into its row
        addiu   $k1, $v0, 1
        b       back
        sw      $k1, %lo(filed)($k0)

full:   li      $v0, -1
back:   mfc0    $k1, $14                # go on after the SYSCALL
        addiu   $k1, $k1, 4
        mtc0    $k1, $14
        nop
        eret

over:   andi    $v1, $k0, 0x7c
        xori    $v1, $v1, 8 << 2
        beqz    $v1, show               # ended by a service
        lui     $k1, %hi(filed)
        mfc0    $a0, $8                 # ended by a fault: a0 = BadVAddr
        nop
        sw      $a0, %lo(address)($k1)
show:   sw      $k0, %lo(cause)($k1)
        mfc0    $v0, $14
        nop
        sw      $v0, %lo(place)($k1)
        lw      $v0, %lo(filed)($k1)    # v0 = rows taken
        nop
        sll     $v1, $v0, 2
        addu    $v1, $v1, $k1
        lw      $v1, %lo(results) - 4($v1) # v1 = the last result
        mfc0    $k1, $14                # k1 = EPC
idle:   b       idle
        nop

        .org    0x400
filed:  .word   0                       # how many results
cause:  .word   0                       # of the exception that ended the program
place:  .word   0                       # where it happened
address: .word  0                       # the address that was wrong
none:   .word   0                       # what v1 shows if nothing was filed
results: .space 32 * 4

# asl exec --steps 3495 --words examples/rv32i/sum.words examples/rv32i.asl
# The sum of the numbers from 1 to 10: 55, in x10.
load
    addi x10, x0, 0         # the sum so far
    addi x5, x0, 10         # the number to add
loop:
    add x10, x10, x5
    addi x5, x5, -1
    bne x5, x0, loop
    ecall
run

# asl exec --steps 1764 --words examples/rv32i/console.words examples/rv32i.asl examples/rv32i/console.asl
# Prints the numbers from 3 down to 1, and ends.
load
    addi x10, x0, 3         # the number to print
    addi x17, x0, 1         # to print
loop:
    ecall
    addi x10, x10, -1
    bne x10, x0, loop
    addi x17, x0, 0         # to end
    ecall
run

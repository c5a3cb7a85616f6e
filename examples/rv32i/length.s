# asl exec --steps 6990 --words examples/rv32i/length.words examples/rv32i.asl
# The length of a string that ends with a zero: 13, in x10. The string stands behind the program.
load
    auipc x6, 0             # x6 = the address of this word, 0
    addi x6, x6, 36         # the string stands 36 bytes behind it
    addi x10, x6, 0
loop:
    lbu x5, 0(x10)
    beq x5, x0, end
    addi x10, x10, 1
    jal x0, loop
end:
    sub x10, x10, x6
    ecall
    .string "Hello, world!"
run

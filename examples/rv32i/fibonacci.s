# asl exec --steps 495992 --words examples/rv32i/fibonacci.words examples/rv32i.asl
# Number 12 of the sequence 0, 1, 1, 2, 3, 5 .. by recursion: 144, in x10. x1 has the return address, x2 the stack.
load
    addi x2, x0, 256        # the stack grows down from the end of memory
    addi x10, x0, 12
    jal x1, fibonacci
    ecall
fibonacci:                  # x10 = the number of x10
    addi x5, x0, 2
    blt x10, x5, done       # 0 and 1 stand for themselves
    addi x2, x2, -12
    sw x1, 0(x2)
    sw x10, 4(x2)
    addi x10, x10, -1
    jal x1, fibonacci
    sw x10, 8(x2)
    lw x10, 4(x2)
    addi x10, x10, -2
    jal x1, fibonacci
    lw x5, 8(x2)
    add x10, x10, x5
    lw x1, 0(x2)
    addi x2, x2, 12
done:
    jalr x0, 0(x1)
run

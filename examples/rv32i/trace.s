# asl exec --steps 10410 --words examples/rv32i/trace.words examples/rv32i.asl
# A trace that has each instruction, with operands at the edges, and each trap. Branches and jumps say how far they go.

# numbers to work with
lui x1, 0x80000             # the least number
addi x2, x0, -1             # the greatest without a sign
addi x3, x0, 2047           # the greatest immediate
addi x4, x0, -2048          # and the least
addi x5, x0, 31
lui x6, 0xfffff
auipc x7, 0x12345           # adds PC, 24
auipc x7, 0
addi x0, x3, 1              # x0 stays zero
add x8, x0, x0

# with an immediate
addi x9, x1, -1             # wraps
slti x10, x1, 0
slti x10, x0, -1
slti x10, x4, -2047
sltiu x10, x0, 1
sltiu x10, x2, -1           # the immediate counts without a sign
sltiu x10, x3, -1
xori x11, x3, -1
xori x11, x2, 0x555
ori x11, x1, 0x0f0
ori x11, x0, -256
andi x11, x2, 0x0f0
andi x11, x9, -256
slli x12, x2, 0
slli x12, x3, 4
slli x12, x2, 31
srli x12, x1, 0
srli x12, x1, 31
srli x12, x2, 4
srai x12, x1, 0
srai x12, x1, 31
srai x12, x9, 4

# of two registers
add x13, x9, x1
add x13, x9, x9
sub x13, x0, x1             # the least number has no negative
sub x13, x3, x4
sll x13, x3, x5
sll x13, x3, x4             # the lowest five bits are 0
sll x13, x3, x3             # and here 31
srl x13, x1, x5
srl x13, x2, x4
sra x13, x1, x5
sra x13, x9, x5
sra x13, x1, x2
slt x14, x1, x9
slt x14, x9, x1
slt x14, x2, x0
slt x14, x3, x3
sltu x14, x1, x9
sltu x14, x9, x1
sltu x14, x2, x0
sltu x14, x0, x2
xor x15, x2, x3
xor x15, x9, x9
or x15, x1, x3
or x15, x4, x5
and x15, x2, x4
and x15, x1, x9

# memory
addi x16, x0, 128
lui x17, 0x87654
addi x17, x17, 0x321
sw x17, 0(x16)
sw x2, 4(x16)
sh x17, 6(x16)
sb x17, 5(x16)
sb x17, -1(x16)
lw x18, 0(x16)
lw x18, 4(x16)
lh x18, 0(x16)
lh x18, 2(x16)
lhu x18, 2(x16)
lb x18, 0(x16)
lb x18, 3(x16)
lbu x18, 3(x16)
lbu x18, -1(x16)
sw x1, 124(x16)             # the last word
lw x18, 124(x16)

# branches, taken and not
beq x1, x1, 8
beq x1, x2, 8
bne x1, x2, 8
bne x1, x1, 8
blt x1, x2, 8
blt x2, x1, 8
blt x1, x1, 8
bge x2, x1, -8
bge x1, x2, -8
bge x1, x1, 4094            # not to a multiple of 4
bltu x1, x2, 4092
bltu x2, x1, 4092
bgeu x2, x1, -4096
bgeu x1, x2, -4096
bgeu x0, x0, 16

# jumps
jal x20, 2048
jal x20, -2048
jal x0, 1048572
jal x0, -1048576
jal x20, 2                  # x20 stays
jalr x21, 1(x16)            # the lowest bit is dropped
jalr x0, -128(x16)
jalr x16, 0(x16)            # the old x16 counts
addi x16, x0, 128
jalr x21, 2(x16)

# the others
fence
ecall
ebreak

# words that are no instruction, loads and stores that fail
.word 0x00000000
.word 0xffffffff
.word 0x40001013            # SLLI with the bits of SRAI
.word 0x02000033            # a multiplication isn't of the base
.word 0x00003003            # a load of 8 bytes
.word 0x00007023
.word 0x00002063
.word 0x00001067
.word 0x0000100f            # FENCE.I
.word 0x00200073
.word 0x000000f3            # ECALL with a register
lh x22, 1(x16)
lhu x22, 3(x16)
lw x22, 2(x16)
sh x2, 1(x16)
sw x2, 3(x16)
lw x22, 128(x16)
lb x22, -1(x0)
sb x2, 128(x16)
sw x2, -4(x0)

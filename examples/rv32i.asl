// RV32I, the base integer instruction set of RISC-V: its 40 instructions over 32 registers and a memory of 256 bytes.
//
// `asl exec` calls `decode`, at the end of this file, for each word of a list. At first a word is executed at once, as if it were
// at PC, so such a list is a trace: the words in the order in which they are fetched. Two words that RISC-V leaves to its users
// (the opcode custom-0) make a computer of it:
//
//   0000000b   the words after this one go to memory, from address 0 on
//   0000100b   runs what is in memory, from address 0 to ECALL or another trap
//
// The lists in rv32i/ are made from the assembly beside them by rv32i/assemble. rv32i/console.asl puts another body in the place of
// the one here that says what ECALL does.

// A type of bits with names for some of them. Fields may overlap, and other slices can be taken too.
type Instruction of bits(32) {[6:0] opcode, [11:7] rd, [14:12] funct3, [19:15] rs1, [24:20] rs2, [31:25] funct7};

// What can go wrong, one type for each cause. `subtypes` makes each of them a Trap too, so that a handler can catch one or all.
// The value is the address or the word that caused it.
type Trap of exception {value: bits(32)};
type FetchMisaligned of Trap subtypes Trap;
type FetchFault of Trap subtypes Trap;
type IllegalInstruction of Trap subtypes Trap;
type Breakpoint of Trap subtypes Trap;
type LoadMisaligned of Trap subtypes Trap;
type LoadFault of Trap subtypes Trap;
type StoreMisaligned of Trap subtypes Trap;
type StoreFault of Trap subtypes Trap;
type EnvironmentCall of Trap subtypes Trap;

type Mode of enumeration {stepping, loading, running};

constant BYTES = 256;
constant LOAD = '0000000 00000 00000 000 00000 0001011';
constant RUN = '0000000 00000 00000 001 00000 0001011';

// The state. At first all of it is zeros, and the mode is `stepping`, the first label.
var registers: array [[32]] of bits(32);
var PC: bits(32);
var memory: array [[BYTES]] of bits(8);
var mode: Mode;

// The five forms of immediates. Several slices in one pair of brackets are put together, the first one on top.
pure func immediate_i(word: Instruction) => bits(32) begin return SignExtend{32}(word[31:20]); end;
pure func immediate_s(word: Instruction) => bits(32) begin return SignExtend{32}(word[31:25, 11:7]); end;
pure func immediate_b(word: Instruction) => bits(32) begin return SignExtend{32}(word[31, 7, 30:25, 11:8] :: '0'); end;
pure func immediate_u(word: Instruction) => bits(32) begin return word[31:12] :: Zeros{12}(); end;
pure func immediate_j(word: Instruction) => bits(32) begin return SignExtend{32}(word[31, 19:12, 20, 30:21] :: '0'); end;

pure func flag(holds: boolean) => bits(32)
begin
  return if holds then Zeros{31}() :: '1' else Zeros{32}();
end;

// A register is read by the getter and written by the setter. x0 is never written, and so reads as zero. A single step prints what
// it changes.
accessor X(number: bits(5)) <=> value: bits(32)
begin
  readonly getter
    return registers[[UInt(number)]];
  end;

  setter
    if number != '00000' then
      registers[[UInt(number)]] = value;
      if mode == stepping then println("x", UInt(number), " = ", SInt(value)); end;
    end;
  end;
end;

// N is a parameter: a width, and a number in the bodies. Its constraint allows the three sizes of a load or a store, and each use is
// checked to have one of them before anything runs. Memory is little-endian; `k *: 8` is the k-th slice of 8 bits.
accessor Memory{N: integer{8, 16, 32}}(address: bits(32)) <=> value: bits(N)
begin
  getter
    let first = UInt(address);
    if first MOD (N DIV 8) != 0 then throw LoadMisaligned{value = address}; end;
    if first + N DIV 8 > BYTES then throw LoadFault{value = address}; end;
    var loaded: bits(N);
    for k = 0 to N DIV 8 - 1 do
      loaded[k *: 8] = memory[[first + k]];
    end;
    return loaded;
  end;

  setter
    let first = UInt(address);
    if first MOD (N DIV 8) != 0 then throw StoreMisaligned{value = address}; end;
    if first + N DIV 8 > BYTES then throw StoreFault{value = address}; end;
    for k = 0 to N DIV 8 - 1 do
      memory[[first + k]] = value[k *: 8];
    end;
    if mode == stepping then println("memory ", first, " = ", SInt(value)); end;
  end;
end;

// What ECALL does. An `implementation` with the same header, in another file, takes the place of this body.
impdef func call_environment()
begin
  throw EnvironmentCall{value = Zeros{32}()};
end;

// The word at PC, which is always aligned.
func fetch() => bits(32)
begin
  let first = UInt(PC);
  if first + 4 > BYTES then throw FetchFault{value = PC}; end;
  return memory[[first + 3]] :: memory[[first + 2]] :: memory[[first + 1]] :: memory[[first]];
end;

// Where a jump may go.
func aligned(address: bits(32)) => bits(32)
begin
  if address[1:0] != '00' then throw FetchMisaligned{value = address}; end;
  return address;
end;

// The address of the word after a branch.
func branch(word: Instruction, taken: boolean) => bits(32)
begin
  if taken then
    return aligned(PC + immediate_b(word));
  else
    return PC + 4;
  end;
end;

// Executes a word. An `x` in a mask matches either digit; spaces don't count. The first alternative that matches is taken. A shift
// by n takes a slice whose width depends on n, and extends it: that the result has 32 bits is checked for all n.
func execute(word: Instruction)
begin
  let left = X(word.rs1);
  let right = X(word.rs2);
  var next = PC + 4;
  case word of
    //    funct7  rs2   rs1 funct3 rd  opcode
    when 'xxxxxxx xxxxx xxxxx xxx xxxxx 0110111' => X(word.rd) = immediate_u(word);                           // LUI
    when 'xxxxxxx xxxxx xxxxx xxx xxxxx 0010111' => X(word.rd) = PC + immediate_u(word);                      // AUIPC
    when 'xxxxxxx xxxxx xxxxx xxx xxxxx 1101111' =>                                                           // JAL
      next = aligned(PC + immediate_j(word));
      X(word.rd) = PC + 4;
    when 'xxxxxxx xxxxx xxxxx 000 xxxxx 1100111' =>                                                           // JALR
      next = aligned((left + immediate_i(word))[31:1] :: '0');
      X(word.rd) = PC + 4;

    when 'xxxxxxx xxxxx xxxxx 000 xxxxx 1100011' => next = branch(word, left == right);                       // BEQ
    when 'xxxxxxx xxxxx xxxxx 001 xxxxx 1100011' => next = branch(word, left != right);                       // BNE
    when 'xxxxxxx xxxxx xxxxx 100 xxxxx 1100011' => next = branch(word, SInt(left) < SInt(right));            // BLT
    when 'xxxxxxx xxxxx xxxxx 101 xxxxx 1100011' => next = branch(word, SInt(left) >= SInt(right));           // BGE
    when 'xxxxxxx xxxxx xxxxx 110 xxxxx 1100011' => next = branch(word, UInt(left) < UInt(right));            // BLTU
    when 'xxxxxxx xxxxx xxxxx 111 xxxxx 1100011' => next = branch(word, UInt(left) >= UInt(right));           // BGEU

    when 'xxxxxxx xxxxx xxxxx 000 xxxxx 0000011' =>                                                           // LB
      X(word.rd) = SignExtend{32}(Memory{8}(left + immediate_i(word)));
    when 'xxxxxxx xxxxx xxxxx 001 xxxxx 0000011' =>                                                           // LH
      X(word.rd) = SignExtend{32}(Memory{16}(left + immediate_i(word)));
    when 'xxxxxxx xxxxx xxxxx 010 xxxxx 0000011' =>                                                           // LW
      X(word.rd) = Memory{32}(left + immediate_i(word));
    when 'xxxxxxx xxxxx xxxxx 100 xxxxx 0000011' =>                                                           // LBU
      X(word.rd) = ZeroExtend{32}(Memory{8}(left + immediate_i(word)));
    when 'xxxxxxx xxxxx xxxxx 101 xxxxx 0000011' =>                                                           // LHU
      X(word.rd) = ZeroExtend{32}(Memory{16}(left + immediate_i(word)));
    when 'xxxxxxx xxxxx xxxxx 000 xxxxx 0100011' => Memory(left + immediate_s(word)) = right[7:0];            // SB
    when 'xxxxxxx xxxxx xxxxx 001 xxxxx 0100011' => Memory(left + immediate_s(word)) = right[15:0];           // SH
    when 'xxxxxxx xxxxx xxxxx 010 xxxxx 0100011' => Memory(left + immediate_s(word)) = right;                 // SW

    when 'xxxxxxx xxxxx xxxxx 000 xxxxx 0010011' => X(word.rd) = left + immediate_i(word);                    // ADDI
    when 'xxxxxxx xxxxx xxxxx 010 xxxxx 0010011' =>                                                           // SLTI
      X(word.rd) = flag(SInt(left) < SInt(immediate_i(word)));
    when 'xxxxxxx xxxxx xxxxx 011 xxxxx 0010011' =>                                                           // SLTIU
      X(word.rd) = flag(UInt(left) < UInt(immediate_i(word)));
    when 'xxxxxxx xxxxx xxxxx 100 xxxxx 0010011' => X(word.rd) = left XOR immediate_i(word);                  // XORI
    when 'xxxxxxx xxxxx xxxxx 110 xxxxx 0010011' => X(word.rd) = left OR immediate_i(word);                   // ORI
    when 'xxxxxxx xxxxx xxxxx 111 xxxxx 0010011' => X(word.rd) = left AND immediate_i(word);                  // ANDI
    when '0000000 xxxxx xxxxx 001 xxxxx 0010011' =>                                                           // SLLI
      let n = UInt(word.rs2);
      X(word.rd) = left[31 - n:0] :: Zeros{n}();
    when '0000000 xxxxx xxxxx 101 xxxxx 0010011' =>                                                           // SRLI
      let n = UInt(word.rs2);
      X(word.rd) = ZeroExtend{32}(left[31:n]);
    when '0100000 xxxxx xxxxx 101 xxxxx 0010011' =>                                                           // SRAI
      let n = UInt(word.rs2);
      X(word.rd) = SignExtend{32}(left[31:n]);

    when '0000000 xxxxx xxxxx 000 xxxxx 0110011' => X(word.rd) = left + right;                                // ADD
    when '0100000 xxxxx xxxxx 000 xxxxx 0110011' => X(word.rd) = left - right;                                // SUB
    when '0000000 xxxxx xxxxx 001 xxxxx 0110011' =>                                                           // SLL
      let n = UInt(right[4:0]);
      X(word.rd) = left[31 - n:0] :: Zeros{n}();
    when '0000000 xxxxx xxxxx 010 xxxxx 0110011' => X(word.rd) = flag(SInt(left) < SInt(right));              // SLT
    when '0000000 xxxxx xxxxx 011 xxxxx 0110011' => X(word.rd) = flag(UInt(left) < UInt(right));              // SLTU
    when '0000000 xxxxx xxxxx 100 xxxxx 0110011' => X(word.rd) = left XOR right;                              // XOR
    when '0000000 xxxxx xxxxx 101 xxxxx 0110011' =>                                                           // SRL
      let n = UInt(right[4:0]);
      X(word.rd) = ZeroExtend{32}(left[31:n]);
    when '0100000 xxxxx xxxxx 101 xxxxx 0110011' =>                                                           // SRA
      let n = UInt(right[4:0]);
      X(word.rd) = SignExtend{32}(left[31:n]);
    when '0000000 xxxxx xxxxx 110 xxxxx 0110011' => X(word.rd) = left OR right;                               // OR
    when '0000000 xxxxx xxxxx 111 xxxxx 0110011' => X(word.rd) = left AND right;                              // AND

    when 'xxxxxxx xxxxx xxxxx 000 xxxxx 0001111' => pass;                                                     // FENCE
    when '0000000 00000 00000 000 00000 1110011' => call_environment();                                       // ECALL
    when '0000000 00001 00000 000 00000 1110011' => throw Breakpoint{value = PC};                             // EBREAK
    otherwise => throw IllegalInstruction{value = word};
  end;
  if mode == stepping && next != PC + 4 then println("pc = ", UInt(next)); end;
  PC = next;
end;

// Executes what is in memory, until a trap or the limit of the loop.
func run()
begin
  PC = Zeros{32}();
  mode = running;
  while TRUE looplimit 100000 do
    execute(fetch());
  end;
end;

// What the computer does with a word. A trap changes no register and no memory; whoever handles it goes on after the word.
func decode(word: bits(32))
begin
  try
    if word == LOAD then
      PC = Zeros{32}();
      mode = loading;
    elsif word == RUN then
      run();
    elsif mode == loading then
      Memory(PC) = word;
      PC = PC + 4;
    else
      execute(word);
    end;
  catch
    when EnvironmentCall =>
      println("environment call at ", UInt(PC), ", x10 = ", SInt(X('01010')));
      mode = stepping;
      PC = PC + 4;
    when it: Trap =>
      println(it, " at ", UInt(PC));
      mode = stepping;
      PC = PC + 4;
  end;
end;

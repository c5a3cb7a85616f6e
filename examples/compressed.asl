// A machine with instructions of 32 bits, of which the most frequent have a short form of 16 bits. `asl exec` calls `decode` for a
// word of 8 digits, and `decode16` for one of 4, which builds the long form and executes it.
//
//   31   28 27   24 23   20 19   16 15                  0
//   code    d       n       m       operand
type Instruction of bits(32) {[31:28] code, [27:24] d, [23:20] n, [19:16] m, [15:0] operand};

//   15   12 11    8 7     4 3     0
//   code    d       n       operand
type Short of bits(16) {[15:12] code, [11:8] d, [7:4] n, [3:0] operand};

type Undefined of exception {word: bits(32)};

var R: array [[4]] of bits(32);
var place: integer = 0;

readonly func read(i: bits(4)) => bits(32)
begin
  return R[[UInt(i) MOD 4]];
end;

func write(i: bits(4), value: bits(32))
begin
  R[[UInt(i) MOD 4]] = value;
end;

func execute(it: Instruction)
begin
  case it.code of
    when '0001' => write(it.d, SignExtend{32}(it.operand));
    when '0010' => write(it.d, read(it.n) + SInt(it.operand));
    when '0011' => write(it.d, read(it.n) + read(it.m));
    when '0100' => write(it.d, read(it.n) - read(it.m));
    otherwise => throw Undefined{word = it};
  end;
end;

// The next instruction is 4 bytes after one of 32 bits, and 2 bytes after one of 16.
func decode(word: Instruction)
begin
  execute(word);
  place = place + 4;
end;

func decode16(word: Short)
begin
  case word.code of
    // a small number, and a small step: the operand has a sign
    when '0001' => execute('0001' :: word.d :: '0000 0000' :: SignExtend{16}(word.operand));
    when '0010' => execute('0010' :: word.d :: word.n :: '0000' :: SignExtend{16}(word.operand));
    // d = d + n, and d = d - n
    when '0011', '0100' => execute(word.code :: word.d :: word.d :: word.n :: Zeros{16}());
    otherwise => throw Undefined{word = ZeroExtend{32}(word)};
  end;
  place = place + 2;
end;

// A decoder of a small instruction set: four registers, a carry, and instructions of 32 bits.
type Instruction of bits(32) {[27:26] d, [25:24] n, [23:22] m, [20:16] amount, [15:0] imm};
type Undefined of exception {word: bits(32)};

var R: array [[4]] of bits(32);
var carry: bit;

// The sum of two values and a carry, and the carry out of its highest bit.
pure func sum{N}(x: bits(N), y: bits(N), carry_in: bit) => (bits(N), bit)
begin
  let wide = ('0' :: x) + ('0' :: y) + ZeroExtend{N + 1}(carry_in);
  return (wide[N - 1:0], wide[N]);
end;

// The value rotated to the right: two slices, whose widths are k and N - k.
pure func rotated{N}(x: bits(N), amount: integer) => bits(N)
begin
  let k = amount MOD N;
  return x[k - 1:0] :: x[N - 1:k];
end;

// Decodes and executes a word. A digit in parentheses says what the bit should be, but isn't compared.
func execute(word: bits(32))
begin
  let fields = word as Instruction;
  let d = UInt(fields.d);
  let n = UInt(fields.n);
  let m = UInt(fields.m);
  case word of
    when '0001 xx (00 00 0 00000) xxxx xxxx xxxx xxxx' =>
      R[[d]] = SignExtend{32}(fields.imm);
    when '0010 xx (00 00 0 00000) xxxx xxxx xxxx xxxx' =>
      R[[d]][31:16] = fields.imm;
    when '0100 xx xx xx (0 00000 0000 0000 0000 0000)' =>
      (R[[d]], carry) = sum(R[[n]], R[[m]], '0');
    when '0101 xx xx xx (0 00000 0000 0000 0000 0000)' =>
      (R[[d]], carry) = sum(R[[n]], R[[m]], carry);
    when '011x xx xx (00 0) xxxxx (0000 0000 0000 0000)' where fields.amount != '00000' =>
      let amount = UInt(fields.amount);
      R[[d]] = rotated(R[[n]], if word[28] == '1' then 32 - amount else amount);
    otherwise =>
      throw Undefined{word = word};
  end;
end;

func main() => integer
begin
  var text: array [[6]] of bits(32);
  text[[0]] = '0001 00 00 00 0 00000 1111 1111 1111 1110'; // R0 = -2
  text[[1]] = '0001 01 00 00 0 00000 0000 0000 0000 0101'; // R1 = 5
  text[[2]] = '0100 10 00 01 0 00000 0000 0000 0000 0000'; // R2 = R0 + R1, with a carry out
  text[[3]] = '0101 11 10 10 0 00000 0000 0000 0000 0000'; // R3 = R2 + R2 + carry
  text[[4]] = '0111 01 11 00 0 00100 0000 0000 0000 0000'; // R1 = R3, rotated to the left by 4
  text[[5]] = '0110 01 01 00 0 00000 0000 0000 0000 0000'; // not an instruction: it rotates by 0
  var count = 0;
  try
    for i = 0 to 5 do
      execute(text[[i]]);
      count = count + 1;
    end;
  catch
    when it: Undefined => println("undefined behind ", count, " instructions: ", it.word);
  end;
  for i = 0 to 3 do
    println("R", i, " = ", SInt(R[[i]]));
  end;
  return count;
end;

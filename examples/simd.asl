// Vector instructions on registers of 64 bits, with elements of 8, 16 or 32 bits. Some of them halve or double the elements, so
// there are widths that divide in their types: `E DIV 2` is that of half an element, and `N * E DIV 2` that of half a vector.
//
//   31   28 27 26 25 24 23 22 21 20 19         12 11            0
//   code    size  d     n     m     unused        operand
type Instruction of bits(32) {[31:28] code, [27:26] size, [25:24] d, [23:22] n, [21:20] m, [11:0] operand};

type Undefined of exception {word: bits(32)};

constant WIDTH = 64;
var V: array [[4]] of bits(WIDTH);

pure func low{N}(x: bits(N)) => bits(N DIV 2)
begin
  return x[N DIV 2 - 1:0];
end;

pure func high{N}(x: bits(N)) => bits(N DIV 2)
begin
  return x[N - 1:N DIV 2];
end;

// In these functions a vector has N elements of E bits.

pure func filled{N, E}(element: bits(E)) => bits(N * E)
begin
  var z: bits(N * E);
  for i = 0 to N - 1 do z[i *: E] = element; end;
  return z;
end;

pure func added{N, E}(x: bits(N * E), y: bits(N * E)) => bits(N * E)
begin
  var z: bits(N * E);
  for i = 0 to N - 1 do z[i *: E] = x[i *: E] + y[i *: E]; end;
  return z;
end;

// Each element keeps its low half.
pure func narrowed{N, E}(x: bits(N * E)) => bits(N * E DIV 2)
begin
  var z: bits(N * E DIV 2);
  for i = 0 to N - 1 do z[i *: E DIV 2] = low(x[i *: E]); end;
  return z;
end;

// Each element is extended with its sign.
pure func widened{N, E}(x: bits(N * E DIV 2)) => bits(N * E)
begin
  var z: bits(N * E);
  for i = 0 to N - 1 do z[i *: E] = SignExtend{E}(x[i *: E DIV 2]); end;
  return z;
end;

// A product is twice as wide as its factors, so none is cut.
pure func multiplied{N, E}(x: bits(N * E DIV 2), y: bits(N * E DIV 2)) => bits(N * E)
begin
  var z: bits(N * E);
  for i = 0 to N - 1 do
    z[i *: E] = Zeros{E}() + SInt(x[i *: E DIV 2]) * SInt(y[i *: E DIV 2]);
  end;
  return z;
end;

// The low halves of two vectors, an element of each in turn.
pure func zipped{N, E}(x: bits(N * E DIV 2), y: bits(N * E DIV 2)) => bits(N * E)
begin
  var z: bits(N * E);
  for i = 0 to N DIV 2 - 1 do z[i *: 2 * E] = y[i *: E] :: x[i *: E]; end;
  return z;
end;

// The sum of all elements: the two halves are added until one element is left. If N isn't a power of 2, some half isn't whole (D03).
pure func total{N, E}(x: bits(N * E)) => bits(E)
begin
  if N == 1 then return x as bits(E); end;
  return total{N DIV 2, E}(added{N DIV 2, E}(high(x), low(x)));
end;

pure func result{N, E}(it: Instruction, x: bits(N * E), y: bits(N * E)) => bits(N * E)
begin
  case it.code of
    when '0001' => return filled{N, E}(Zeros{E}() + SInt(it.operand));
    when '0010' => return added{N, E}(x, y);
    when '0011' => return Zeros{N * E DIV 2}() :: narrowed{N, E}(x);
    when '0100' => return widened{N, E}(low(x));
    when '0101' => return multiplied{N, E}(low(x), low(y));
    when '0110' => return zipped{N, E}(low(x), low(y));
    when '0111' => return ZeroExtend{N * E}(total{N, E}(x));
    otherwise => unreachable;
  end;
end;

// A vector is shown as its elements, the first on the right.
func show{N, E}(x: bits(N * E))
begin
  for i = N - 1 downto 0 do
    if i < N - 1 then print(" "); end;
    print(SInt(x[i *: E]));
  end;
  println();
end;

func execute{N, E}(it: Instruction)
begin
  let x = V[[UInt(it.n)]] as bits(N * E);
  let y = V[[UInt(it.m)]] as bits(N * E);
  let z = result{N, E}(it, x, y);
  V[[UInt(it.d)]] = z as bits(WIDTH);
  show{N, E}(z);
end;

func decode(word: Instruction)
begin
  if !(word.code IN {'0001', '001x', '010x', '011x'}) then throw Undefined{word = word}; end;
  case word.size of
    when '00' => execute{8, 8}(word);
    when '01' => execute{4, 16}(word);
    when '10' => execute{2, 32}(word);
    otherwise => throw Undefined{word = word};
  end;
end;

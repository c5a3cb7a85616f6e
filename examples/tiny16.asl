// A machine of sixteen instructions: how a word is decoded by tables, how flags and conditions work, and how exceptions are
// caught by their types. `asl exec` calls `decode` for each word of the list tiny16/all.words.
//
//   31   28 27   24 23 22   20 19 18   16 15                  0
//   condition  code  s  d        r  n       operand
//
// s: the flags are set. r: the operand is a register, whose number is in the lowest three bits.
type Instruction of bits(32) {[31:28] condition, [27:24] code, [23] s, [22:20] d, [19] r, [18:16] n, [15:0] operand};

type Operation of enumeration {
  move, invert, and, or, xor, add, add_carry, subtract, subtract_carry, compare, left, right, load, store, divide, trap,
};

// Exceptions carry values. An Outside is a Fault too; the others aren't.
type Fault of exception {at: integer};
type Undefined of Fault subtypes Fault;
type Outside of Fault subtypes Fault;
type Division of exception {dividend: integer};
type Trap of exception {number: integer};

// The flags: negative, zero, carry and overflow.
type Flags of bits(4) {[3] n, [2] z, [1] c, [0] v};

var R: array [[8]] of bits(16);
var memory: array [[8]] of bits(16);
var flags: Flags;
var count: integer;

// The table of operations. It has every code of four bits, so it needs no `otherwise`: a code that no alternative matches would
// end the run with D09.
pure func operation_of(code: bits(4)) => Operation
begin
  case code of
    when '0000' => return move;
    when '0001' => return invert;
    when '0010' => return and;
    when '0011' => return or;
    when '0100' => return xor;
    when '0101' => return add;
    when '0110' => return add_carry;
    when '0111' => return subtract;
    when '1000' => return subtract_carry;
    when '1001' => return compare;
    when '1010' => return left;
    when '1011' => return right;
    when '1100' => return load;
    when '1101' => return store;
    when '1110' => return divide;
    when '1111' => return trap;
  end;
end;

// Whether the flags satisfy a condition. Its lowest bit inverts the answer, except that 1111 always holds, as 1110 does.
pure func holds(condition: bits(4), it: Flags) => boolean
begin
  var answer: boolean;
  case condition of
    when '000x' => answer = it.z == '1';                   // equal, not equal
    when '001x' => answer = it.c == '1';                   // carry, none; at least and below, without a sign
    when '010x' => answer = it.n == '1';                   // negative, not
    when '011x' => answer = it.v == '1';                   // overflow, none
    when '100x' => answer = it.[z, c] == '01';             // above, not above, without a sign
    when '101x' => answer = it.n == it.v;                  // at least, less, with a sign
    when '110x' => answer = it.n == it.v && it.z == '0';   // greater, not greater, with a sign
    when '111x' => return TRUE;
  end;
  return answer == (condition[0] == '0');
end;

// A sum with its flags, for every width N. With NOT y and a carry of 1 it is a difference.
pure func sum{N}(x: bits(N), y: bits(N), carry: bit) => (bits(N), Flags)
begin
  let wide = ('0' :: x) + ('0' :: y) + ZeroExtend{N + 1}(carry);
  let result = wide[N - 1:0];
  var it: Flags;
  it.n = result[N - 1];
  it.z = if IsZero(result) then '1' else '0';
  it.c = wide[N];
  it.v = (x[N - 1] XOR result[N - 1]) AND (y[N - 1] XOR result[N - 1]);
  return (result, it);
end;

// The cell at an address.
func cell(base: bits(16), offset: bits(16)) => integer{0..7}
begin
  let at = UInt(base) + UInt(offset);
  if !(at IN {0..7}) then throw Outside{at = at}; end;
  return at as {0..7};
end;

func execute(word: Instruction)
begin
  let operation = operation_of(word.code);
  if word.r == '1' && word[15:3] != Zeros{13}() then throw Undefined{at = count}; end;
  if !holds(word.condition, flags) then
    println(operation, " is left out");
    return;
  end;
  let d = UInt(word.d);
  let x = R[[UInt(word.n)]];
  let y = if word.r == '1' then R[[UInt(word[2:0])]] else word.operand;
  var result = R[[d]];
  var now = flags;
  case operation of
    when move => result = y;
    when invert => result = NOT y;
    when and => result = x AND y;
    when or => result = x OR y;
    when xor => result = x XOR y;
    when add => (result, now) = sum(x, y, '0');
    when add_carry => (result, now) = sum(x, y, flags.c);
    when subtract => (result, now) = sum(x, NOT y, '1');
    when subtract_carry => (result, now) = sum(x, NOT y, flags.c);
    when compare =>
      (-, flags) = sum(x, NOT y, '1');
      println(operation, ": flags ", flags);
      return;
    when left =>
      let places = UInt(y[3:0]);
      result = x[15 - places:0] :: Zeros{places}();
    when right =>
      let places = UInt(y[3:0]);
      result = ZeroExtend{16}(x[15:places]);
    when load =>
      let at = cell(x, y);
      result = memory[[at]];
    when store =>
      let at = cell(x, y);
      memory[[at]] = result;
    when divide =>
      if IsZero(y) then throw Division{dividend = UInt(x)}; end;
      result = (UInt(x) DIVRM UInt(y))[15:0];
    when trap => throw Trap{number = UInt(y)};
  end;
  R[[d]] = result;
  if word.s == '1' then
    now.n = result[15];
    now.z = if IsZero(result) then '1' else '0';
    flags = now;
  end;
  println(operation, ": R", d, " = ", SInt(result), ", flags ", flags);
end;

// The first catcher whose type fits is taken, so the special one comes before the general one. A trap with the number 0 is thrown
// again, and since nothing else catches it, it ends the whole list.
func decode(word: bits(32))
begin
  count = count + 1;
  try
    execute(word);
  catch
    when it: Outside => println("there is no cell ", it.at);
    when it: Fault => println("instruction ", it.at, ": ", it);
    when it: Trap =>
      if it.number == 0 then throw; end;
      println("trap ", it.number);
    otherwise => println("not done");
  end;
end;

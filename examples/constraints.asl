// Integers are exact, up to 128 bits. A constraint in braces says which of them a variable may hold: it is part of the type, and
// whether a value fits is mostly checked before anything runs.
type Digit of integer{0..9};
type Size of integer{8, 16, 32, 64};

// The types of the operands say what a sum can be: 0..9 and 0..9 give 0..18, with the carry 0..19, and MOD 10 gives 0..9 again.
// So neither result needs a check during the run.
pure func add_digits(x: Digit, y: Digit, carry: integer{0, 1}) => (Digit, integer{0..1})
begin
  let sum = x + y + carry;
  return (sum MOD 10, sum DIVRM 10);
end;

// MOD 10 gives 0..9 of any number, so this needs no check either.
pure func digit(n: integer, place: integer) => Digit
begin
  return (n DIVRM 10 ^ place) MOD 10;
end;

// The smallest of the four sizes that can hold a number. If the types say too little, `as` asserts the rest: the value is checked
// during the run, and any other value is D07. Without `as` this return is refused (T07), because the power may be any integer.
pure func size_for(n: integer) => Size
begin
  for k = 3 to 5 do
    if n < 2 ^ (2 ^ k) then return 2 ^ k as Size; end;
  end;
  return 64;
end;

// The ends of a constraint can be parameters: an index below the width is inside, for any width.
pure func with_bit{N}(x: bits(N), place: integer{0..N - 1}) => bits(N)
begin
  var value = x;
  value[place] = '1';
  return value;
end;

func main() => integer
begin
  // A variable without a type may hold any integer. One with a type starts at 0, or else at its first number.
  var number = 7;
  number = number * 1000000;
  var size: Size;
  println(number, " ", size);

  // 7999 + 16, digit by digit.
  var carry: integer{0..1} = 0;
  var sum: array [[5]] of Digit;
  for i = 0 to 4 do
    (sum[[i]], carry) = add_digits(digit(7999, i), digit(16, i), carry);
  end;
  println(sum);

  size = size_for(65535);
  println(size, " ", size_for(65536), " ", size_for(2 ^ 40));
  println(with_bit('0000', 3), " ", with_bit('00', 0));

  // A conversion that fails ends the run, with a fault at the conversion.
  let millions = number DIVRM 1000000;
  return (millions as {1..32}) + (size as {8, 64});
end;

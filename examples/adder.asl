// Adders and shifters for every width. A name in braces after a function's name is a parameter: the width of an argument, as
// here, or one that the call gives. A declaration is checked once, for all widths, before anything runs.

// A full adder: the sum of three bits, and the bit that is carried.
pure func full(x: bit, y: bit, carry: bit) => (bit, bit)
begin
  return (x XOR y XOR carry, (x AND y) OR (carry AND (x XOR y)));
end;

// N full adders in a row. `x[i]` is one bit, of a value or of a variable that is assigned to.
pure func rippled{N}(x: bits(N), y: bits(N), carry_in: bit) => (bits(N), bit)
begin
  var sum: bits(N);
  var carry = carry_in;
  for i = 0 to N - 1 do
    (sum[i], carry) = full(x[i], y[i], carry);
  end;
  return (sum, carry);
end;

// The same with one addition that is one bit wider: addition wraps around at its own width.
pure func added{N}(x: bits(N), y: bits(N), carry_in: bit) => (bits(N), bit)
begin
  let wide = ('0' :: x) + ('0' :: y) + ZeroExtend{N + 1}(carry_in);
  return (wide[N - 1:0], wide[N]);
end;

// Shifts and rotations by 0 to N places. The slices have the widths N - n and n, and `N - n + n` is N for all integers.
pure func left{N}(x: bits(N), n: integer) => bits(N)
begin
  return x[N - n - 1:0] :: Zeros{n}();
end;

pure func right{N}(x: bits(N), n: integer) => bits(N)
begin
  return Zeros{n}() :: x[N - 1:n];
end;

pure func right_signed{N}(x: bits(N), n: integer) => bits(N)
begin
  return SignExtend{N}(x[N - 1:n]);
end;

pure func turned_right{N}(x: bits(N), n: integer) => bits(N)
begin
  return x[n - 1:0] :: x[N - 1:n];
end;

// One shift for each bit of the number of places, the lowest first: this is how a barrel shifter works.
pure func barrel{N}(x: bits(N), places: bits(3)) => bits(N)
begin
  var value = x;
  for i = 0 to 2 do
    if places[i] == '1' then value = left(value, 2 ^ i); end;
  end;
  return value;
end;

func main() => integer
begin
  // Both adders agree on all numbers of four bits.
  var count = 0;
  for i = 0 to 15 do
    for j = 0 to 15 do
      for k = 0 to 1 do
        let (sum, carry) = rippled(i[3:0], j[3:0], k[0]);
        let (same_sum, same_carry) = added(i[3:0], j[3:0], k[0]);
        assert sum == same_sum && carry == same_carry;
        count = count + 1;
      end;
    end;
  end;

  // The greatest number of 64 bits, plus one: zeros, and a carry.
  println(added(Ones{64}(), Zeros{64}(), '1'));

  let x = '1001 0110';
  println(left(x, 3), " ", right(x, 3), " ", right_signed(x, 3), " ", turned_right(x, 3), " ", barrel(x, '101'));
  return count;
end;

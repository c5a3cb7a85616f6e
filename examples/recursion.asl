// Subprograms that call themselves. At most 256 calls of one subprogram are live at a time, or as many as its `recurselimit` says.
// One more call ends the run with D11, so no recursion goes on for ever.

// The greatest common divisor. No two numbers below 2^127 need more than 200 calls.
pure func gcd(a: integer, b: integer) => integer recurselimit 200
begin
  return if b == 0 then a else gcd(b, a MOD b);
end;

// Two functions that call each other; each has a limit of its own.
pure func is_even(n: integer) => boolean recurselimit 51
begin
  return n == 0 || is_odd(n - 1);
end;

pure func is_odd(n: integer) => boolean recurselimit 51
begin
  return n != 0 && is_even(n - 1);
end;

// The moves for a tower of n discs. A procedure has no result, and is called as a statement.
var moves: integer = 0;

func move_tower(discs: integer, start: integer, goal: integer, spare: integer) recurselimit 11
begin
  if discs == 0 then return; end;
  move_tower(discs - 1, start, spare, goal);
  moves = moves + 1;
  if moves <= 3 then println("a disc from ", start, " to ", goal); end;
  move_tower(discs - 1, spare, goal, start);
end;

// The bits of a value in reverse order, by halves: each call has a width of its own.
pure func reversed{N}(x: bits(N)) => bits(N)
begin
  let half = N DIVRM 2;
  return if N < 2 then x else reversed(x[half - 1:0]) :: reversed(x[N - 1:half]);
end;

func main() => integer
begin
  println(gcd(1071, 462), " ", gcd(2 ^ 60, 6 ^ 20));
  println(is_even(100), " ", is_odd(100));
  move_tower(10, 1, 3, 2);
  println(reversed('1101 0001 0'));
  return moves;
end;

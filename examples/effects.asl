// The word before `func` says what a subprogram may do to the global variables, and is checked before anything runs: a `pure` one
// neither reads nor writes them, a `readonly` one may read them, and any other may also write them, print and throw.
var ticket: integer = 100;
var served: array [[3]] of integer;
constant FIRST = 100;

// Constants can be read in a pure function too.
pure func place(of_ticket: integer) => integer
begin
  return (of_ticket - FIRST) MOD 3;
end;

readonly func waiting() => integer
begin
  return ticket - FIRST - served[[0]] - served[[1]] - served[[2]];
end;

// Returns the next number, and so it writes: with `readonly` it would be refused (T12, at the assignment).
func next_ticket() => integer
begin
  ticket = ticket + 1;
  return ticket - 1;
end;

func serve(number: integer)
begin
  let counter = place(number);
  served[[counter]] = served[[counter]] + 1;
end;

func main() => integer
begin
  // Operands are evaluated from left to right, but no expression depends on that: if one operand writes, the others must be pure.
  // So `next_ticket() - next_ticket()` and `next_ticket() + waiting()` are refused (T13). One after another is fine.
  let first = next_ticket();
  let second = next_ticket();
  let third = next_ticket() + place(first);

  // Two operands of one expression may both read.
  println(first, " ", second, " ", third, ": ", waiting() + ticket);

  // The condition of an assertion may read but not write; the limit of a loop is pure.
  serve(first);
  assert waiting() == 2;
  for i = place(second) to place(third) do
    serve(FIRST + i);
  end;
  return waiting();
end;

// Global variables, a branch and printed text. After the line that says how the run ended comes a line for each global variable.
var count: integer = 2;
var is_even: boolean;

func main() => integer
begin
  let doubled = count * 2;
  if doubled MOD 2 == 0 then
    is_even = TRUE;
    println("doubled: ", doubled);
  else
    println("odd");
  end;
  count = doubled - 1;
  return count DIVRM 2;
end;

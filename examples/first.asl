// The smallest program that runs: a function `main` without parameters, which returns an integer.
func main() => integer
begin
  return 0;
end;

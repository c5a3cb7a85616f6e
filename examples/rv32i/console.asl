// An environment for rv32i.asl: where x17 is 1, ECALL prints the number in x10, and the program goes on. Else it ends.
implementation func call_environment()
begin
  if UInt(X('10001')) == 1 then
    println("printed ", SInt(X('01010')));
  else
    throw EnvironmentCall{value = Zeros{32}()};
  end;
end;

// Declared types, in any order: a record that holds an array, an enumeration, and an exception as a value.
type Lamp of record {colour: Colour, lit: array [[COUNT]] of boolean};
constant COUNT = 1 + 2;
type Colour of enumeration {red, green};
type Failure of exception {place: integer};

var lamp: Lamp;
let failure = Failure{place = COUNT};

func main() => integer
begin
  lamp.lit[[1]] = TRUE;
  let other = Lamp{lit = lamp.lit, colour = green};
  (lamp.colour, -) = (other.colour, 0);
  let (is_lit, place) = (lamp.lit[[1]], failure.place);
  println(lamp.colour, " ", is_lit);
  return if is_lit then place else 0;
end;

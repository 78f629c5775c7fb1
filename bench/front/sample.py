"""A routine with most forms of statements, which the scripts here repeat; %d stands for its number."""

CODE = """routine total%d(l: list$seq[shapes$shape], most: int) returns (int)
  var s: int := 0; # the sum so far
  for x: shapes$shape in l.elements() do
    if x.area() > most and not (s = most) then s := s + x.area() * 2; else break; end
  end
  begin put_int(s / (most - 17)); except when zero_divide do put_byte(10); end
  return s;
end
"""

module prog uses shapes, list;
routine total(l: list$seq[shapes$shape]) returns (int)
  var s: int := 0;
  for x: shapes$shape in l.elements() do s := s + x.area(); end
  return s;
end
routine main()
  var l: list$seq[shapes$shape] :=
    new list$chain[shapes$shape](new shapes$square(1));
  var i: int := 2;
  while i <= 10 do
    l.add(new shapes$square(i));
    l.add(new shapes$rect(i, i + 1));
    i := i + 1;
  end
  put_int(total(l)); put_byte(10);
end
end

# GAP: the whole table of each degree, the best of some runs by its own clock; start-up is left out.
for n in [10, 12, 14, 16] do
  best := infinity;
  for k in [1 .. 7] do
    GASMAN("collect");
    begun := NanosecondsSinceEpoch();
    table := Irr(CharacterTable("Symmetric", n));
    best := Minimum(best, NanosecondsSinceEpoch() - begun);
  od;
  Print(n, " ", best, "\n");
od;
QUIT;

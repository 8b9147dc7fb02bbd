// The primes below SIZE, found TIMES times over.
class Row [int];
main arena {
  let n: int = SIZE;
  let row: mut Row = new Row [n];
  let found: int = 0;
  let turn: int = 0;
  while turn < TIMES {
    let i: int = 2;
    while i < n { row[i] = 1; i = i + 1; }
    found = 0;
    i = 2;
    while i < n {
      if row[i] == 1 {
        found = found + 1;
        let k: int = i + i;
        while k < n { row[k] = 0; k = k + i; }
      }
      i = i + 1;
    }
    turn = turn + 1;
  }
  print found;
}

// SIZE numbers, sorted by exchanging neighbours, TIMES times over.
class Row [int];
main arena {
  let n: int = SIZE;
  let row: mut Row = new Row [n];
  let turn: int = 0;
  while turn < TIMES {
    let x: int = 1;
    let i: int = 0;
    while i < n { row[i] = x; x = (x * 75 + 74) % 65537; i = i + 1; }
    let last: int = n - 1;
    while last > 0 {
      i = 0;
      while i < last {
        let a: int = row[i];
        let b: int = row[i + 1];
        if a > b { row[i] = b; row[i + 1] = a; }
        i = i + 1;
      }
      last = last - 1;
    }
    turn = turn + 1;
  }
  print row[0];
  print row[n / 2];
  print row[n - 1];
}

// The product of two matrices of SIZE rows, TIMES times over.
class Row [int];
class Matrix [mut Row];
class Work {
  def paused made(n: int, step: int): mut Matrix {
    let made: mut Matrix = new Matrix [n];
    let value: int = 1;
    let i: int = 0;
    while i < n {
      let row: mut Row = new Row [n];
      let k: int = 0;
      while k < n { row[k] = value; value = (value + step) % 101; k = k + 1; }
      made[i] = row;
      i = i + 1;
    }
    return made;
  }
  def paused multiply(a: paused Matrix, b: paused Matrix, c: mut Matrix) {
    let n: int = size a;
    let i: int = 0;
    while i < n {
      let row: paused Row = a[i];
      let into: mut Row = c[i];
      let j: int = 0;
      while j < n {
        let sum: int = 0;
        let k: int = 0;
        while k < n {
          let other: paused Row = b[k];
          sum = sum + row[k] * other[j];
          k = k + 1;
        }
        into[j] = sum;
        j = j + 1;
      }
      i = i + 1;
    }
  }
}
main arena {
  let n: int = SIZE;
  let work: mut Work = new Work;
  let a: mut Matrix = call work.made(n, 7);
  let b: mut Matrix = call work.made(n, 13);
  let c: mut Matrix = call work.made(n, 0);
  let turn: int = 0;
  while turn < TIMES { call work.multiply(a, b, c); turn = turn + 1; }
  let diagonal: int = 0;
  let i: int = 0;
  while i < n { let row: mut Row = c[i]; diagonal = diagonal + row[i]; i = i + 1; }
  print diagonal;
}

// A binary heap in a row: the numbers of the input, at most 1,000, go in as they come and come out
// in order. Above the place `at` stands `(at - 1) / 2`, so no references are needed.
class Row [int];
class Heap {
  row: mut Row;
  many: int;

  def mut push(value: int) {
    let row: mut Row = self.row;
    let at: int = self.many;
    self.many = at + 1;
    let above: int = (at - 1) / 2;
    let rises: bool = at > 0 and row[above] > value;
    while rises {
      row[at] = row[above];
      at = above;
      above = (at - 1) / 2;
      rises = at > 0 and row[above] > value;
    }
    row[at] = value;
  }

  def mut pop(): int {
    let row: mut Row = self.row;
    let least: int = row[0];
    self.many = self.many - 1;
    let value: int = row[self.many];
    let at: int = 0;
    let below: int = 1;
    while below < self.many {
      if below + 1 < self.many and row[below + 1] < row[below] { below = below + 1; }
      if row[below] < value { row[at] = row[below]; at = below; below = 2 * at + 1; }
      else { below = self.many; }
    }
    row[at] = value;
    return least;
  }
}
main arena {
  let heap: mut Heap = new Heap;
  heap.row = new Row [1000];
  let go: bool = more;
  while go {
    let value: int = read;
    call heap.push(value);
    go = more;
  }
  while heap.many > 0 {
    let least: int = call heap.pop();
    print least;
  }
}

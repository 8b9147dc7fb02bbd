// A binary heap: SIZE numbers go in and come out in order, TIMES times over.
class Row [int];
class Heap {
  items: mut Row;
  many: int;
  def mut push(value: int) {
    let items: mut Row = self.items;
    let at: int = self.many;
    self.many = at + 1;
    let go: bool = at > 0;
    while go {
      let above: int = (at - 1) / 2;
      let other: int = items[above];
      if other > value { items[at] = other; at = above; go = at > 0; } else { go = false; }
    }
    items[at] = value;
  }
  def mut pop(): int {
    let items: mut Row = self.items;
    let least: int = items[0];
    let many: int = self.many - 1;
    self.many = many;
    let value: int = items[many];
    let at: int = 0;
    let child: int = 1;
    while child < many {
      let lesser: int = items[child];
      if child + 1 < many {
        let other: int = items[child + 1];
        if other < lesser { lesser = other; child = child + 1; }
      }
      if lesser < value { items[at] = lesser; at = child; child = 2 * child + 1; } else { child = many; }
    }
    items[at] = value;
    return least;
  }
}
main arena {
  let heap: mut Heap = new Heap;
  heap.items = new Row [SIZE];
  let sum: int = 0;
  let turn: int = 0;
  while turn < TIMES {
    let x: int = 1;
    let k: int = 0;
    while k < SIZE { call heap.push(x); x = (x * 75 + 74) % 65537; k = k + 1; }
    k = 0;
    while k < SIZE { let least: int = call heap.pop(); sum = (sum * 31 + least) % 1000003; k = k + 1; }
    turn = turn + 1;
  }
  print sum;
}

// A program with every form of the language.
class Node { value: int; done: bool; next: mut Node; down: iso Node; fixed: imm Node;
  def mut set(v: int, other: paused Node) { self.value = v; self.next = new Node; }
  def paused get(): int { return self.value; }
  def imm same(n: imm Node): bool { return self == n; }
}
tmp class Cursor { at: paused Node; back: tmp Cursor;
  def tmp step() { self.at = self.at.next; } }
class Row [int];
tmp class Trail [paused Node];
main trace {
  let row: mut Row = new Row [2 + 1];
  row[0] = size row; row[2] = -row[0] + 4;
  let far: iso Row = new iso Row [row[2]] in trace;
  let box: iso Node = new iso Node in count;
  let other: iso Node = new iso Node in arena;
  enter box as n {
    let c: tmp Cursor = new tmp Cursor;
    let t: tmp Trail = new tmp Trail [1]; t[0] = n;
    call n.set(1 + 2 * 3, c.at);
    let v: int = call n.get();
    while not v < 0 and (v > 10 or v == 9) { v = (v - 1) / 2 % 4; }
    swap other, n.down;
    enter n.down as d { collect; let e: mut Node = new Node; e.next = d; } giving e;
    swap other, n.down;
    if n.next is nil { print -v; } else { print true; }
    if v != 3 { print v <= 4; }
  }
  let f: imm Node = freeze box;
  let m: mut Node = merge other;
  let r: int = read;
  let go: bool = more;
  print (f.value + r) * 2 >= 8;
  print row[2];
}

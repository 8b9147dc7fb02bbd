// A doubly linked list. Within a region any object may lead to any other, so a node leads both ways;
// what is taken out leads on into the list, and is freed by `trace` as soon as nothing leads to it.
class Node {
  value: int;
  before: mut Node;
  behind: mut Node;
}
class List {
  first: mut Node;
  last: mut Node;
  def mut push(value: int) {
    let node: mut Node = new Node;
    node.value = value;
    node.before = self.last;
    if self.last is nil { self.first = node; } else { self.last.behind = node; }
    self.last = node;
  }
  def mut take_out(node: mut Node) {
    if node.before is nil { self.first = node.behind; } else { node.before.behind = node.behind; }
    if node.behind is nil { self.last = node.before; } else { node.behind.before = node.before; }
  }
  // Takes out each node with a value that the number divides.
  def mut thin(number: int) {
    let at: mut Node = self.first;
    while not at is nil {
      if at.value % number == 0 { call self.take_out(at); }
      at = at.behind;
    }
  }
  def paused sum_forth(): int {
    let sum: int = 0;
    let at: paused Node = self.first;
    while not at is nil { sum = sum * 3 + at.value; at = at.behind; }
    return sum;
  }
  def paused sum_back(): int {
    let sum: int = 0;
    let at: paused Node = self.last;
    while not at is nil { sum = sum * 3 + at.value; at = at.before; }
    return sum;
  }
}
main arena {
  let box: iso List = new iso List in trace;
  enter box as list {
    let k: int = 1;
    while k <= 10 { call list.push(k); k = k + 1; }
    call list.thin(2);
    let forth: int = call list.sum_forth();
    let back: int = call list.sum_back();
    print forth;
    print back;
    collect;
  }
  let frozen: imm List = freeze box;
  print frozen.first.behind.before == frozen.first;
  print frozen.last.value;
}

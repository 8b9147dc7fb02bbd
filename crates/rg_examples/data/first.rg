// A list in a region of its own: made, filled, frozen.
class Node { value: int; next: mut Node; }
class List {
  head: mut Node;
  def mut push(v: int) {
    let n: mut Node = new Node;
    n.value = v;
    n.next = self.head;
    self.head = n;
  }
}
main arena {
  let box: iso List = new iso List in trace;
  enter box as l { call l.push(3); call l.push(4); }
  let f: imm List = freeze box;
  print f.head.value;
}

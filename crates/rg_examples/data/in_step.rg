// Two regions in step: both lists are walked at once. The window of the second one is opened within
// that of the first, so the first list is paused there: it is read while the second one is written.
class Node {
  value: int;
  next: mut Node;
}
class List {
  first: mut Node;
  def mut push(value: int) {
    let node: mut Node = new Node;
    node.value = value;
    node.next = self.first;
    self.first = node;
  }
  // To each number is added the one at the same place of another list, which only is read.
  def mut add(other: paused List) {
    let at: mut Node = self.first;
    let from: paused Node = other.first;
    while not at is nil and not from is nil {
      at.value = at.value + from.value;
      at = at.next;
      from = from.next;
    }
  }
  def paused sum(): int {
    let sum: int = 0;
    let at: paused Node = self.first;
    while not at is nil { sum = sum * 10 + at.value; at = at.next; }
    return sum;
  }
}
main arena {
  let one: iso List = new iso List in trace;
  let two: iso List = new iso List in count;
  enter one as list { call list.push(1); call list.push(2); call list.push(3); }
  enter two as list { call list.push(4); call list.push(3); call list.push(2); call list.push(1); }

  enter one as source {
    enter two as target { call target.add(source); }
    // The first list is written again, once the inner window is closed.
    source.first = source.first.next;
    enter two as target { call target.add(source); collect; }
    collect;
  }
  let left: imm List = freeze one;
  let sum: imm List = freeze two;
  let first: int = call left.sum();
  let second: int = call sum.sum();
  print first;
  print second;
}

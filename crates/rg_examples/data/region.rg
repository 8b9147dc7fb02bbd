// A region: objects that are reached from outside by one owner alone, with a manager of memory
// of their own. Main's own objects lie in a region too; `arena` frees nothing of it.
class Node {
  value: int;
  next: mut Node;
}
class Stack {
  top: mut Node;
  def mut push(value: int) {
    let node: mut Node = new Node;
    node.value = value;
    node.next = self.top;
    self.top = node;
  }
  def mut pop(): int {
    let value: int = self.top.value;
    self.top = self.top.next;
    return value;
  }
}
main arena {
  let last: int = 0;
  let limit: mut Node = new Node;
  limit.value = 3;

  // A closed region whose bridge is a new Stack, and whose manager marks and sweeps.
  let box: iso Stack = new iso Stack in trace;

  // Only inside can its objects be used. `limit` is seen as `paused` here: it is read.
  enter box as stack {
    while last < limit.value {
      last = last + 1;
      call stack.push(last * 10);
    }
    last = call stack.pop();
    // What was popped is not reachable any more. `collect` asks the manager to take it back; what
    // the program prints never depends on that.
    collect;
    print stack.top.value;
  }
  print last;

  // An `iso` variable moves: `box` is nil afterwards, until it is assigned again.
  let moved: iso Stack = box;
  enter moved as stack {
    print stack.top.next.value;
  }
}

// Objects: a list that is linked from its head. Fields start as 0, false and nil.
class Node {
  value: int;
  next: mut Node;
}
class List {
  head: mut Node;
  // A method with the receiver `mut` may write its object.
  def mut push(value: int) {
    let node: mut Node = new Node;
    node.value = value;
    node.next = self.head;
    self.head = node;
  }
  // One with the receiver `paused` only reads, so each reference but an `iso` one may call it.
  def paused sum(): int {
    let sum: int = 0;
    let at: paused Node = self.head;
    while not at is nil {
      sum = sum + at.value;
      at = at.next;
    }
    return sum;
  }
  def mut reverse() {
    let done: mut Node = nil;
    while not self.head is nil {
      let node: mut Node = self.head;
      self.head = node.next;
      node.next = done;
      done = node;
    }
    self.head = done;
  }
}
main arena {
  let list: mut List = new List;
  let k: int = 1;
  while k <= 4 {
    call list.push(k * k);
    k = k + 1;
  }
  let sum: int = call list.sum();
  print sum;
  print list.head.value;
  call list.reverse();
  print list.head.value;
  print list.head.next.value;
}

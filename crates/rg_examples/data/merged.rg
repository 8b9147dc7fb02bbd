// Merging: a closed region becomes a part of the active one, without a copy. Its bridge is then an
// object as any other, and its manager's work goes over to the active region's manager.
class Node {
  value: int;
  next: mut Node;
}
class List {
  head: mut Node;
  last: mut Node;
  def mut add(value: int) {
    let node: mut Node = new Node;
    node.value = value;
    if self.last is nil {
      self.head = node;
    } else {
      self.last.next = node;
    }
    self.last = node;
  }
  // Hangs the nodes of another list of the same region behind those of this one.
  def mut append(other: mut List) {
    if self.last is nil {
      self.head = other.head;
    } else {
      self.last.next = other.head;
    }
    self.last = other.last;
  }
}
main trace {
  let all: iso List = new iso List in trace;
  let k: int = 0;
  while k < 3 {
    // Each part is built in a region of its own, and may be built anywhere.
    let part: iso List = new iso List in count;
    enter part as list {
      call list.add(k * 10 + 1);
      call list.add(k * 10 + 2);
    }
    enter all as list {
      let mine: mut List = merge part;
      call list.append(mine);
    }
    k = k + 1;
  }
  // Here the whole list is merged into main's region.
  let list: mut List = merge all;
  let at: mut Node = list.head;
  while not at is nil {
    print at.value;
    at = at.next;
  }
}

// A list of 1,000 nodes in a region of its own: its sum, and again once every second node is unlinked.
class Node { value: int; next: mut Node; }
class List {
  head: mut Node;
  def mut push(v: int) {
    let n: mut Node = new Node; n.value = v; n.next = self.head; self.head = n;
  }
  def mut thin() {
    let p: mut Node = self.head;
    let go: bool = not p is nil;
    while go {
      if p.next is nil { go = false; } else {
        p.next = p.next.next; p = p.next; go = not p is nil;
      }
    }
  }
  def paused sum(): int {
    let s: int = 0;
    let p: paused Node = self.head;
    while not p is nil { s = s + p.value; p = p.next; }
    return s;
  }
}
main arena {
  let box: iso List = new iso List in trace;
  enter box as l {
    let i: int = 1;
    while i <= 1000 { call l.push(i); i = i + 1; }
    let all: int = call l.sum();
    print all;
    call l.thin();
    let half: int = call l.sum();
    print half;
    collect;
  }
  print 1;
}

// Temporaries: an object of a `tmp class` ends with the window in which it was made. So it may
// hold `paused` references, into regions that are open around it, which no other object may.
class Node {
  value: int;
  next: mut Node;
}
class Found {
  value: int;
  times: int;
}
tmp class Cursor {
  at: paused Node;
  seen: int;
  def tmp start(at: paused Node) {
    self.at = at;
    self.seen = 0;
  }
  def paused is_at_end(): bool {
    return self.at is nil;
  }
  def tmp next(): int {
    let value: int = self.at.value;
    self.at = self.at.next;
    self.seen = self.seen + 1;
    return value;
  }
}
main trace {
  let head: mut Node = nil;
  let k: int = 0;
  while k < 8 {
    let node: mut Node = new Node;
    node.value = k * k % 7;
    node.next = head;
    head = node;
    k = k + 1;
  }

  let result: iso Found = new iso Found in arena;
  enter result as found {
    // The list lies outside of this window and is paused here; a cursor walks it all the same,
    // while the entered region is written.
    let cursor: tmp Cursor = new tmp Cursor;
    call cursor.start(head);
    found.value = 4;
    let ended: bool = call cursor.is_at_end();
    while not ended {
      let value: int = call cursor.next();
      if value == found.value {
        found.times = found.times + 1;
      }
      ended = call cursor.is_at_end();
    }
    print cursor.seen;
  }
  let frozen: imm Found = freeze result;
  print frozen.times;
}

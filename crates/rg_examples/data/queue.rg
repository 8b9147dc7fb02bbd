// A queue in a region of its own, whose bridge is the node in front. A window that ends with
// `giving` makes another object the bridge: the one behind takes its place.
class Node {
  number: int;
  next: mut Node;
}
class Queue {
  front: iso Node;

  def mut add(number: int) {
    if self.front is nil {
      let made: iso Node = new iso Node in trace;
      enter made as node { node.number = number; }
      swap made, self.front;
    } else {
      enter self.front as front {
        let last: mut Node = front;
        while not last.next is nil { last = last.next; }
        last.next = new Node;
        last = last.next;
        last.number = number;
      }
    }
  }

  // The number in front; 0 where there is none.
  def mut take(): int {
    let number: int = 0;
    let others: bool = false;
    if not self.front is nil {
      enter self.front as front {
        number = front.number;
        others = not front.next is nil;
      }
      if others {
        enter self.front as front {
          let next: mut Node = front.next;
        } giving next;
        // Nothing leads to the old one any more.
        enter self.front as front { collect; }
      } else {
        let empty: iso Node = nil;
        swap empty, self.front;
      }
    }
    return number;
  }
}
main arena {
  let queue: mut Queue = new Queue;
  let k: int = 1;
  while k <= 4 { call queue.add(k * k); k = k + 1; }
  let number: int = call queue.take();
  print number;
  number = call queue.take();
  print number;
  call queue.add(25);
  while not queue.front is nil {
    number = call queue.take();
    print number;
  }
}

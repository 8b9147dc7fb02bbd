// A list in a region whose every third object stays. With `reggio slide` what a collection keeps
// moves to the lowest cells of the region.
class Node { number: int; next: mut Node; }
class List { head: mut Node; }
main arena {
  let list: iso List = new iso List in trace;
  enter list as l {
    let round: int = 0;
    while round < 3 {
      let k: int = 0;
      while k < 9 {
        let node: mut Node = new Node;
        node.number = k;
        if k % 3 == 0 { node.next = l.head; l.head = node; }
        k = k + 1;
      }
      collect;
      round = round + 1;
    }
    print l.head.number;
  }
}

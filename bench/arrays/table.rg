// A hash table with chains, of 4,096 slots: SIZE numbers are counted in it, TIMES times over.
class Node { key: int; times: int; next: mut Node; }
class Slots [mut Node];
class Table {
  slots: mut Slots;
  nodes: int;
  def mut add(key: int) {
    let slots: mut Slots = self.slots;
    let at: int = key % size slots;
    let node: mut Node = slots[at];
    let go: bool = not node is nil;
    while go {
      if node.key == key { go = false; } else { node = node.next; go = not node is nil; }
    }
    if node is nil {
      node = new Node;
      node.key = key;
      node.next = slots[at];
      slots[at] = node;
      self.nodes = self.nodes + 1;
    }
    node.times = node.times + 1;
  }
}
main arena {
  let table: mut Table = new Table;
  table.slots = new Slots [4096];
  let turn: int = 0;
  while turn < TIMES {
    let x: int = 1;
    let k: int = 0;
    while k < SIZE { call table.add(x); x = (x * 75 + 74) % 65537; k = k + 1; }
    turn = turn + 1;
  }
  print table.nodes;
  let slots: mut Slots = table.slots;
  let node: mut Node = slots[1];
  while not node is nil { print node.key; print node.times; node = node.next; }
}

// A graph with cycles, built in one region, frozen, and read from two others at once. Freezing asks
// nothing of the shape: within a region references may go round.
class Edge {
  to: mut Node;
  next: mut Edge;
}
class Node {
  number: int;
  edges: mut Edge;
  next: mut Node;
  def mut lead(to: mut Node) {
    let edge: mut Edge = new Edge;
    edge.to = to;
    edge.next = self.edges;
    self.edges = edge;
  }
}
class Graph {
  nodes: mut Node;
  def mut add(number: int): mut Node {
    let node: mut Node = new Node;
    node.number = number;
    node.next = self.nodes;
    self.nodes = node;
    return node;
  }
  // Each of `many` nodes leads to the next one, the last one to the first, and each back, too.
  def mut ring(many: int) {
    let first: mut Node = call self.add(0);
    let before: mut Node = first;
    let k: int = 1;
    while k < many {
      let node: mut Node = call self.add(k);
      call before.lead(node);
      call node.lead(before);
      before = node;
      k = k + 1;
    }
    call before.lead(first);
    call first.lead(before);
  }
}
// One who goes along the graph: it stands at a node, and each has a region of its own.
class Walker {
  at: imm Node;
  sum: int;
  // Along the first edge of each node, or along the second one.
  def mut step(takes_first: bool) {
    let edge: imm Edge = self.at.edges;
    if not takes_first { edge = edge.next; }
    self.at = edge.to;
    self.sum = self.sum + self.at.number;
  }
}
main arena {
  let made: iso Graph = new iso Graph in trace;
  enter made as graph { call graph.ring(5); }
  let graph: imm Graph = freeze made;

  let one: iso Walker = new iso Walker in count;
  let two: iso Walker = new iso Walker in arena;
  enter one as walker { walker.at = graph.nodes; }
  enter two as walker { walker.at = graph.nodes; }
  let is_one: bool = false;
  let k: int = 0;
  while k < 7 {
    enter one as walker {
      call walker.step(k % 3 == 1);
      print walker.at.number;
      // Within this window the other region is entered, and both read the same nodes.
      enter two as other { call other.step(k % 2 == 0); is_one = walker.at == other.at; }
    }
    k = k + 1;
  }
  print is_one;
  enter one as walker { print walker.sum; }
  enter two as walker { print walker.sum; }
}

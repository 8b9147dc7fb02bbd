// Collections that are placed: by hand behind each round, where nearly nothing is in use, and beside
// that wherever a pacer asks for one, which knows nothing of rounds.
class Node {
  value: int;
  next: mut Node;
}
class Round {
  scratch: mut Node;
  best: mut Node;
  // A list of so many numbers; the greatest of them stays, and the rest is not needed any more.
  def mut play(many: int, seed: int) {
    let k: int = 0;
    while k < many {
      let node: mut Node = new Node;
      node.value = (seed + k * 37) % 101;
      node.next = self.scratch;
      self.scratch = node;
      if self.best is nil { self.best = node; }
      if self.best.value < node.value { self.best = node; }
      k = k + 1;
    }
    self.scratch = nil;
    self.best.next = nil;
  }
}
main arena {
  let box: iso Round = new iso Round in trace;
  enter box as round {
    let k: int = 0;
    while k < 5 {
      call round.play(40, k * 11);
      collect;
      k = k + 1;
    }
    print round.best.value;
  }
}

// A tree under two managers: its branches lead up and down, so they lie in a region of `trace`, and
// the leaves of a branch come and go together, so they lie in an arena that the branch owns.
class Leaf {
  value: int;
  next: mut Leaf;
}
class Leaves {
  first: mut Leaf;
  def mut fill(from: int, many: int) {
    let k: int = 0;
    while k < many {
      let leaf: mut Leaf = new Leaf;
      leaf.value = from + k;
      leaf.next = self.first;
      self.first = leaf;
      k = k + 1;
    }
  }
  def paused sum(): int {
    let sum: int = 0;
    let at: paused Leaf = self.first;
    while not at is nil { sum = sum + at.value; at = at.next; }
    return sum;
  }
}
class Branch {
  above: mut Branch;
  left: mut Branch;
  right: mut Branch;
  leaves: iso Leaves;
  def mut grow(depth: int, from: int) {
    if depth == 0 {
      let leaves: iso Leaves = new iso Leaves in arena;
      enter leaves as it { call it.fill(from, 10); }
      swap leaves, self.leaves;
    } else {
      self.left = new Branch;
      self.left.above = self;
      call self.left.grow(depth - 1, from);
      self.right = new Branch;
      self.right.above = self;
      call self.right.grow(depth - 1, from + 100);
    }
  }
  def mut sum(): int {
    let sum: int = 0;
    if self.left is nil {
      enter self.leaves as it { sum = call it.sum(); }
    } else {
      let left: int = call self.left.sum();
      let right: int = 0;
      if not self.right is nil { right = call self.right.sum(); }
      sum = left + right;
    }
    return sum;
  }
}
main arena {
  let tree: iso Branch = new iso Branch in trace;
  enter tree as root {
    call root.grow(3, 1000);
    let sum: int = call root.sum();
    print sum;
    // Half of the tree goes. Its branches lead to one another, up and down, and one of them still
    // leads to the root: nothing leads to them, so `trace` frees them, and each arena goes with them.
    root.right = nil;
    collect;
    sum = call root.sum();
    print sum;
  }
}

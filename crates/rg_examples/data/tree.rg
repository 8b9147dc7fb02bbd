// Recursion: a binary search tree. Each call has a frame of its own, and at most 4,096 frames
// stand at once, main's among them: one more is the trap `depth`.
class Tree {
  key: int;
  left: mut Tree;
  right: mut Tree;
  def mut insert(key: int) {
    if key < self.key {
      if self.left is nil {
        self.left = new Tree;
        self.left.key = key;
      } else {
        call self.left.insert(key);
      }
    } else {
      if self.right is nil {
        self.right = new Tree;
        self.right.key = key;
      } else {
        call self.right.insert(key);
      }
    }
  }
  // The keys in order.
  def paused show() {
    if not self.left is nil { call self.left.show(); }
    print self.key;
    if not self.right is nil { call self.right.show(); }
  }
  // A method with a result has one `return`, as its last statement.
  def paused height(): int {
    let left: int = 0;
    let right: int = 0;
    if not self.left is nil { left = call self.left.height(); }
    if not self.right is nil { right = call self.right.height(); }
    if left < right { left = right; }
    return left + 1;
  }
}
main arena {
  let root: mut Tree = new Tree;
  root.key = 50;
  let k: int = 1;
  while k <= 6 {
    call root.insert(k * 37 % 100);
    k = k + 1;
  }
  call root.show();
  let height: int = call root.height();
  print height;
}

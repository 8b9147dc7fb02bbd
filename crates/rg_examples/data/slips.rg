class A {
  v: int;
  next: mut A;
  down: iso A;
  def paused get(): int { return self.v; }
  def mut put(k: int) { self.v = k; }
  def mut eat(x: iso A) { }
  def mut give(x: iso A): iso A { return x; }
  // there
}
class Row [int];
class All [mut A];
main arena {
  let a: mut A = new A;
  let k: int = 1;
  let b: bool = true;
  let y: iso A = new iso A in trace;
  let row: mut Row = new Row [3];
  let all: mut All = new All [3];
  // here
}

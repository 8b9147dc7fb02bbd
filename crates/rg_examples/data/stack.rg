// A stack whose row grows: when it is full, a row of twice as many elements takes its place. It
// prints the numbers of the input, the last one first.
class Row [int];
class Stack {
  row: mut Row;
  many: int;

  def mut open() { self.row = new Row [2]; }

  def mut grow() {
    let row: mut Row = self.row;
    let wider: mut Row = new Row [2 * size row];
    let k: int = 0;
    while k < size row { wider[k] = row[k]; k = k + 1; }
    self.row = wider;
  }

  def mut push(value: int) {
    let row: mut Row = self.row;
    if self.many == size row { call self.grow(); row = self.row; }
    row[self.many] = value;
    self.many = self.many + 1;
  }

  def mut pop(): int {
    let row: mut Row = self.row;
    self.many = self.many - 1;
    return row[self.many];
  }
}
main count {
  let stack: mut Stack = new Stack;
  call stack.open();
  let go: bool = more;
  while go {
    let value: int = read;
    call stack.push(value);
    go = more;
  }
  while stack.many > 0 {
    let value: int = call stack.pop();
    print value;
  }
}

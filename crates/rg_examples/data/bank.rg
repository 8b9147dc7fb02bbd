// All of it together: a bank. Each branch has its accounts in a region of its own. Orders come in
// as three numbers each, (branch, account, cents); a branch that is closed goes to the archive.
class Account {
  number: int;
  cents: int;
  next: mut Account;
}
class Branch {
  number: int;
  accounts: mut Account;
  behind: iso Branch;
  def mut book(number: int, cents: int): bool {
    let at: mut Account = self.accounts;
    let looks: bool = not at is nil;
    while looks {
      looks = at.number != number;
      if looks { at = at.next; looks = not at is nil; }
    }
    if at is nil {
      at = new Account;
      at.number = number;
      at.next = self.accounts;
      self.accounts = at;
    }
    let is_covered: bool = at.cents + cents >= 0;
    if is_covered { at.cents = at.cents + cents; }
    return is_covered;
  }
  def paused total(): int {
    let total: int = 0;
    let at: paused Account = self.accounts;
    while not at is nil { total = total + at.cents; at = at.next; }
    return total;
  }
}
main count {
  let refused: int = 0;
  let first: iso Branch = new iso Branch in trace;
  let second: iso Branch = new iso Branch in count;
  enter first as branch { branch.number = 1; }
  enter second as branch { branch.number = 2; }
  let go: bool = more;
  while go {
    let to: int = read;
    let number: int = read;
    let cents: int = read;
    let is_done: bool = false;
    if to == 1 { enter first as branch { is_done = call branch.book(number, cents); } }
    if to == 2 { enter second as branch { is_done = call branch.book(number, cents); } }
    if not is_done { refused = refused + 1; }
    go = more;
  }
  print refused;
  // The second branch goes behind the first one, and both are frozen.
  enter first as branch { swap second, branch.behind; }
  let archive: imm Branch = freeze first;
  let one: int = call archive.total();
  let two: int = call archive.behind.total();
  print one;
  print two;
  print one + two;
}

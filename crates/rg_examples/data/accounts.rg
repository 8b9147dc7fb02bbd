// A bank of accounts, each in a cown of its own: accounts.plan says who deposits, transfers and looks, and on which accounts.

class Account {
  cents: int;
}

class Deposit {
  account: iso Account;
  def mut hundred() {
    enter self.account as account { account.cents = account.cents + 100; }
  }
}

class Transfer {
  from: iso Account;
  to: iso Account;
  // As much as is there, thirty at most; nobody sees the cents that have left one account and aren't in the other yet.
  def mut thirty() {
    let cents: int = 30;
    enter self.from as from {
      if from.cents < cents { cents = from.cents; }
      from.cents = from.cents - cents;
    }
    enter self.to as to { to.cents = to.cents + cents; }
    print cents;
  }
}

class Total {
  one: iso Account;
  two: iso Account;
  three: iso Account;
  def mut show() {
    let sum: int = 0;
    enter self.one as account { sum = sum + account.cents; }
    enter self.two as account { sum = sum + account.cents; }
    enter self.three as account { sum = sum + account.cents; }
    print sum;
  }
}

main arena { }

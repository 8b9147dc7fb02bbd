// What a trap leaves: the cowns of the behaviour are empty, and a later one may put something new there.

class Account {
  cents: int;
}

class Sharing {
  account: iso Account;
  pot: iso Account;
  def mut among_none() {
    let people: int = 0;
    let share: int = 0;
    enter self.pot as pot { pot.cents = pot.cents + 100; share = pot.cents / people; }
    enter self.account as account { account.cents = account.cents + share; }
  }
}

class Look {
  account: iso Account;
  def mut cents() {
    enter self.account as account { print account.cents; }
  }
}

class Mending {
  account: iso Account;
  def mut mend() {
    print self.account is nil;
    if self.account is nil {
      let account: iso Account = new iso Account in trace;
      swap account, self.account;
    }
  }
}

main arena { }

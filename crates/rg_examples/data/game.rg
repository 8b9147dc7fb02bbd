// A game that is put into a file and goes on from there: players in a ring, each with a purse of their own, and rules that are
// frozen and shared. game.plan begins it and keeps it as game.rgi, and game_on.plan loads that and goes on.

class Rules {
  most: int;
}

class Purse {
  coins: int;
}

class Player {
  name: int;
  rules: imm Rules;
  purse: iso Purse;
  next: mut Player;
}

class Game {
  turn: mut Player;
  // For three players, of whom each has the next one on the left, and the third has the first.
  def mut deal(rules: imm Rules) {
    let first: mut Player = nil;
    let last: mut Player = nil;
    let k: int = 3;
    while k > 0 {
      let player: mut Player = new Player;
      player.name = k;
      player.rules = rules;
      let purse: iso Purse = new iso Purse in count;
      enter purse as it { it.coins = 10 * k; }
      swap purse, player.purse;
      player.next = first;
      first = player;
      if last is nil { last = player; }
      k = k - 1;
    }
    last.next = first;
    self.turn = first;
  }
}

class Opening {
  game: iso Game;
  def mut deal() {
    let book: iso Rules = new iso Rules in arena;
    enter book as it { it.most = 35; }
    let rules: imm Rules = freeze book;
    enter self.game as game { call game.deal(rules); }
  }
}

class Turn {
  game: iso Game;
  // Who has the turn takes seven coins, as far as the rules let one have them, and the next one has it then.
  def mut take() {
    enter self.game as game {
      let player: mut Player = game.turn;
      print player.name;
      let most: int = player.rules.most;
      let coins: int = 0;
      enter player.purse as purse {
        purse.coins = purse.coins + 7;
        if purse.coins > most { purse.coins = most; }
        coins = purse.coins;
      }
      print coins;
      game.turn = player.next;
    }
  }
}

class Look {
  game: iso Game;
  // Whether three steps lead round the ring, and whether all have the same rules.
  def mut round() {
    enter self.game as game {
      let one: mut Player = game.turn;
      let two: mut Player = one.next;
      let three: mut Player = two.next;
      print three.next == one and not two == one and not three == two;
      print one.rules == two.rules and two.rules == three.rules and not one.rules is nil;
    }
  }
}

main arena { }

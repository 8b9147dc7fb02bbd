// A free list: objects that are used again. In an arena nothing is freed before the region goes, so
// who makes many short-lived objects of one class keeps those that aren't used in a list.
class Ticket {
  number: int;
  next: mut Ticket;
}
class Pool {
  free: mut Ticket;
  used: mut Ticket;
  made: int;
  def mut draw(number: int) {
    let ticket: mut Ticket = self.free;
    if ticket is nil {
      ticket = new Ticket;
      self.made = self.made + 1;
    } else {
      self.free = ticket.next;
    }
    ticket.number = number;
    ticket.next = self.used;
    self.used = ticket;
  }
  // The ticket that was drawn last goes back.
  def mut back(): int {
    let ticket: mut Ticket = self.used;
    self.used = ticket.next;
    ticket.next = self.free;
    self.free = ticket;
    return ticket.number;
  }
}
main arena {
  let box: iso Pool = new iso Pool in arena;
  enter box as pool {
    let sum: int = 0;
    let day: int = 0;
    while day < 20 {
      // One to five tickets are out at once, and all are back in the evening.
      let many: int = day % 5 + 1;
      let k: int = 0;
      while k < many { call pool.draw(10 * day + k); k = k + 1; }
      while not pool.used is nil { let number: int = call pool.back(); sum = sum + number; }
      day = day + 1;
    }
    print sum;
    print pool.made;
  }
}

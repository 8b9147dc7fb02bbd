// An arena for a request: what a request makes lies in a region of its own, which goes with it, and
// what stays is a number of the service. The input has the requests: how many items each has, and
// behind it the items.
class Item {
  value: int;
  next: mut Item;
}
class Request {
  first: mut Item;
  many: int;
  def mut add(value: int) {
    let item: mut Item = new Item;
    item.value = value;
    item.next = self.first;
    self.first = item;
    self.many = self.many + 1;
  }
  // The items in the other order: as many objects again, and nobody asks who frees the first ones.
  def mut turn() {
    let at: mut Item = self.first;
    self.first = nil;
    self.many = 0;
    while not at is nil { call self.add(at.value); at = at.next; }
  }
  // Each item times its place, from 1.
  def paused weighed(): int {
    let sum: int = 0;
    let place: int = 1;
    let at: paused Item = self.first;
    while not at is nil { sum = sum + place * at.value; place = place + 1; at = at.next; }
    return sum;
  }
}
class Session {
  requests: int;
  most: int;
}
main arena {
  let service: iso Session = new iso Session in trace;
  let go: bool = more;
  while go {
    let many: int = read;
    let request: iso Request = new iso Request in arena;
    let answer: int = 0;
    enter request as it {
      while it.many < many { let value: int = read; call it.add(value); }
      call it.turn();
      answer = call it.weighed();
    }
    enter service as session {
      session.requests = session.requests + 1;
      if answer > session.most { session.most = answer; }
    }
    print answer;
    go = more;
    // Here `request` ends, and its region with it.
  }
  enter service as session { print session.requests; print session.most; }
}

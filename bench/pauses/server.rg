// A server's shape: SESSIONS objects in a region that lives long, and requests, each in a region of
// its own, which is collected nine times and goes at the end. SESSIONS and REQUESTS are put in by pauses.py.
class Session { hits: int; next: mut Session; }
class Sessions {
  at: mut Session;
  // A ring.
  def mut open(many: int) {
    let first: mut Session = new Session;
    first.next = first;
    let k: int = 1;
    while k < many {
      let session: mut Session = new Session;
      session.next = first.next;
      first.next = session;
      k = k + 1;
    }
    self.at = first;
  }
  def mut visit(hits: int) {
    self.at.hits = self.at.hits + hits;
    self.at = self.at.next;
  }
}
class Item { value: int; next: mut Item; }
class Request {
  first: mut Item;
  def mut fill(seed: int) {
    let k: int = 0;
    while k < 100 {
      let item: mut Item = new Item;
      item.value = (seed + k) % 7;
      item.next = self.first;
      self.first = item;
      k = k + 1;
    }
  }
  // The items in the other order, as new objects; the old ones aren't needed any more.
  def mut turn() {
    let from: mut Item = self.first;
    let to: mut Item = nil;
    while not from is nil {
      let item: mut Item = new Item;
      item.value = from.value;
      item.next = to;
      to = item;
      from = from.next;
    }
    self.first = to;
  }
  def paused sum(): int {
    let sum: int = 0;
    let at: paused Item = self.first;
    while not at is nil { sum = sum + at.value; at = at.next; }
    return sum;
  }
}
main arena {
  let store: iso Sessions = new iso Sessions in trace;
  enter store as sessions { call sessions.open(SESSIONS); }
  let k: int = 0;
  while k < REQUESTS {
    let box: iso Request = new iso Request in trace;
    let sum: int = 0;
    enter box as request {
      call request.fill(k);
      let turns: int = 0;
      while turns < 9 { call request.turn(); collect; turns = turns + 1; }
      sum = call request.sum();
    }
    enter store as sessions { call sessions.visit(sum); }
    print sum;
    k = k + 1;
  }
  // whole: enter store as sessions { collect; } print k;
}

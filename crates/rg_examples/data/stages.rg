// A pipeline: batches of numbers go from hand to hand through belts. A belt is a cown that holds a batch or none.

class Item {
  value: int;
  next: mut Item;
}

class Batch {
  first: mut Item;
  def mut add(value: int) {
    let item: mut Item = new Item;
    item.value = value;
    item.next = self.first;
    self.first = item;
  }
  def mut square() {
    let at: mut Item = self.first;
    while not at is nil { at.value = at.value * at.value; at = at.next; }
  }
  def paused sum(): int {
    let sum: int = 0;
    let at: paused Item = self.first;
    while not at is nil { sum = sum + at.value; at = at.next; }
    return sum;
  }
}

class Belt {
  made: int;
  batch: iso Batch;
}

class Maker {
  to: iso Belt;
  def mut make() {
    enter self.to as belt {
      belt.made = belt.made + 1;
      let batch: iso Batch = new iso Batch in arena;
      enter batch as items {
        let k: int = 1;
        while k <= 3 { call items.add(belt.made * 10 + k); k = k + 1; }
      }
      swap batch, belt.batch;
    }
  }
}

class Squarer {
  from: iso Belt;
  to: iso Belt;
  def mut square() {
    let batch: iso Batch = nil;
    enter self.from as belt { swap batch, belt.batch; }
    enter batch as items { call items.square(); }
    enter self.to as belt { swap batch, belt.batch; }
  }
}

class Printer {
  from: iso Belt;
  def mut show() {
    let batch: iso Batch = nil;
    enter self.from as belt { swap batch, belt.batch; }
    let sum: int = 0;
    enter batch as items { sum = call items.sum(); }
    print sum;
  }
}

main arena { }

// A queue between two regions: what one has made goes to the other as it is. A parcel is a region
// of its own, so its owner can stand in a variable, in the queue, and in a variable again.
class Item {
  weight: int;
  next: mut Item;
}
class Parcel {
  items: mut Item;
  behind: mut Parcel;
  def mut add(weight: int) {
    let item: mut Item = new Item;
    item.weight = weight;
    item.next = self.items;
    self.items = item;
  }
  def paused weight(): int {
    let sum: int = 0;
    let at: paused Item = self.items;
    while not at is nil { sum = sum + at.weight; at = at.next; }
    return sum;
  }
}
class Cell {
  parcel: iso Parcel;
  next: mut Cell;
}
class Queue {
  first: mut Cell;
  last: mut Cell;
  def mut put(parcel: iso Parcel) {
    let cell: mut Cell = new Cell;
    swap parcel, cell.parcel;
    if self.first is nil { self.first = cell; } else { self.last.next = cell; }
    self.last = cell;
  }
  def mut take(): iso Parcel {
    let parcel: iso Parcel = nil;
    swap parcel, self.first.parcel;
    self.first = self.first.next;
    return parcel;
  }
}
class Mill {
  made: int;
}
class Shop {
  shelf: mut Parcel;
  def mut receive(parcel: mut Parcel) {
    parcel.behind = self.shelf;
    self.shelf = parcel;
  }
  def paused weight(): int {
    let sum: int = 0;
    let at: paused Parcel = self.shelf;
    while not at is nil { let weight: int = call at.weight(); sum = sum + weight; at = at.behind; }
    return sum;
  }
}
main count {
  let queue: mut Queue = new Queue;
  let first: iso Mill = new iso Mill in arena;
  let second: iso Shop = new iso Shop in trace;

  let k: int = 0;
  while k < 3 {
    let parcel: iso Parcel = new iso Parcel in arena;
    // The mill's window is open, and the parcel's within it.
    enter first as mill {
      mill.made = mill.made + 1;
      enter parcel as it {
        call it.add(mill.made);
        call it.add(10 * mill.made);
      }
    }
    call queue.put(parcel);
    k = k + 1;
  }

  while not queue.first is nil {
    let parcel: iso Parcel = call queue.take();
    // Nothing is copied: from here on the parcel's objects are the shop's.
    enter second as shop {
      let mine: mut Parcel = merge parcel;
      call shop.receive(mine);
    }
  }
  // Two of the cells are counted to nothing; to the third one `last` still leads.
  collect;

  enter second as shop {
    let weight: int = call shop.weight();
    print weight;
    // The parcel that came last goes from the shelf: an object of the shop like any other.
    shop.shelf = shop.shelf.behind;
    collect;
    weight = call shop.weight();
    print weight;
  }
}
